-- Histories in PostgreSQL. A history's journal is its rows in order of place, and a byte 0 behind them.
CREATE TABLE IF NOT EXISTS worker (
    id      uuid PRIMARY KEY,
    address text NOT NULL,                -- where other workers reach it
    until   timestamptz NOT NULL          -- its lease, by this database's clock
);
CREATE TABLE IF NOT EXISTS history (
    id         bigint GENERATED ALWAYS AS IDENTITY PRIMARY KEY,
    name       text NOT NULL UNIQUE,
    owner      uuid,                      -- the worker that took it last
    epoch      bigint NOT NULL DEFAULT 0, -- rises whenever it is taken: the fence of each append
    generation integer NOT NULL DEFAULT 1,-- rises whenever an operator says that it was restored
    volume     integer NOT NULL DEFAULT 0,-- rises whenever the journal is replaced by a shorter one
    length     bigint NOT NULL DEFAULT 0  -- bytes of the journal
) WITH (fillfactor = 50);                 -- so that its updates stay within a page, and touch no index
CREATE TABLE IF NOT EXISTS journal (
    history bigint NOT NULL REFERENCES history ON DELETE CASCADE,
    volume  integer NOT NULL,
    place   bigint NOT NULL,
    bytes   bytea NOT NULL,
    PRIMARY KEY (history, volume, place)
);
CREATE TABLE IF NOT EXISTS device (
    history    bigint NOT NULL REFERENCES history ON DELETE CASCADE,
    uuid       uuid NOT NULL,
    owner      text NOT NULL,             -- the user that first bound it
    generation integer NOT NULL,          -- that of the history at that time
    bound      timestamptz NOT NULL DEFAULT now(),
    PRIMARY KEY (history, uuid)
);
