"""One suite that every store passes: what it stores is there, once, in order; who lost a history changes nothing of it."""

import asyncio
import contextlib
import dataclasses
import errno
import fcntl
import os
import random
import unittest
import unittest.mock
import uuid

from support import PATIENCE, cluster, folder

from realm_service.stores import Absent, Device, Elsewhere, Fenced, StoreDown
from realm_service.stores.files import Files, journal_end
from realm_service.stores.postgres import MOST_LINKS, Postgres
from realm_service.stores.sqlite import Sqlite

FIRST = b"RSYNCJ01\x00"  # a journal without records: what a node writes into an empty one
ANN, BOB = uuid.uuid4().bytes, uuid.uuid4().bytes


def record(body):
    """What a batch leaves from the closed gate on: an open gate, the record with its length, and the new closed gate."""
    return b"\x01" + len(body).to_bytes(4, "big") + body + b"\x00"


class Suite:
    """The cases, over `made`, which gives a new store at the same place."""

    def made(self):
        raise NotImplementedError

    async def taken_from(self, lease):
        """Lets another owner have the history, whatever the first one believes. Answers the other's store and lease."""
        raise NotImplementedError

    async def asyncSetUp(self):
        self.store = self.made()
        await self.store.start("http://127.0.0.1:1")
        self.others = []

    async def asyncTearDown(self):
        for it in [self.store, *self.others]:
            await it.stop()

    async def new(self, name="family"):
        lease = await self.store.acquire(name, True)
        await self.store.read(lease)
        await self.store.append(lease, 0, FIRST, [])
        return lease

    async def test_no_history_is_absent_and_create_makes_it(self):
        with self.assertRaises(Absent):
            await self.store.acquire("family", False)
        lease = await self.store.acquire("family", True)
        self.assertEqual(tuple(await self.store.read(lease)), (b"", {}))
        self.assertEqual(lease.generation, 1)
        self.assertEqual(await self.store.names(), ["family"])

    async def test_what_was_appended_is_read(self):
        lease = await self.new()
        await self.store.append(lease, 8, record(b"one"), [(ANN, "ann")])
        await self.store.append(lease, 16, record(b"three"), [(BOB, "bob the 2nd")])
        await self.store.release(lease)
        again = await self.store.acquire("family", False)
        journal, devices = await self.store.read(again)
        self.assertEqual(journal, b"RSYNCJ01" + record(b"one")[:-1] + record(b"three"))
        self.assertEqual(devices, {ANN: Device("ann", 1), BOB: Device("bob the 2nd", 1)})

    async def test_claims_alone_and_nothing_at_all(self):
        lease = await self.new()
        await self.store.append(lease, 0, b"", [(ANN, "ann")])
        await self.store.append(lease, 0, b"", [])
        self.assertEqual(tuple(await self.store.read(lease)), (FIRST, {ANN: Device("ann", 1)}))

    async def test_the_first_user_of_a_uuid_stays(self):
        lease = await self.new()
        await self.store.append(lease, 8, record(b"one"), [(ANN, "ann")])
        await self.store.append(lease, 16, record(b"two"), [(ANN, "eve")])
        self.assertEqual((await self.store.read(lease)).devices, {ANN: Device("ann", 1)})

    async def test_many_rows_are_one_journal(self):
        lease = await self.new()
        want = b"RSYNCJ01"
        for number in range(300):
            tail = record(b"%d" % number)
            await self.store.append(lease, len(want), tail, [])
            want += tail[:-1]
        for _ in range(2):
            self.assertEqual((await self.store.read(lease)).journal, want + b"\0")
        await self.store.append(lease, len(want), record(b"last"), [])
        self.assertEqual((await self.store.read(lease)).journal, want + record(b"last"))

    async def test_a_shorter_journal_in_place_of_the_old_one(self):
        lease = await self.new()
        await self.store.append(lease, 8, record(b"long" * 1000), [(ANN, "ann")])
        await self.store.replace(lease, b"RSYNCJ01" + record(b"short"))
        await self.store.append(lease, 18, record(b"next"), [])
        await self.store.release(lease)
        again = await self.store.acquire("family", False)
        self.assertEqual(tuple(await self.store.read(again)), (b"RSYNCJ01" + record(b"short")[:-1] + record(b"next"), {ANN: Device("ann", 1)}))

    async def test_no_shorter_journal_in_place_of_what_was_appended_since(self):
        lease = await self.new()
        await self.store.append(lease, 8, record(b"one"), [])
        before = dataclasses.replace(lease)
        await self.store.append(lease, 16, record(b"two"), [])
        with self.assertRaises(Fenced):
            await self.store.replace(before, FIRST)
        await self.store.append(lease, 24, record(b"three"), [])
        want = b"RSYNCJ01" + record(b"one")[:-1] + record(b"two")[:-1] + record(b"three")
        self.assertEqual((await self.store.read(lease)).journal, want)

    async def test_a_lease_that_is_read_again_knows_its_length(self):
        lease = await self.new()
        await self.store.append(lease, 8, record(b"one"), [])
        await self.store.release(lease)
        again = await self.store.acquire("family", False)
        await self.store.read(again)
        self.assertEqual(again.length, 16)
        await self.store.replace(again, FIRST)
        self.assertEqual((await self.store.read(again)).journal, FIRST)

    async def test_generations_stay_with_devices(self):
        lease = await self.new()
        await self.store.append(lease, 8, record(b"one"), [(ANN, "ann")])
        await self.store.raise_generation(lease)
        await self.store.append(lease, 16, record(b"two"), [(BOB, "bob")])
        await self.store.release(lease)
        again = await self.store.acquire("family", False)
        self.assertEqual((again.generation, (await self.store.read(again)).devices), (2, {ANN: Device("ann", 1), BOB: Device("bob", 2)}))

    async def test_nobody_else_reads_what_is_stored(self):
        lease = await self.new()
        await self.store.append(lease, 8, record(b"one"), [(ANN, "ann")])
        at = getattr(self, "at", None)  # of PostgreSQL there is none
        beside = [os.path.join(at, it) for it in os.listdir(at)] if at and os.path.isdir(at) else [at + it for it in ("", "-wal")] if at else []
        self.assertEqual({os.stat(it).st_mode & 0o077 for it in beside} - {0}, set(), beside)

    async def test_removed_is_absent(self):
        lease = await self.new()
        await self.store.remove(lease)
        with self.assertRaises(Absent):
            await self.store.acquire("family", False)
        self.assertEqual(await self.store.names(), [])

    async def test_histories_dont_mix(self):
        leases = [await self.new(f"family-{number}") for number in range(20)]
        await asyncio.gather(*(self.store.append(lease, 8, record(lease.name.encode()), [(ANN, lease.name)]) for lease in leases))
        for lease in leases:
            self.assertEqual(tuple(await self.store.read(lease)), (b"RSYNCJ01" + record(lease.name.encode()), {ANN: Device(lease.name, 1)}))

    async def test_who_lost_it_changes_nothing(self):
        lease = await self.new()
        await self.store.append(lease, 8, record(b"one"), [])
        store, taken = await self.taken_from(lease)
        await store.read(taken)
        for attempt in (
            lambda: self.store.append(lease, 16, record(b"bad"), []),
            lambda: self.store.append(lease, 16, record(b"bad"), [(ANN, "eve")]),
            lambda: self.store.replace(lease, FIRST),
            lambda: self.store.remove(lease),
            lambda: self.store.read(lease),
        ):
            with self.assertRaises(Fenced):
                await attempt()
        await store.append(taken, 16, record(b"two"), [])
        with self.assertRaises(Fenced):
            await self.store.append(lease, 16, record(b"bad"), [])
        self.assertEqual(tuple(await store.read(taken)), (b"RSYNCJ01" + record(b"one")[:-1] + record(b"two"), {}))


class Failing:
    """A sync of which one call fails, counted from 1."""

    def __init__(self, failing):
        self.left, self.sync = failing, os.fsync

    def __call__(self, file):
        self.left -= 1
        if self.left == 0:
            raise OSError(errno.EIO, "a sync fails")
        self.sync(file)


class OfFiles(Suite, unittest.IsolatedAsyncioTestCase):
    def setUp(self):
        self.at = os.path.join(folder(), "histories")

    def made(self):
        return Files(self.at)

    async def taken_from(self, lease):
        """Somebody puts a copy in the file's place, whose lock is free."""
        path = os.path.join(self.at, "family.realm")
        with open(path, "rb") as file, open(path + ".copy", "wb") as copy:
            copy.write(file.read())
        os.rename(path + ".copy", path)
        other = self.made()
        self.others.append(other)
        await other.start("")
        return other, await other.acquire("family", False)

    async def test_an_open_history_is_elsewhere(self):
        await self.new()
        other = self.made()
        self.others.append(other)
        with self.assertRaises(Elsewhere):
            await other.acquire("family", True)

    async def test_a_line_that_a_crash_cut_is_written_over(self):
        lease = await self.new()
        await self.store.append(lease, 8, record(b"one"), [(ANN, "ann")])
        with open(os.path.join(self.at, "family.devices"), "ab") as file:
            file.write(BOB.hex().encode() + b" 1 bo")
        self.assertEqual((await self.store.read(lease)).devices, {ANN: Device("ann", 1)})
        await self.store.append(lease, 16, record(b"two"), [(BOB, "bob")])
        self.assertEqual((await self.store.read(lease)).devices, {ANN: Device("ann", 1), BOB: Device("bob", 1)})

    async def test_a_letter_that_a_crash_cut_is_written_over(self):
        lease = await self.new()
        await self.store.append(lease, 8, record(b"one"), [(ANN, "ann")])
        with open(os.path.join(self.at, "family.devices"), "ab") as file:
            file.write(f"{BOB.hex()} 1 J\u00fcrg".encode()[:-3])
        self.assertEqual((await self.store.read(lease)).devices, {ANN: Device("ann", 1)})

    async def test_what_a_failed_sync_left_is_written_anew(self):
        """The system counts it as written, and it may not be there after a loss of power."""
        for failing, added in ((1, b""), (2, b""), (3, record(b"two")[:-1])):  # of the devices' line, of what is behind the gate, of the gate
            lease = await self.new(f"family-{failing}")
            await self.store.append(lease, 8, record(b"one"), [(ANN, "ann")])
            held = self._files(lease)
            with unittest.mock.patch("os.fsync", Failing(failing)), self.assertRaises(StoreDown):
                await self.store.append(lease, 16, record(b"two"), [(BOB, "bob")])
            journal, devices = await self.store.read(lease)
            self.assertEqual(journal[: journal_end(journal)], b"RSYNCJ01" + record(b"one")[:-1] + added)
            self.assertEqual(devices, {ANN: Device("ann", 1), BOB: Device("bob", 1)})
            anew = self._files(lease)
            self.assertNotIn(True, [it == then for it, then in zip(anew, held)])
            await self.store.read(lease)
            self.assertEqual(self._files(lease), anew)

    def _files(self, lease):
        """Which files have the names now."""
        return [os.stat(os.path.join(self.at, lease.name + end)).st_ino for end in (".realm", ".devices")]

    async def test_an_exchange_of_which_a_sync_fails(self):
        """The old journal or the new one is there, whole, and is written anew once it is read."""
        for failing, want in ((1, b"RSYNCJ01" + record(b"long")), (2, FIRST)):  # of the new file, of the folder
            lease = await self.new(f"family-{failing}")
            await self.store.append(lease, 8, record(b"long"), [])
            with unittest.mock.patch("os.fsync", Failing(failing)), self.assertRaises(StoreDown):
                await self.store.replace(lease, FIRST)
            await self.store.release(lease)
            again = await self.store.acquire(lease.name, False)
            left = os.stat(os.path.join(self.at, lease.name + ".realm")).st_ino
            self.assertEqual((await self.store.read(again)).journal, want)
            self.assertNotEqual(os.stat(os.path.join(self.at, lease.name + ".realm")).st_ino, left)

    async def test_nobody_gets_the_lock_while_files_are_exchanged(self):
        """Neither of the old file, up to its last moment, nor of the new one, from its first: as another command would try it."""
        lease, path, rename, is_free = await self.new(), os.path.join(self.at, "family.realm"), os.rename, []

        def lock():
            with open(path, "r+b") as file:
                try:
                    fcntl.flock(file, fcntl.LOCK_EX | fcntl.LOCK_NB)
                    is_free.append(True)
                except BlockingIOError:
                    is_free.append(False)

        def exchange(old, new):
            lock()
            rename(old, new)
            lock()

        with unittest.mock.patch("os.rename", exchange):
            await self.store.replace(lease, b"RSYNCJ01" + record(b"other"))
        lock()
        self.assertEqual(is_free, [False, False, False])

    async def test_a_file_that_somebody_cut_isnt_appended_to(self):
        lease = await self.new()
        await self.store.append(lease, 8, record(b"one"), [])
        os.truncate(os.path.join(self.at, "family.realm"), 9)
        with self.assertRaises(Fenced):
            await self.store.append(lease, 16, record(b"two"), [])

    async def test_what_somebody_began_isnt_written_over(self):
        lease = await self.store.acquire("family", True)
        await self.store.read(lease)
        with open(os.path.join(self.at, "family.realm"), "r+b") as file:
            file.write(FIRST[:8] + record(b"by the program"))
        with self.assertRaises(Fenced):
            await self.store.append(lease, 0, FIRST, [])

    async def test_what_somebody_appended_isnt_written_over(self):
        lease = await self.new()
        with open(os.path.join(self.at, "family.realm"), "r+b") as file:
            file.seek(8)
            file.write(record(b"by the program"))
        with self.assertRaises(Fenced):
            await self.store.append(lease, 8, record(b"bad"), [])


class OfSqlite(Suite, unittest.IsolatedAsyncioTestCase):
    def setUp(self):
        self.at = os.path.join(folder(), "realm.db")

    def made(self):
        return Sqlite(self.at)

    async def taken_from(self, lease):
        """It is taken once more, as by a process whose lock didn't hold."""
        return self.store, await self.store.acquire("family", False)

    async def test_one_process_has_the_file(self):
        with self.assertRaises(Elsewhere):
            await self.made().start("")

    async def test_what_is_no_database(self):
        self.at = os.path.join(folder(), "notes.txt")
        with open(self.at, "w", encoding="ascii") as file:
            file.write("buy milk " * 1000)
        with self.assertRaises(StoreDown):
            await self.made().start("")

    async def test_a_fault_ends_one_job(self):
        lease = await self.new()
        with self.assertRaises(ZeroDivisionError):
            await asyncio.wait_for(self.store._do(lambda link: 1 // 0), PATIENCE)
        await self.store.append(lease, 8, record(b"one"), [])
        self.assertEqual((await self.store.read(lease)).journal, b"RSYNCJ01" + record(b"one"))


class OfPostgres(Suite, unittest.IsolatedAsyncioTestCase):
    def setUp(self):
        self.database = cluster().database()

    def made(self, seconds=3.0):
        return Postgres(cluster().dsn(self.database), seconds)

    async def other(self, seconds=3.0):
        made = self.made(seconds)
        self.others.append(made)
        await made.start(f"http://127.0.0.1:{1 + len(self.others)}")
        return made

    async def taken_from(self, lease):
        """Another worker declares this one dead."""
        other = await self.other()
        return other, await other.acquire("family", False, suspect=self.store.id)

    async def test_a_living_owner_is_told(self):
        await self.new()
        with self.assertRaises(Elsewhere) as told:
            await (await self.other()).acquire("family", True)
        self.assertEqual((told.exception.address, str(told.exception.owner)), ("http://127.0.0.1:1", str(self.store.id)))

    async def test_two_that_believe_append_at_once(self):
        lease = await self.new()
        other, taken = await self.taken_from(lease)
        await other.read(taken)
        ends = await asyncio.gather(self.store.append(lease, 8, record(b"old"), []), other.append(taken, 8, record(b"new"), []),
                                    return_exceptions=True)
        self.assertEqual([type(it) for it in ends], [Fenced, type(None)])
        self.assertEqual((await other.read(taken)).journal, b"RSYNCJ01" + record(b"new"))

    async def test_a_fight_for_one_history(self):
        """Two take it from each other 300 times: what is acknowledged is there, once, in order, and nothing else."""
        leases = {self.store: await self.new()}
        other, taken = await self.taken_from(leases[self.store])
        leases[other] = taken
        acknowledged = []
        await asyncio.gather(self._fight(self.store, other, leases, acknowledged, 1), self._fight(other, self.store, leases, acknowledged, 2))
        last = await self.store.acquire("family", True, suspect=other.id)
        journal = (await self.store.read(last)).journal
        stored = [journal[at + 5 : at + 10] for at in range(8, len(journal) - 1, 10)]
        for owner in (b"1", b"2"):
            self.assertEqual([it for it in stored if it[:1] == owner], [it for it in acknowledged if it[:1] == owner])
        self.assertEqual(len(stored), len(acknowledged))
        self.assertGreater(len(stored), 20)

    async def _fight(self, store, other, leases, acknowledged, number):
        drawn = random.Random(number)
        for turn in range(150):
            body = b"%d%04d" % (number, turn)
            try:
                await store.append(leases[store], leases[store].length, record(body), [])
                acknowledged.append(body)
            except Fenced:
                leases[store] = await self._retaken(store, other)
            if drawn.random() < 0.1:
                await asyncio.sleep(drawn.random() / 100)

    @staticmethod
    async def _retaken(store, other):
        while True:
            lease = await store.acquire("family", True, suspect=other.id)
            try:
                await store.read(lease)
                return lease
            except Fenced:
                pass

    async def test_connections_that_are_cut_in_an_append(self):
        """Each append is there once, in order, however often its connection was cut."""
        cutting = asyncio.create_task(self._cut())
        names = [f"cut-{number}" for number in range(8)]
        leases = [await self.store.acquire(name, True) for name in names]
        await asyncio.gather(*(self._many(lease, 40) for lease in leases))
        cutting.cancel()
        want = b"RSYNCJ01" + b"".join(record(b"%03d" % turn)[:-1] for turn in range(40)) + b"\0"
        for lease in leases:
            self.assertEqual((await self.store.read(lease)).journal, want)

    async def _many(self, lease, count):
        await self.store.append(lease, 0, FIRST, [])
        for turn in range(count):
            await self.store.append(lease, lease.length, record(b"%03d" % turn), [])

    async def _cut(self):
        import asyncpg

        link = await asyncpg.connect(cluster().dsn(self.database))
        try:
            while True:
                await link.execute("SELECT pg_terminate_backend(pid) FROM pg_stat_activity"
                                   " WHERE pid <> pg_backend_pid() AND datname = current_database() AND query LIKE '%claimed AS%'")
                await asyncio.sleep(0.05)
        finally:
            link.terminate()

    async def _sleeper(self):
        """A worker that never renews its lease, and what it hears of lapses: however slow the machine is, it hears nothing by itself."""
        sleeper, heard = await self.other(0.6), []
        sleeper.tasks[0].cancel()
        sleeper.on_lapse(heard.append)
        return sleeper, heard

    async def _taken_when_lapsed(self):
        """The history `taken`, without a suspicion, once the lease has ended by the database's clock."""
        ends = asyncio.get_running_loop().time() + PATIENCE
        while asyncio.get_running_loop().time() < ends:
            with contextlib.suppress(Elsewhere):
                return await self.store.acquire("taken", True)
            await asyncio.sleep(0.1)
        self.fail("the lease doesn't end")

    async def test_a_lease_that_lapsed(self):
        """Who slept past its lease answers what nobody took, and nothing of what was taken, also when it is awake again."""
        sleeper, heard = await self._sleeper()
        taken, kept = await sleeper.acquire("taken", True), await sleeper.acquire("kept", True)
        self.assertEqual((await self._taken_when_lapsed()).epoch, 2)
        with self.assertRaises(Fenced):
            await sleeper.check(taken)
        await sleeper.check(kept)
        await sleeper.renew()
        self.assertEqual(heard, [{(kept.id, kept.epoch)}])
        with self.assertRaises(Fenced):
            await sleeper.check(taken)
        await sleeper.check(kept)

    async def test_a_lapse_is_told_as_soon_as_it_can_be(self):
        sleeper, heard = await self._sleeper()
        await sleeper.acquire("taken", True)
        await self._taken_when_lapsed()
        run = sleeper._run_own

        async def failing(how, sql, *given, **more):
            if "FROM history WHERE owner" in sql:
                raise StoreDown("cut")
            return await run(how, sql, *given, **more)

        sleeper._run_own = failing
        with self.assertRaises(StoreDown):
            await sleeper.renew()
        self.assertFalse(await sleeper.ready())
        sleeper._run_own = run
        await sleeper.renew()
        self.assertEqual((heard, await sleeper.ready()), ([set()], True))

    async def test_the_lease_waits_for_no_caller(self):
        """It is renewed while callers have all of the other connections."""
        for _ in range(MOST_LINKS):
            await self.store.links.room.acquire()
        self.store.valid_until = 0.0
        await asyncio.wait_for(self.store.renew(), PATIENCE)
        self.assertGreater(self.store.valid_until, 0.0)
        for _ in range(MOST_LINKS):
            self.store.links.room.release()

    async def test_what_is_no_database(self):
        for dsn in (cluster().dsn("none"), "postgresql://realm@127.0.0.1:1/none", "here"):
            with self.assertRaises(StoreDown):
                await Postgres(dsn).start("")

    async def test_declared_dead_while_it_lives(self):
        """It may answer what it knew until its next renewal, and never append."""
        alive, heard = await self.other(30), []
        alive.on_lapse(heard.append)
        lease = await alive.acquire("family", True)
        await self.store.acquire("family", True, suspect=alive.id)
        await alive.check(lease)
        with self.assertRaises(Fenced):
            await alive.append(lease, 0, FIRST, [])
        await alive.renew()
        self.assertEqual(heard, [set()])
        with self.assertRaises(Fenced):
            await alive.check(lease)


if __name__ == "__main__":
    unittest.main()
