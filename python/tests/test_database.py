"""Objects, transactions, queries and schemas."""

from __future__ import annotations

import os
import pickle
import random
import tempfile
import unittest
from datetime import datetime, timezone
from typing import Any, cast
from uuid import uuid4

from realm_sync import BrokenEdit, Closed, Database, Error, InvalidValue, Refused, SchemaConflict, SchemaError, table
from realm_sync.errors import ColumnName

from .common import TYPES, Day, Item, List, edit, keys


class Tests(unittest.TestCase):
    def test_every_kind_comes_back_as_it_was_given(self) -> None:
        with Database(None, TYPES) as db:
            with db.write() as tx:
                shelf = tx.create(List, name="a")
                when = datetime(1969, 1, 1, 0, 0, 0, 250, timezone.utc)
                given: dict[str, Any] = dict(title='x"\\ü😀\n', done=True, quantity=-3, price=None, blob=b"\0\xff", when=when, shelf=shelf)
                key = tx.create(Item, **given, tags=["b", "a"], steps=["x", "y"], prices={"k": 2**63 - 1})
            item = db[Item].get(key)
            assert item is not None
            for name, value in given.items():
                self.assertEqual(getattr(item, name), value)
            self.assertEqual((item.tags, item.steps, dict(item.prices)), (frozenset("ab"), ("x", "y"), {"k": 2**63 - 1}))
            with db.write() as tx:
                tx.update(Item, key, quantity=2**63 - 1)
                tx.add(Item, key, "quantity", 1)
                seen = tx.get(Item, key)
            self.assertEqual(db[Item].get(key), seen)

    def test_what_does_not_fit_is_refused_by_its_name_and_nothing_is_done(self) -> None:
        with Database(None, TYPES) as db:
            for values, words in (
                (dict(title=3), r"items\.title: 3 is no Text"),
                (dict(title=None), r"items\.title is not nullable"),
                (dict(price=1.5), "price: 1.5 is no Int"),
                (dict(price=True), "price: True is no Int"),
                (dict(price=2**63), "more than 64 bits"),
                (dict(nope=1), "no column nope"),
                (dict(id="x"), r"items\.id: 'x' is no uuid"),
                (dict(title="\ud800"), "half a character"),
                (dict(when=datetime(2026, 1, 1)), r"items\.when: .* has no time zone"),
                (dict(prices={"x" * 256: 1}), "255 bytes"),
            ):
                with self.assertRaisesRegex(InvalidValue, words), db.write() as tx:
                    tx.create(Item, **cast(dict[str, Any], values))
            for given in (dict(tags="dairy"), dict(steps=b"pour"), dict(tags=None), dict(prices=[("k", 1)]), dict(steps=5)):
                with self.assertRaisesRegex(InvalidValue, "is no (set|list|dict) of values"), db.write() as tx:
                    tx.create(Item, **cast(dict[str, Any], given))
            with self.assertRaisesRegex(InvalidValue, "needs day") as invalid, db.write() as tx:
                tx.create(Day, note="x")
            self.assertEqual((invalid.exception.table, invalid.exception.column), ("days", "day"))
            with self.assertRaises(InvalidValue) as invalid, db.write() as tx:
                tx.at(Item, uuid4(), "steps").append(3)
            self.assertEqual((invalid.exception.table, invalid.exception.column), ("items", "steps"))
            with self.assertRaisesRegex(BrokenEdit, "edit 2 doesn't act: no such object: .*\"key\":2") as told, db.write() as tx:
                tx.create(Day, day=1, note="a")
                tx.update(Day, 2, note="none")
            self.assertEqual((told.exception.place, told.exception.table, told.exception.column), (2, "days", "note"))
            with self.assertRaisesRegex(Refused, "4,194,304 bytes"), db.write() as tx:
                tx.create(Day, day=1, note="x" * 5_000_000)
            with self.assertRaises(ZeroDivisionError), db.write() as tx:
                tx.create(Day, day=1)
                _ = 1 / 0
            self.assertEqual((len(db[Item]), len(db[Day])), (0, 0))
            with self.assertRaises(Closed):
                tx.create(Day, day=5)

    def test_a_transaction_reads_its_own_edits_as_the_core_then_says_them(self) -> None:
        draw = random.Random(5)
        some = keys(draw, 6)
        with Database(None, TYPES) as db:
            for turn in range(1500):
                with db.write() as tx:
                    for _ in range(draw.randrange(1, 5)):
                        edit(tx, draw, some)
                    seen = sorted(tx.all(Item), key=lambda it: it.id)
                self.assertEqual(db[Item].all(), seen, f"turn {turn}")

    def test_errors_go_to_another_process_whole(self) -> None:
        broken = BrokenEdit(2, 30, '{"op":"Update","table":"days","key":2,"column":"note"}')
        conflict = SchemaConflict("days", "note", "Int One", "Text One")
        for error in (broken, conflict, InvalidValue("days.note is not nullable", ColumnName("days", "note")), Closed("the database was closed")):
            again = pickle.loads(pickle.dumps(error))
            self.assertEqual((type(again), str(again), again.__dict__), (type(error), str(error), error.__dict__))

    def test_a_live_query_is_what_a_new_query_finds(self) -> None:
        draw = random.Random(7)
        some = keys(draw, 40)
        told: dict[str, list[Item]] = {}
        with Database(None, TYPES) as db:
            queries = {
                "done": db[Item].where(done=False).sort("title", "-price"),
                "some": db[Item].where(lambda it: it.quantity > 0).sort("-quantity"),
                "few": db[Item].sort("title").limit(5),
            }
            for name, query in queries.items():
                query.observe(lambda rows, name=name: told.__setitem__(name, list(rows)))  # type: ignore[misc]
            for turn in range(800):
                with db.write() as tx:
                    for _ in range(draw.randrange(1, 4)):
                        edit(tx, draw, some)
                if turn % 7 == 0:
                    for name, query in queries.items():
                        self.assertEqual(told[name], query.all(), f"{name} {turn}")

    def test_objects_are_found_by_keys_of_any_spelling_and_by_nothing_that_is_no_column(self) -> None:
        with Database(None, TYPES) as db:
            with db.write() as tx:
                key = tx.create(List, name="a")
                tx.update(List, str(key).upper(), name="b")
                seen = tx.get(List, str(key))
                self.assertEqual(seen and (seen.id, seen.name), (key, "b"))
                self.assertEqual(tx.create(List, id=str(key), name="c"), key)
            found = db[List].get(str(key))
            self.assertEqual(found and (found.id, found.name), (key, "c"))
            self.assertEqual(db[List].where(id=str(key).upper()).all(), [found])
            self.assertTrue(key in db[List] and str(key) in db[List])
            for wrong in (lambda: db[List].where(nope=1), lambda: db[List].sort("-nope")):
                self.assertRaisesRegex(TypeError, "lists has no column nope", wrong)
            self.assertRaises(ValueError, db[List].limit, -1)

    def test_a_test_that_asks_the_clock_or_raises_spoils_no_live_result(self) -> None:
        told: list[list[int]] = []
        now, is_raising = 3, False

        def test(day: Day) -> bool:
            if is_raising:
                raise ValueError("mine")
            return day.day <= now

        with Database(None, TYPES) as db:
            with db.write() as tx:
                for day in range(6):
                    tx.create(Day, day=day)
            db[Day].where(test).observe(lambda days: told.append([it.day for it in days]))
            now = 9
            with db.write() as tx:
                tx.erase(Day, 5)  # which the result never had
            now = 0
            with db.write() as tx:
                tx.update(Day, 2, note="x")  # which it had, and has no more
            is_raising = True
            with self.assertLogs("realm_sync", "ERROR"), db.write() as tx:
                tx.update(Day, 1, note="x")
            is_raising, now = False, 9
            with db.write() as tx:
                tx.erase(Day, 0)
        self.assertEqual(told, [[0, 1, 2, 3], [0, 1, 3], [1, 2, 3, 4]])

    def test_a_thread_has_one_transaction_at_a_time(self) -> None:
        with Database(None, TYPES) as db:
            with self.assertRaisesRegex(Error, "this thread has a transaction already"), db.write(), db.write():
                pass
            with db.write() as tx:
                tx.create(Day, day=1)
            self.assertEqual(len(db[Day]), 1)

    def test_a_moment_beyond_the_years_of_a_datetime_reads_as_the_last_one(self) -> None:
        key = keys(random.Random(1), 1)[0]
        cell = {"table": "items", "key": {"uuid": str(key)}, "column": "when"}
        with Database(None, TYPES) as db:
            with db.write() as tx:
                tx.create(Item, id=key)
            for secs, year in ((10**15, 9999), (-(10**15), 1)):
                db._client.commit([{"op": "Update", **cell, "value": {"secs": secs, "nanos": 0}}], 1)
                db._load()
                found = db[Item].get(key)
                self.assertEqual(found and found.when.year, year)

    def test_who_begins_to_observe_in_a_callback_sees_each_change_once(self) -> None:
        seen: list[list[str]] = []
        with Database(None, TYPES) as db:

            def lists(rows: object) -> None:
                if len(db[List]) == 1 and not seen:
                    db[Day].observe(lambda days: seen.append([it.note for it in days]))

            db[List].observe(lists)
            with db.write() as tx:
                tx.create(List, name="L")
                tx.create(Day, day=1, note="a")
            with db.write() as tx:
                tx.update(Day, 1, note="b")
        self.assertEqual(seen, [["a"], ["b"]])

    def test_a_callback_that_raises_or_writes_stops_nothing(self) -> None:
        seen: list[int] = []
        with Database(None, TYPES) as db:

            def raises(rows: object) -> None:
                if len(db[Day]) == 1:
                    with db.write() as tx:
                        tx.create(Day, day=2)
                    raise ValueError("mine")

            db[Day].observe(raises)
            db[Day].observe(lambda rows: seen.append(len(rows)))
            with self.assertLogs("realm_sync", "ERROR"), db.write() as tx:
                tx.create(Day, day=1)
        self.assertEqual(seen, [0, 1, 2])

    def test_schemas_grow_and_a_changed_definition_is_named(self) -> None:
        @table("days")
        class Longer:
            day: int
            note: str
            extra: bool

        @table("days")
        class Other:
            day: int
            note: bool

        with tempfile.TemporaryDirectory() as folder:
            path = os.path.join(folder, "db")
            with Database(path, [Day]) as db, db.write() as tx:
                tx.create(Day, day=1, note="x")
            with Database(path, [Longer]) as db:
                self.assertEqual([(it.day, it.note, it.extra) for it in db[Longer]], [(1, "x", False)])
            with self.assertRaisesRegex(SchemaConflict, "days.note is declared as Bool One, and is Text One in the data") as told:
                Database(path, [Other])
            self.assertEqual((told.exception.table, told.exception.column), ("days", "note"))
            with self.assertRaises(SchemaError):
                Database(path, [Item])


if __name__ == "__main__":
    unittest.main()
