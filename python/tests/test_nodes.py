"""Nodes by themselves: what a program may do wrong with edits, and threads, forks, long histories and restored files."""

from __future__ import annotations

import os
import tempfile
import threading
import unittest
from collections.abc import Callable
from typing import Any
from unittest import mock

from realm_sync import BadEdit, BadRequest, BrokenEdit, Busy, Client, Edits, NotShrunk, OtherProcess, Reason, Refused, Server
from realm_sync.storage import FileStorage

LONG = 5_000  # transactions of a history that a Download doesn't bring at once


def new_client(number: int, path: str | None = None) -> Client:
    client = Client(path)
    client.born(f"00000000-0000-4000-8000-{number:012d}")
    return client


def make_table(client: Client) -> None:
    with client.transaction(ms=1) as edits:
        edits.add_table("items", "Int")
        edits.add_column("items", "text", "Text")
        edits.add_column("items", "count", "Int")
        edits.add_column("items", "steps", "Text", shape="List")
        edits.add_column("items", "next", "Link", nullable=True, target="items")
        edits.create("items", 1)


def add(client: Client, amount: int = 1) -> None:
    with client.transaction(ms=2) as edits:
        edits.add("items", 1, "count", amount)


class EditTests(unittest.TestCase):
    """What is no edit is told by its place, its field and what was expected, before anything is done."""

    def told(self, field: str, make: Callable[[Any], object], edit: int = 0) -> None:
        edits = Edits()
        for _ in range(edit):
            edits.create("items", 1)
        with self.assertRaises(BadEdit) as caught:
            make(edits)
        self.assertEqual((caught.exception.edit, caught.exception.field), (edit, field))
        self.assertIn("expected", str(caught.exception))
        self.assertEqual(len(edits.edits), edit)

    def test_values(self) -> None:
        wrong: list[Any] = [1.5, 1 << 63, -(1 << 63) - 1, b"raw", "\ud800", [1], {}]
        wrong += [{"bytes": "0"}, {"bytes": "zz"}, {"uuid": "none"}, {"secs": 1, "nanos": -1}, {"link": "items"}]
        for value in wrong:
            self.told("value", lambda edits, value=value: edits.update("items", 1, "text", value))  # type: ignore[misc]
        self.told("amount", lambda edits: edits.add("items", 1, "count", 1.0))
        self.told("amount", lambda edits: edits.add("items", 1, "count", True))

    def test_names_keys_and_kinds(self) -> None:
        self.told("table", lambda edits: edits.add_table("", "Int"))
        self.told("table", lambda edits: edits.create("x" * 64, 1))
        self.told("key", lambda edits: edits.add_table("items", "Float"))
        self.told("key", lambda edits: edits.create("items", 1.5), edit=3)
        self.told("key", lambda edits: edits.erase("items", [1]))
        self.told("key", lambda edits: edits.append("items", object(), "steps", "a"))
        self.told("kind", lambda edits: edits.add_column("items", "text", "Integer"))
        self.told("shape", lambda edits: edits.add_column("items", "text", "Text", shape="Array"))
        self.told("target", lambda edits: edits.add_column("items", "next", "Link", nullable=True))
        self.told("target", lambda edits: edits.add_column("items", "text", "Text", target="items"))
        self.told("at", lambda edits: edits.put("items", 1, "map", 5, "a"))

    def test_places(self) -> None:
        self.told("place", lambda edits: edits.insert("items", 1, "steps", 1, "a"))
        self.told("place", lambda edits: edits.remove("items", 1, "steps", 0))
        self.told("place", lambda edits: edits.replace("items", 1, "steps", -1, "a"))

    def test_a_refused_edit_leaves_the_length(self) -> None:
        edits = Edits()
        with self.assertRaises(BadEdit):
            edits.append("items", 1, "steps", 1.5)
        edits.append("items", 1, "steps", "a")
        self.assertEqual(edits.edits[0]["prior"], 0)

    def test_a_list_of_edits(self) -> None:
        rows: list[tuple[Any, str]] = [
            ({"op": "Updte", "table": "items"}, "op"),
            ({"op": "Update", "table": "items", "key": 1, "column": "text"}, "value"),
            ({"op": "Update", "table": "items", "key": 1, "column": "text", "value": "a", "extra": 1}, "extra"),
            (["Update"], "op"),
        ]
        with new_client(1) as client:
            make_table(client)
            for edit, field in rows:
                with self.assertRaises(BadEdit) as caught:
                    client.commit([{"op": "CreateObject", "table": "items", "key": 2}, edit])
                self.assertEqual((caught.exception.edit, caught.exception.field), (1, field))
            with self.assertRaises(BadRequest):
                client.take(b"none")
            self.assertEqual(client.standing().last, 1)

    def test_a_link_is_written_as_it_is_read(self) -> None:
        with new_client(1) as client:
            make_table(client)
            with client.transaction() as edits:
                edits.update("items", 1, "next", {"link": "items", "key": 1})
            found = client.object("items", 1)
            assert found
            link = found["cells"]["next"]
            self.assertEqual(link, {"link": "items", "key": 1, "resolved": True})
            with client.transaction() as edits:
                edits.create("items", 2)
                edits.update("items", 2, "next", link)
            found = client.object("items", 2)
            assert found
            self.assertEqual(found["cells"]["next"], link)


class UseTests(unittest.TestCase):
    def test_a_node_is_of_the_process_that_opened_it(self) -> None:
        with tempfile.TemporaryDirectory() as folder:
            path = os.path.join(folder, "file")
            with new_client(1, path) as client:
                child = os.fork()
                if child == 0:
                    try:
                        client.commit([])
                    except OtherProcess:
                        client.close()
                        try:
                            Client(path)
                        except Busy:
                            os._exit(7)
                    os._exit(1)
                self.assertEqual(os.waitstatus_to_exitcode(os.waitpid(child, 0)[1]), 7)
                self.assertEqual(client.commit([]), 1)
            with Client(path) as client:
                self.assertEqual(client.standing().last, 1)

    def test_transactions_are_committed_together(self) -> None:
        row = {"op": "AddInteger", "table": "items", "key": 1, "column": "count", "amount": 1}
        missing = {"op": "EraseObject", "table": "items", "key": 9}
        with tempfile.TemporaryDirectory() as folder:
            path = os.path.join(folder, "file")
            with new_client(1, path) as client:
                make_table(client)
                with mock.patch.object(FileStorage, "apply", autospec=True, side_effect=FileStorage.apply) as apply:
                    self.assertEqual(client.commit_all([[row], [], [row]]), [2, 3, 4])
                strokes = [call.args[1] for call in apply.call_args_list]
                self.assertEqual([[stroke is None for stroke in it] for it in strokes], [[False, True, False, True]])
                with self.assertRaises(BadEdit):
                    client.commit_all([[row], ["none"]])  # type: ignore[list-item]
                self.assertEqual(client.standing().last, 4)
                with self.assertRaises(BrokenEdit) as caught:
                    client.commit_all([[row], [row, missing], [row]])
                self.assertEqual(caught.exception.place, 1)
                self.assertEqual(client.standing().last, 5)
            with Client(path) as client:
                self.assertEqual(client.standing().last, 5)

    def test_files_are_shrunk(self) -> None:
        with tempfile.TemporaryDirectory() as folder:
            path, beside = os.path.join(folder, "file"), os.path.join(folder, "server")
            link = os.path.join(folder, "link")
            os.symlink("file", link)
            with new_client(1, link) as client, Server(beside) as server:
                make_table(client)
                for _ in range(200):
                    add(client)
                client.sync(server.take)
                client.sync(server.take)
                add(client)
                os.chmod(path, 0o640)
                before, length, standing = list(client.lines()), os.path.getsize(path), client.standing()
                client.shrink()
                self.assertTrue(os.path.islink(link))
                self.assertEqual(os.stat(path).st_mode & 0o777, 0o640)
                self.assertLess(os.path.getsize(path), length // 10)
                with self.assertRaises(Busy):
                    Client(path)
                self.assertEqual((list(client.lines()), client.standing()), (before, standing))
                add(client)
                client.sync(server.take)
                length = os.path.getsize(beside)
                server.shrink()
                self.assertLess(os.path.getsize(beside), length // 10)
                add(client)
                client.sync(server.take)
                with mock.patch("os.replace", side_effect=OSError(28, "full")), self.assertRaises(NotShrunk):
                    client.shrink()
                add(client)
            with Client(path) as client, Server(beside) as server:
                client.sync(server.take)
                self.assertEqual(list(client.lines()), list(server.lines()))
                self.assertEqual(client.standing().last, 205)
            self.assertEqual(sorted(os.listdir(folder)), ["file", "link", "server"])

    def test_pages(self) -> None:
        with new_client(1) as client:
            make_table(client)
            with client.transaction() as edits:
                for key in range(2, 8):
                    edits.create("items", key)

            def keys(page: list[dict[str, Any]]) -> list[Any]:
                return [row["key"] for row in page]

            self.assertEqual(keys(client.page("items", count=3)), [1, 2, 3])
            self.assertEqual(keys(client.page("items", 3, count=3)), [4, 5, 6])
            self.assertEqual(keys(client.page("items", 6)), [7])
            self.assertEqual(client.page("items", 7), [])
            self.assertEqual(client.page("items", 3, count=0), [])
            self.assertEqual(client.page("none"), [])
            self.assertEqual(client.page("items"), list(client.objects("items")))
            self.assertEqual(client.page_of_keys("items", 3, count=3), [4, 5, 6])
            self.assertEqual(client.page_of_keys("none"), [])

    def test_a_new_device_gets_a_long_history(self) -> None:
        with new_client(1) as first, new_client(2) as second, Server() as server:
            make_table(first)
            for _ in range(LONG):
                add(first)
            first.sync(server.take)
            second.sync(server.take)
            self.assertEqual(second.standing().cursor, LONG + 1)
            self.assertEqual(list(second.lines()), list(server.lines()))

    def test_no_place_is_lost_between_threads(self) -> None:
        """One thread commits while another syncs: each object that came is in the places of the sync, each own one in its transaction's."""
        count, came, own, done = 200, set[int](), set[int](), threading.Event()
        with new_client(1) as phone, new_client(2) as other, Server() as server:
            make_table(phone)
            phone.sync(server.take)
            other.sync(server.take)

            def work() -> None:
                for turn in range(count):
                    with phone.transaction() as edits:
                        edits.create("items", 10_000 + turn)
                    own.update(place["key"] for place in edits.places)
                done.set()

            thread = threading.Thread(target=work)
            thread.start()
            keys = 0
            while not done.is_set() or keys < count:
                keys += 1
                with other.transaction() as edits:
                    edits.create("items", keys + 1)
                other.sync(server.take)
                came.update(place["key"] for place in phone.sync(server.take) if "key" in place)
            thread.join()
            came.update(place["key"] for place in phone.sync(server.take) if "key" in place)
            self.assertEqual(own, set(range(10_000, 10_000 + count)))
            self.assertLessEqual(set(range(2, keys + 2)), came)

    def test_a_restored_file_sends_nothing(self) -> None:
        with tempfile.TemporaryDirectory() as folder, Server() as server:
            path = os.path.join(folder, "file")
            with new_client(1, path) as phone:
                make_table(phone)
                phone.sync(server.take)
            with open(path, "rb") as file:
                backup = file.read()
            with Client(path) as phone:
                for _ in range(3):
                    add(phone)
                phone.sync(server.take)
            with open(path, "wb") as file:
                file.write(backup)
            length = server.standing().cursor
            with Client(path) as phone:
                for _ in range(5):
                    add(phone, 100)
                for _ in range(2):
                    with self.assertRaises(Refused) as caught:
                        phone.sync(server.take)
                    self.assertEqual(caught.exception.reason, Reason.FORKED)
                self.assertEqual(phone.standing().unsent, 5)
            self.assertEqual(server.standing().cursor, length)


if __name__ == "__main__":
    unittest.main()
