"""Files: kills, failing disks, forks, locks, encryption."""

from __future__ import annotations

import contextlib
import errno
import os
import signal
import subprocess
import sys
import tempfile
import textwrap
import unittest
from typing import Any
from unittest import mock

from realm_sync import (
    BadFile, Busy, Client, Database, Error, NotShrunk, OtherProcess, StorageFailed, StorageFull, SyncState, WrongKey, delete_database,
)  # fmt: skip
from realm_sync.client import DatabaseClient
from realm_sync.messages import ASK2
from realm_sync.sealed import FIRST, SealedFiles
from realm_sync.storage import FileImage, MemoryFiles, Storage

from .common import FAST, TYPES, Day, FailingImage, Net, until

KEY = bytes(range(32))


def _client(files: MemoryFiles, sealed: bool) -> DatabaseClient:
    return DatabaseClient(SealedFiles(files, KEY)) if sealed else DatabaseClient(files)


class Tests(unittest.TestCase):
    def setUp(self) -> None:
        folder = tempfile.TemporaryDirectory()
        self.addCleanup(folder.cleanup)
        self.folder = folder.name
        self.path = os.path.join(folder.name, "db")

    def test_what_was_answered_is_there_after_a_kill(self) -> None:
        words = textwrap.dedent(f"""
            from realm_sync import Database, table
            @table("days")
            class Day:
                day: int
                note: str
            with Database({self.path!r}, [Day]) as db:
                n = len(db[Day])
                while True:
                    with db.write() as tx:
                        tx.create(Day, day=n, note="x" * (n % 50))
                    print(n, flush=True)
                    n += 1
        """)
        last = -1
        for _ in range(4):
            child = subprocess.Popen([sys.executable, "-c", words], stdout=subprocess.PIPE, text=True)
            assert child.stdout
            for _ in range(20):
                last = int(child.stdout.readline())
            with self.assertRaises(Busy):
                Database(self.path, [Day])
            child.send_signal(signal.SIGKILL)
            last = max([last, *map(int, child.stdout.read().split()[:-1])])
            child.wait()
            child.stdout.close()
            with Database(self.path, [Day]) as db:
                self.assertGreaterEqual(len(db[Day]), last + 1)

    def test_a_disk_that_fails_at_each_stroke_loses_nothing_that_was_answered(self) -> None:
        for sealed in (False, True):
            for at in range(1, 13):
                files, image = MemoryFiles(), FailingImage()
                files.files["client"] = image
                db = Database(None, TYPES)
                db._client.close()
                db._client = _client(files, sealed)
                db._apply_schema()
                with db.write() as tx:
                    tx.create(Day, day=1, note="before")
                image.fail_at = at
                said = []
                for day in range(2, 6):
                    try:
                        with db.write() as tx:
                            tx.create(Day, day=day)
                        said.append(True)
                    except StorageFull:
                        said.append(False)
                self.assertEqual([day in db[Day] for day in range(2, 6)], said, f"stroke {at}")
                db.close()
                again = _client(files, sealed)
                self.assertEqual(again.dump().count('"table":"days"}\n') - 2, 1 + said.count(True))
                again.close()

    def test_a_disk_that_is_gone_for_a_while(self) -> None:
        # A commit is the record, a sync, its gate, a sync.
        for fail_at, days in ((3, [1, 4]), (4, [1, 2, 4])):
            files, image, is_gone = MemoryFiles(), FailingImage(), False

            class Files(MemoryFiles):
                def open(self, name: str) -> Storage:
                    if is_gone:
                        raise OSError(errno.EIO, "gone")
                    return files.open(name)

            files.files["client"] = image
            db = Database(None, TYPES)
            db._client.close()
            db._client = DatabaseClient(Files())
            db._apply_schema()
            with db.write() as tx:
                tx.create(Day, day=1)
            image.fail_at, is_gone = fail_at, True
            for day in (2, 3):
                with self.assertRaises(StorageFailed), db.write() as tx:
                    tx.create(Day, day=day)
            is_gone = False
            with db.write() as tx:
                tx.create(Day, day=4)
            self.assertEqual([it.day for it in db[Day]], days)
            db.close()

    def test_a_disk_that_is_full_when_a_message_comes(self) -> None:
        net, image, told, is_full = Net(), FailingImage(), list[SyncState](), True

        def answer(message: bytes) -> None:
            nonlocal is_full
            if message[0] == ASK2 and is_full:
                image.fail_at, is_full = 1, False  # the first stroke of the reply

        with net.database() as other:
            with other.write() as tx:
                tx.create(Day, day=1)
            self.assertTrue(other.synced(30))
        files = MemoryFiles()
        files.files["client"] = image
        with Database(None, TYPES) as db:
            db._client.close()
            db._client = DatabaseClient(files)
            db._apply_schema()
            db.observe_sync(told.append)
            net.answer = answer
            db.start_sync(net.transport(), options=FAST)
            until(lambda: len(db[Day]) == 1)
            self.assertTrue(db.synced(30))
        problems = [it.problem.cause for it in told if it.problem]
        self.assertEqual(problems, ["storage"], told)

    def test_a_note_that_was_cut_off_is_none(self) -> None:
        net = Net()
        with net.database(self.path) as db:
            self.assertTrue(db.synced(30))
        with open(f"{self.path}.generation.new", "wb"):
            pass
        with net.database(self.path) as db:
            self.assertTrue(db.synced(30))
            db._client.agree_on(5)
        self.assertEqual(sorted(os.listdir(self.folder)), ["db", "db.generation"])

    def test_a_database_is_deleted_where_it_is_closed(self) -> None:
        with Database(self.path, [Day]) as db:
            db._client.agree_on(5)
            self.assertRaises(Busy, delete_database, self.path)
        for name in ("db.mine", "dbx.heir", "db.kept-1", "db.reason"):
            with open(os.path.join(self.folder, name), "wb"):
                pass
        delete_database(self.path)
        delete_database(self.path)
        self.assertEqual(sorted(os.listdir(self.folder)), ["db.mine", "dbx.heir"])
        with Database(self.path, [Day]) as db:
            self.assertEqual(len(db[Day]), 0)

    def test_a_fork_does_not_write(self) -> None:
        with Database(self.path, [Day]) as db:
            child = os.fork()
            if child == 0:
                try:
                    with db.write() as tx:
                        tx.create(Day, day=1)
                    os._exit(1)
                except OtherProcess:
                    os._exit(0)
                finally:
                    os._exit(2)
            self.assertEqual(os.waitpid(child, 0)[1], 0)
            with db.write() as tx:
                tx.create(Day, day=2)
        with Database(self.path, [Day]) as db:
            self.assertEqual([it.day for it in db[Day]], [2])

    def test_python_says_why_a_file_cannot_be_opened(self) -> None:
        with self.assertRaises(FileNotFoundError):
            Database(os.path.join(self.folder, "nowhere", "db"), [Day])
        with self.assertRaises(IsADirectoryError):
            Database(self.folder, [Day])
        with open(self.path, "wb") as it:
            it.write(b"somebody else's file")
        with self.assertRaises(BadFile):
            Database(self.path, [Day])
        with open(self.path, "rb") as it:
            self.assertEqual(it.read(), b"somebody else's file")

    def test_a_client_that_was_killed_between_its_uuid_and_its_form_goes_on(self) -> None:
        with Client(self.path) as client:
            client._line({"uuid": "00000000-0000-4000-8000-000000000001"})
        with Database(self.path, TYPES) as db, db.write() as tx:
            tx.create(Day, day=1)

    def test_an_encrypted_file_holds_no_text_and_opens_with_its_key_alone(self) -> None:
        with Database(self.path, [Day], key=KEY) as db, db.write() as tx:
            tx.create(Day, day=1, note="a secret that is long enough to be found")
        with open(self.path, "rb") as it:
            data = it.read()
        self.assertNotIn(b"secret", data)
        self.assertNotIn(b"days", data)
        with self.assertRaises(WrongKey):
            Database(self.path, [Day], key=bytes(32))
        with self.assertRaises(WrongKey):
            Database(self.path, [Day])
        with self.assertRaisesRegex(WrongKey, "32 bytes"):
            Database(self.path, [Day], key=b"short")
        with open(self.path, "rb") as it:
            self.assertEqual(it.read(), data)
        with Database(self.path, [Day], key=KEY) as db:
            self.assertEqual([it.note for it in db[Day]], ["a secret that is long enough to be found"])

    def test_an_encrypted_file_that_was_changed_is_refused(self) -> None:
        files = MemoryFiles()
        client = DatabaseClient(SealedFiles(files, KEY))
        client.close()
        whole = files.files["client"].read()
        for at in [FIRST, *range(FIRST + 1, len(whole) - 1, 5)]:
            changed = whole[:at] + bytes([whole[at] ^ 4]) + whole[at + 1 :]
            files.files["client"] = FileImage(changed)
            with self.assertRaises((BadFile, WrongKey)):
                DatabaseClient(SealedFiles(files, KEY))

    def test_a_plain_file_is_not_opened_with_a_key(self) -> None:
        with Database(self.path, [Day]):
            pass
        with open(self.path, "rb") as it:
            before = it.read()
        with self.assertRaises(BadFile):
            Database(self.path, [Day], key=KEY)
        with open(self.path, "rb") as it:
            self.assertEqual(it.read(), before)

    def test_a_file_is_shrunk_and_goes_on(self) -> None:
        for key in (None, KEY):
            path, net = f"{self.path}-{key is not None}", Net()
            with net.database(path, key=key) as db, net.database() as other:
                for day in range(30):
                    with db.write() as tx:
                        tx.create(Day, day=day % 3, note=f"note {day}")
                db.synced(30)
                with other.write() as tx:
                    tx.create(Day, day=7, note="of another device")
                db.stop_sync()
                with db.write() as tx:
                    tx.update(Day, 1, note="unsent")
                before, length = list(db[Day]), os.path.getsize(path)
                with self.assertRaises(Error), db.write():
                    db.shrink()
                with mock.patch("os.replace", side_effect=OSError(errno.ENOSPC, "full")), self.assertRaises(NotShrunk):
                    db.shrink()
                self.assertEqual(os.path.getsize(path), length)
                db.shrink()
                self.assertLess(os.path.getsize(path), length // 2)
                self.assertEqual((list(db[Day]), db.unsent), (before, 1))
                with db.write() as tx:
                    tx.update(Day, 2, note="after it")
            with net.database(path, key=key) as db, net.database() as other:
                db.synced(30)
                other.synced(30)
                self.assertEqual({it.day: it.note for it in db[Day]}, {0: "note 27", 1: "unsent", 2: "after it", 7: "of another device"})
                self.assertEqual(list(other[Day]), list(db[Day]))

    def test_a_shrinking_that_fails_at_any_stroke_loses_nothing(self) -> None:
        for at in range(1, 20):
            with Database(self.path, [Day]) as db:
                for day in range(5):
                    with db.write() as tx:
                        tx.create(Day, day=day)
                count = 0

                def failing(file: int, *words: Any) -> Any:
                    nonlocal count
                    count += 1
                    if count == at:
                        raise OSError(errno.EIO, "the test fails this one")
                    return fsync(file)

                fsync = os.fsync
                with mock.patch("os.fsync", failing), contextlib.suppress(NotShrunk, StorageFailed):
                    db.shrink()
                with db.write() as tx:
                    tx.create(Day, day=99)
                self.assertEqual(len(db[Day]), 6)
                unsent = db.unsent
            with Database(self.path, [Day]) as db:
                self.assertEqual((len(db[Day]), db.unsent), (6, unsent))
            delete_database(self.path)


if __name__ == "__main__":
    unittest.main()
