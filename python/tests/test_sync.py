"""Sync: agreement, order of messages, states, lost edits, recovery."""

from __future__ import annotations

import errno
import os
import random
import shutil
import tempfile
import threading
import time
import unittest
from unittest import mock

from realm_sync import CallTransport, Client, Closed, Database, Error, LostEdit, NeedsAttention, Recovery, Refused, SchemaConflict, Server, SyncState, table
from realm_sync.client import DatabaseClient
from realm_sync.messages import ASK2, BIND, DOWNLOAD, REFUSED, STORED, UPLOAD

from .common import FAST, TYPES, Day, Item, Net, edit, keys, until


def _down() -> bytes:
    raise OSError("down")


class Agreement(unittest.TestCase):
    def test_three_devices_that_go_offline_agree_where_replies_are_lost(self) -> None:
        net, draw = Net(), random.Random(1)
        net.lose_each = 7
        some = keys(draw, 5)
        dbs = [net.database() for _ in range(3)]
        for round_ in range(9):
            net.is_down = round_ % 3 != 0
            for db in dbs:
                for _ in range(8):
                    with db.write() as tx:
                        edit(tx, draw, some)
                with db.write() as tx:
                    if tx.get(Day, 1) is None:
                        tx.create(Day, day=1)
        net.is_down = False
        for db in dbs + dbs:
            self.assertTrue(db.synced(30))
        self.assertEqual(dbs[0][Item].all(), dbs[1][Item].all())
        self.assertEqual(dbs[0][Item].all(), dbs[2][Item].all())
        for db in dbs:
            db.close()

    def test_others_hear_of_a_change_and_states_are_told(self) -> None:
        net, states, heard = Net(), list[str](), threading.Event()
        with net.database() as one, net.database() as other:
            one.observe_sync(lambda state: states.append(state.status))
            other[Day].where(note="new").observe(lambda days: heard.set() if days else None)
            with one.write() as tx:
                tx.create(Day, day=1, note="new")
            self.assertTrue(heard.wait(30))
            net.is_down = True
            with one.write() as tx:
                tx.create(Day, day=2)
            until(lambda: one.sync_state.status == "offline" and one.sync_state.unsent == 1)
            with one.write() as tx:
                tx.create(Day, day=3)
            until(lambda: one.sync_state.status == "offline" and one.sync_state.unsent == 2)
            net.is_down = False
            self.assertTrue(one.synced(30))
            until(lambda: states[-1] == "up to date")
            self.assertLessEqual({"offline", "syncing", "up to date"}, set(states))

    def test_a_client_asks_before_it_sends(self) -> None:
        net = Net()
        with tempfile.TemporaryDirectory() as folder:
            path = os.path.join(folder, "db")
            with net.database(path) as db:
                self.assertTrue(db.synced(30))
                self.assertEqual([net.sent[0], net.sent[1]], [BIND, ASK2])
                self.assertGreater(net.sent.index(UPLOAD), 1)
                db.stop_sync()
                with db.write() as tx:
                    tx.create(Day, day=1)
            net.sent.clear()
            with net.database(path) as db:
                self.assertTrue(db.synced(30))
                self.assertEqual(net.sent[0], ASK2)
                self.assertIn(UPLOAD, net.sent)
                # A refusal to an Upload: the next message is a question.
                refusals = [bytes([REFUSED, db._client.standing().ident, 3, 2, 0])]
                net.answer = lambda message: refusals.pop() if message[0] == UPLOAD and refusals else None
                net.sent.clear()
                with db.write() as tx:
                    tx.create(Day, day=2)
                self.assertTrue(db.synced(30))
                self.assertEqual(list(net.sent[net.sent.index(UPLOAD) :][:3]), [UPLOAD, ASK2, UPLOAD])

    def test_a_server_that_never_comes_to_the_end_is_an_error(self) -> None:
        net = Net()
        net.answer = lambda message: bytes([5, message[1], message[2], 0]) if message[0] == ASK2 else None
        with net.database() as db:
            until(lambda: "didn't reach the end of the history" in db.sync_state.text)
            net.answer = lambda message: None
            self.assertTrue(db.synced(30))
            self.assertEqual(db.unsent, 0)

    def test_a_server_that_answers_what_is_no_message_is_asked_again(self) -> None:
        net, draw, count = Net(), random.Random(3), 0
        with net.database() as other:
            with other.write() as tx:
                tx.create(Day, day=1)
            self.assertTrue(other.synced(30))

        def breaking(message: bytes) -> bytes:
            nonlocal count
            count += 1
            reply = net.exchange(message)
            if count > 40:
                return reply
            match count % 3:
                case 0:
                    return reply[: draw.randrange(len(reply))]
                case 1:
                    return bytes([DOWNLOAD, message[1], 0, 255, 255, 255, 127])
                case _:
                    return reply + draw.randbytes(1)

        with Database(None, TYPES) as db:
            with db.write() as tx:
                tx.create(Day, day=2)
            db.start_sync(CallTransport(breaking), options=FAST)
            until(lambda: count > 40 or db.sync_state.status == "needs attention")
            db.start_sync(net.transport(), options=FAST)
            self.assertTrue(db.synced(30))
            self.assertEqual([it.day for it in db[Day]], [1, 2])

    def test_a_new_device_takes_a_history_that_is_longer_than_one_reply(self) -> None:
        with Server() as server, Client() as one, Client() as other:
            one.born("00000000-0000-4000-8000-000000000001")
            other.born("00000000-0000-4000-8000-000000000002")
            one.commit([{"op": "AddTable", "table": "days", "key": "Int"}])
            for day in range(5000):
                one.commit([{"op": "CreateObject", "table": "days", "key": day}])
            one.sync(server.take)
            other.sync(server.take)
            self.assertEqual(len(list(other.objects("days"))), 5000)

    def test_what_another_device_overruled_is_told_once(self) -> None:
        net, told = Net(), list[LostEdit]()
        with net.database() as one, net.database() as other:
            with one.write() as tx:
                bread = tx.create(Item, title="bread", tags=["a"], steps=["x"], prices={"k": 1}, quantity=1)
                gone, mine = tx.create(Item, title="gone"), tx.create(Item, title="mine")
            self.assertTrue(one.synced(30) and other.synced(30))
            one.on_lost(told.extend)
            one.stop_sync()
            with one.write() as tx:
                tx.update(Item, bread, title="white bread", done=True)
                tx.at(Item, bread, "prices")["k"] = 2
                tx.add(Item, bread, "quantity", 1)
                tx.update(Item, gone, title="still here?")
                tx.update(Item, mine, title="stays")
            time.sleep(0.01)
            with other.write() as tx:
                tx.update(Item, bread, title="rye bread")
                tx.at(Item, bread, "prices")["k"] = 3
                tx.add(Item, bread, "quantity", 5)
                tx.erase(Item, gone)
            self.assertTrue(other.synced(30))  # the other device's changes come first in the history
            one.start_sync(net.transport(), options=FAST)
            self.assertTrue(one.synced(30) and one.synced(30))
        said = sorted(("bread" if it.key == bread else "gone", str(it.column), it.why, it.mine) for it in told)
        title_lost, price_lost = ("bread", "title", "overwritten", "white bread"), ("bread", "prices", "overwritten", 2)
        self.assertEqual(said, [price_lost, title_lost, ("gone", "None", "erased", None)])
        title = next(it for it in told if it.column == "title")
        assert isinstance(title.object, Item)
        self.assertEqual((title.object.title, title.object.quantity), ("rye bread", 7))
        self.assertEqual([it.before.title for it in told if it.why == "erased"], ["still here?"])


class Recovering(unittest.TestCase):
    def setUp(self) -> None:
        folder = tempfile.TemporaryDirectory()
        self.addCleanup(folder.cleanup)
        self.path = os.path.join(folder.name, "db")
        self.net = Net()

    def restored(self) -> None:
        """A file that was synced, restored from a backup, and has three changes more."""
        with self.net.database(self.path) as db:
            with db.write() as tx:
                tx.create(Day, day=1, note="first")
            self.assertTrue(db.synced(30))
            with open(self.path, "rb") as it:
                backup = it.read()
            for day in (2, 3):
                with db.write() as tx:
                    tx.create(Day, day=day, note="lost file")
            self.assertTrue(db.synced(30))
        with open(self.path, "wb") as it:
            it.write(backup)
        with Database(self.path, TYPES) as db:
            for day in (4, 5, 6):
                with db.write() as tx:
                    tx.create(Day, day=day, note="restored file")

    def test_a_restored_file_recovers_by_itself_and_loses_nothing(self) -> None:
        self.restored()
        told: list[Recovery] = []
        with Database(self.path, TYPES) as db:
            db.on_recovered(told.append)
            db.start_sync(self.net.transport(), options=FAST)
            until(lambda: bool(told))
            self.assertTrue(db.synced(30))
            self.assertEqual((told[0].problem.cause, told[0].saved, told[0].integrated, told[0].dropped), ("restored", 3, 0, ()))
            self.assertEqual([it.day for it in db[Day]], [1, 2, 3, 4, 5, 6])
        self.assertEqual(os.listdir(os.path.dirname(self.path)), ["db"])

    def test_a_list_that_became_shorter_meanwhile_keeps_what_is_unsent(self) -> None:
        with self.net.database(self.path) as db:
            with db.write() as tx:
                key = tx.create(Item, title="Pasta", steps=["boil", "salt"])
            self.assertTrue(db.synced(30))
            with open(self.path, "rb") as file:
                backup = file.read()
            with db.write() as tx:
                del tx.at(Item, key, "steps")[0]
            self.assertTrue(db.synced(30))
        with open(self.path, "wb") as other:
            other.write(backup)
        told: list[Recovery] = []
        with Database(self.path, TYPES) as db:
            with db.write() as tx:
                tx.at(Item, key, "steps").append("serve")
            db.on_recovered(told.append)
            db.start_sync(self.net.transport(), options=FAST)
            until(lambda: bool(told))
            self.assertTrue(db.synced(30))
            self.assertEqual((told[0].saved, told[0].dropped), (1, ()))
            self.assertEqual([it.steps for it in db[Item]], [("salt", "serve")])

    def test_a_restored_file_that_is_asked_about_sends_nothing(self) -> None:
        self.restored()
        self.net.sent.clear()
        with self.net.database(self.path, on_problem="ask") as db:
            with self.assertRaisesRegex(NeedsAttention, "the history has a change 3 of this device"):
                db.synced(30)
            with db.write() as tx:
                tx.create(Day, day=7)
            with self.assertRaises(NeedsAttention):
                db.synced(30)
            self.assertNotIn(UPLOAD, self.net.sent)
            db.recover()
            self.assertTrue(db.synced(30))
            self.assertEqual(len(db[Day]), 7)

    def test_a_stored_that_the_file_does_not_have_is_a_restored_file(self) -> None:
        with self.net.database(self.path, on_problem="ask") as db:
            self.assertTrue(db.synced(30))
            self.net.answer = lambda message: bytes([STORED, message[1], 9]) if message[0] == UPLOAD else None
            with db.write() as tx:
                tx.create(Day, day=1)
            with self.assertRaises(NeedsAttention) as told:
                db.synced(30)
            self.assertEqual(told.exception.problem.cause, "restored")

    def test_a_client_that_never_got_an_ident_is_not_given_up(self) -> None:
        self.net.is_down = True
        with self.net.database(self.path) as db:
            with db.write() as tx:
                tx.create(Day, day=1)
            self.assertRaisesRegex(NeedsAttention, "has no ident yet", db.recover)
            self.assertEqual(os.listdir(os.path.dirname(self.path)), ["db"])
            self.net.is_down = False
            self.assertTrue(db.synced(30))
            self.assertEqual(len(db[Day]), 1)

    def test_two_copies_of_a_restored_file_keep_their_own_work_and_save_once_what_both_have(self) -> None:
        self.restored()
        shutil.copy(self.path, f"{self.path}.copy")
        dbs = []
        for place, path in enumerate((self.path, f"{self.path}.copy")):
            told: list[Recovery] = []
            db = Database(path, TYPES)
            self.addCleanup(db.close)
            with db.write() as tx:
                tx.create(Day, day=10 + place)
            db.on_recovered(told.append)
            db.start_sync(self.net.transport(), options=FAST)
            until(lambda told=told: bool(told))  # type: ignore[misc]
            self.assertEqual((told[0].saved, told[0].integrated), ((4, 0), (1, 3))[place])
            self.assertTrue(db.synced(30))
            dbs.append(db)
        for db in dbs + dbs:
            self.assertTrue(db.synced(30))
        for db in dbs:
            self.assertEqual([it.day for it in db[Day]], [1, 2, 3, 4, 5, 6, 10, 11])
        self.assertEqual(self.net.server.standing().cursor, 4 + 3 + 1 + 1)

    def test_a_takeover_that_ended_at_any_sync_of_its_disk_goes_on_after_the_next_opening(self) -> None:
        fsync, left, is_whole, folder = os.fsync, 0, False, os.path.dirname(self.path)

        def failing(file: int) -> None:
            nonlocal left
            left -= 1
            if left == 0:
                raise OSError(errno.EIO, "the process ends here")
            fsync(file)

        cut = 0
        while not is_whole:
            cut += 1
            self.net, self.path = Net(), f"{folder}/{cut}"
            self.restored()
            left, told = cut, list[Recovery]()
            with Database(self.path, TYPES) as db, mock.patch("os.fsync", failing):
                db.on_recovered(told.append)
                db.start_sync(self.net.transport(), options=FAST)
                until(lambda told=told: left <= 0 or bool(told))  # type: ignore[misc]
                is_whole = left > 0
            with self.net.database(self.path) as db:
                self.assertTrue(db.synced(30), f"sync {cut}")
                self.assertEqual([it.day for it in db[Day]], [1, 2, 3, 4, 5, 6], f"sync {cut}")
            self.assertEqual(self.net.server.standing().cursor, 4 + 3, f"sync {cut}")

    def test_a_takeover_of_a_copy_that_ended_before_it_was_in_place_leaves_nothing_out(self) -> None:
        self.restored()
        path = f"{self.path}.copy"
        shutil.copy(self.path, path)
        # The other one takes the place first, and sends its changes last.
        self.net.answer = lambda message: _down() if message[0] == UPLOAD else None
        other, told = Database(self.path, TYPES, self.net.transport(), options=FAST), list[Recovery]()
        self.addCleanup(other.close)
        other.on_recovered(told.append)
        until(lambda: bool(told))
        with mock.patch.object(DatabaseClient, "replaced", side_effect=Closed("the process ends here")), Database(path, TYPES) as db:
            with db.write() as tx:
                tx.create(Day, day=11)
            db.start_sync(self.net.transport(), options=FAST)
            self.assertRaises(NeedsAttention, db.synced, 30)
        self.net.answer = lambda message: None
        self.assertTrue(other.synced(30))
        with Database(path, TYPES) as db:
            with db.write() as tx:
                tx.create(Day, day=12)
            db.start_sync(self.net.transport(), options=FAST)
            self.assertTrue(db.synced(30))
            self.assertEqual([it.day for it in db[Day]], [1, 2, 3, 4, 5, 6, 11, 12])
        # What both have was sent by the other one, and isn't sent again.
        self.assertEqual(self.net.server.standing().cursor, 4 + 3 + 1 + 1)

    def test_another_server_is_never_taken_for_this_one(self) -> None:
        work = Net()
        with self.net.database(self.path) as db:
            with db.write() as tx:
                tx.create(Day, day=1, note="home")
            self.assertTrue(db.synced(30))
            db.stop_sync()
            with db.write() as tx:
                tx.create(Day, day=2, note="home, unsent")
            db.start_sync(work.transport(), options=FAST)
            with self.assertRaises(NeedsAttention) as told:
                db.synced(30)
            self.assertEqual(told.exception.problem.cause, "other server")
            self.assertEqual(work.server.standing().cursor, 0)
            db.recover()
            self.assertTrue(db.synced(30))
            self.assertEqual([it.note for it in db[Day]], ["home, unsent"])
        self.assertEqual(sorted(os.listdir(os.path.dirname(self.path))), ["db", "db.kept-1"])

    def test_a_retired_client_recovers_cut_off_at_each_message(self) -> None:
        for cut in range(1, 12):
            net = Net()
            path = f"{self.path}{cut}"
            with net.database(path) as db:
                with db.write() as tx:
                    tx.create(Day, day=1)
                self.assertTrue(db.synced(30))
                ident = db._client.standing().ident
                db.stop_sync()
                with db.write() as tx:
                    tx.create(Day, day=2, note="unsent")
            refusal, refused = bytes([REFUSED, ident, 2, 68, 1]), bytes([UPLOAD, ident])
            net.answer = lambda message, refusal=refusal, refused=refused: refusal if message[:2] == refused else None  # type: ignore[misc]
            count = 0

            def cutting(message: bytes) -> bytes:
                nonlocal count
                count += 1
                if count == cut:
                    raise OSError("cut")
                return net.exchange(message)

            told: list[Recovery] = []
            with Database(path, TYPES) as db:
                db.on_recovered(told.append)
                db.start_sync(CallTransport(cutting), options=FAST)
                until(lambda: bool(told))
                self.assertEqual((told[0].problem.cause, told[0].saved), ("retired", 1), f"cut {cut}")
                self.assertTrue(db.synced(30))
                self.assertEqual([it.note for it in db[Day]], ["", "unsent"])

    def test_a_takeover_that_was_cut_off_at_another_server_is_begun_anew(self) -> None:
        other, allowed = Net(), 0
        with self.net.database(self.path) as db:
            self.assertTrue(db.synced(30))
            db.stop_sync()
            with db.write() as tx:
                tx.create(Day, day=2)

            def cutting(message: bytes) -> bytes:
                nonlocal allowed
                allowed -= 1
                if allowed < 0:
                    raise OSError("cut")
                return other.exchange(message)

            allowed = 3
            db.start_sync(CallTransport(cutting), options=FAST)
            self.assertRaises(NeedsAttention, db.synced, 30)
            allowed = 1
            self.assertRaises(OSError, db.recover)
        self.assertEqual(sorted(os.listdir(os.path.dirname(self.path))), ["db", "db.heir", "db.reason"])
        # At home again all is well, and nothing takes over.
        with self.net.database(self.path) as db:
            self.assertTrue(db.synced(30))
            db.start_sync(other.transport(), options=FAST)
            self.assertRaises(NeedsAttention, db.synced, 30)
            db.recover()
            self.assertTrue(db.synced(30))
        self.assertEqual(sorted(os.listdir(os.path.dirname(self.path))), ["db", "db.kept-1"])

    def test_a_new_client_that_is_refused_is_given_up(self) -> None:
        with self.net.database(self.path) as db:
            self.assertTrue(db.synced(30))
            self.net.answer = lambda message: bytes([REFUSED, message[1], 0, 71, 9]) if message[0] == ASK2 and message[1] != 1 else None
            self.assertRaisesRegex(Refused, "gave up the history", db.recover)
        self.assertEqual(os.listdir(os.path.dirname(self.path)), ["db"])

    def test_a_problem_that_no_new_client_settles_is_no_reason_for_one(self) -> None:
        with self.net.database(self.path) as db:
            self.assertTrue(db.synced(30))
            self.net.answer = lambda message: bytes([REFUSED, message[1], 2, 64, 1]) if message[0] == UPLOAD else None
            with db.write() as tx:
                tx.create(Day, day=1)
            with self.assertRaises(NeedsAttention) as told:
                db.synced(30)
            with self.assertRaises(NeedsAttention) as again:
                db.recover()
            self.assertEqual([it.exception.problem.cause for it in (told, again)], ["full", "full"])
        self.assertEqual(os.listdir(os.path.dirname(self.path)), ["db"])

    def test_who_waits_for_sync_where_sync_waits_for_it_is_told(self) -> None:
        told: list[str] = []
        with self.net.database() as db, self.net.database() as other:

            def wait(_: object) -> None:
                if threading.current_thread() is not threading.main_thread():
                    try:
                        db.synced()
                    except Error as why:
                        told.append(str(why))

            db[Day].observe(wait)
            with self.assertRaisesRegex(Error, "sync waits for this thread's transaction"), db.write():
                db.synced()
            with other.write() as tx:
                tx.create(Day, day=1)
            self.assertTrue(other.synced(30))
            until(lambda: bool(told))
            self.assertRegex(told[0], "a callback of sync")
            self.net.is_down = True
            threading.Timer(0.1, db.stop_sync).start()
            self.assertRaisesRegex(Closed, "sync was stopped", db.synced)

    def test_a_callback_that_settles_the_problem_it_is_told_of(self) -> None:
        with self.net.database(self.path) as db:
            self.assertTrue(db.synced(30))
            refusals = [bytes([REFUSED, db._client.standing().ident, 2, 64, 1])]
            self.net.answer = lambda message: refusals.pop() if message[0] == UPLOAD and refusals else None
            db.observe_sync(lambda state: db.renew_token("") if state.status == "needs attention" else None)
            with db.write() as tx:
                tx.create(Day, day=1)
            until(lambda: not refusals and db.sync_state.status == "up to date")
            self.assertEqual(db.unsent, 0)

    def test_schemas_that_differ_are_told_before_anything_is_sent(self) -> None:
        @table("days")
        class Other:
            day: int
            note: int

        with self.net.database() as db:
            with db.write() as tx:
                tx.create(Day, day=1, note="phone")
            self.assertTrue(db.synced(30))
        states: list[SyncState] = []
        with Database(self.path, [Other]) as laptop:
            with laptop.write() as tx:
                tx.create(Other, day=2, note=5)
            self.net.sent.clear()
            laptop.observe_sync(states.append)
            laptop.start_sync(self.net.transport(), options=FAST)
            with self.assertRaisesRegex(SchemaConflict, "days.note is declared as Int One, and is Text One in the data"):
                laptop.synced(30)
            self.assertNotIn(UPLOAD, self.net.sent)
            recovery = laptop.recover()
            self.assertEqual(recovery.saved, 2)
            self.assertIn("the value doesn't fit the column", recovery.dropped[-1].why)
            with self.assertRaises(SchemaConflict), laptop.write():
                pass
        with self.net.database(self.path) as again:
            self.assertTrue(again.synced(30))
            self.assertEqual([(it.day, it.note) for it in again[Day]], [(1, "phone"), (2, "")])


if __name__ == "__main__":
    unittest.main()
