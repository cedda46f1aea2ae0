"""HTTP and WebSocket: news, tokens, lost connections, late replies; and asyncio."""

from __future__ import annotations

import asyncio
import os
import tempfile
import threading
import time
import unittest
from collections.abc import Callable

from realm_sync import Database, HttpTransport, NeedsAttention, TokenSource, Transaction, Transport, WebSocketTransport, aio

from .common import FAST, TYPES, Day, Item, until
from .service import Service


class Tests(unittest.TestCase):
    def setUp(self) -> None:
        self.service = Service()
        self.addCleanup(self.service.close)

    def transports(self, token: str = "good") -> list[Transport]:
        return [HttpTransport(self.service.http, token), WebSocketTransport(self.service.ws, token)]

    def test_two_devices_agree_and_hear_of_each_other(self) -> None:
        http, socket = self.transports()
        with Database(None, TYPES, http, options=FAST) as one, Database(None, TYPES, socket, options=FAST) as other:
            self.assertTrue(one.synced(30) and other.synced(30))
            for day, (writer, reader) in enumerate([(one, other), (other, one)]):
                heard = threading.Event()
                stop = reader[Day].where(day=day).observe(lambda rows, heard=heard: heard.set() if rows else None)  # type: ignore[misc]
                with writer.write() as tx:
                    tx.create(Day, day=day, note="new")
                self.assertTrue(heard.wait(30))
                stop()

    def test_a_wrong_token_needs_attention_until_it_is_renewed(self) -> None:
        for transport in self.transports("bad"):
            with Database(None, TYPES, transport, options=FAST) as db:
                with self.assertRaises(NeedsAttention) as told:
                    db.synced(30)
                self.assertEqual(told.exception.problem.cause, "unauthorized")
                db.renew_token("good")
                self.assertTrue(db.synced(30))

    def test_a_source_of_tokens_is_asked_for_another_one_once(self) -> None:
        kinds: list[tuple[Callable[[str, TokenSource], Transport], str]] = [(HttpTransport, self.service.http), (WebSocketTransport, self.service.ws)]
        for kind, url in kinds:
            asked: list[bool] = []

            def source(was_refused: bool) -> str:
                asked.append(was_refused)
                return "good" if was_refused else "old"

            with Database(None, TYPES, kind(url, source), options=FAST) as db:
                self.assertTrue(db.synced(30))
                with db.write() as tx:
                    tx.create(Day, day=len(asked))
                self.assertTrue(db.synced(30))
            self.assertEqual(asked, [False, True])
            with Database(None, TYPES, kind(url, lambda was_refused: "bad"), options=FAST) as db:
                self.assertRaises(NeedsAttention, db.synced, 10)

    def test_a_source_of_tokens_that_raises_is_asked_again(self) -> None:
        for kind, url in ((HttpTransport, self.service.http), (WebSocketTransport, self.service.ws)):
            fails, states = 3, list[str]()

            def source(_: bool) -> str:
                nonlocal fails
                fails -= 1
                if fails > 0:
                    raise OSError("no network")
                return "good"

            with Database(None, TYPES) as db:
                db.observe_sync(lambda state, states=states: states.append(state.status))  # type: ignore[misc]
                db.start_sync(kind(url, source), options=FAST)
                self.assertTrue(db.synced(30))
            self.assertIn("offline", states)
            self.assertNotIn("needs attention", states)

    def test_a_database_is_closed_at_once_while_it_waits_for_a_reply(self) -> None:
        self.service.is_silent = True
        db = Database(None, TYPES, WebSocketTransport(self.service.ws, "good"), options=FAST)
        until(lambda: self.service.asked > 0)
        began = time.monotonic()
        db.close()
        self.assertLess(time.monotonic() - began, 5)

    def test_a_token_is_renewed_on_an_open_socket(self) -> None:
        with Database(None, TYPES, WebSocketTransport(self.service.ws, "good"), options=FAST) as db:
            self.assertTrue(db.synced(30))
            db.renew_token("next")
            until(lambda: self.service.renewed == ["next"])

    def test_a_connection_that_is_lost_is_made_again(self) -> None:
        with Database(None, TYPES, WebSocketTransport(self.service.ws, "good"), options=FAST) as db:
            self.assertTrue(db.synced(30))
            self.service.drop()
            with db.write() as tx:
                tx.create(Day, day=1)
            self.assertTrue(db.synced(30))
            self.assertEqual(db.unsent, 0)

    def test_a_reply_that_comes_too_late_is_given_up(self) -> None:
        self.service.is_silent = True
        with Database(None, TYPES, WebSocketTransport(self.service.ws, "good", timeout=0.1), options=FAST) as db:
            until(lambda: "no reply came in time" in db.sync_state.text)
            self.service.is_silent = False
            self.assertTrue(db.synced(30))

    def test_a_history_that_was_restored_on_the_server(self) -> None:
        with tempfile.TemporaryDirectory() as folder:
            for way, name in enumerate(("http", "socket")):
                path, self.service.generation = os.path.join(folder, name), 1
                with Database(path, TYPES, self.transports()[way], options=FAST) as db:
                    with db.write() as tx:
                        tx.create(Day, day=1)
                    self.assertTrue(db.synced(30))
                    db.stop_sync()
                    with db.write() as tx:
                        item = tx.create(Item, quantity=1)
                    # It reached the history before that was restored, and nobody told the device.
                    self.service.server.take(db._client.engine.ask(b"U", (db._client.standing().last - 1).to_bytes(4, "little")))
                    for amount in (4, 5):
                        with db.write() as tx:
                            tx.create(Day, day=2)
                            tx.add(Item, item, "quantity", amount)
                self.service.generation = 3
                with Database(None, TYPES, self.transports()[way], options=FAST) as fresh:
                    self.assertTrue(fresh.synced(30))
                with Database(path, TYPES, self.transports()[way], options=FAST) as db:
                    with self.assertRaisesRegex(NeedsAttention, "restored on the server and is of generation 3") as told:
                        db.synced(30)
                    self.assertEqual(told.exception.problem.cause, "other server")
                    recovery = db.recover()
                    self.assertEqual((recovery.saved, recovery.integrated, recovery.dropped), (2, 1, ()))
                    self.assertTrue(db.synced(30))
                with Database(path, TYPES, self.transports()[way], options=FAST) as db:
                    self.assertTrue(db.synced(30))
                    self.assertEqual(sorted(it.day for it in db[Day])[-2:], [1, 2])
                    found = db[Item].get(item)
                    self.assertEqual(found and found.quantity, 10)
                self.assertEqual(sorted(it for it in os.listdir(folder) if it.startswith(name)), [name, f"{name}.generation", f"{name}.kept-1"])

    def test_asyncio(self) -> None:
        def create(tx: Transaction) -> None:
            tx.create(Day, day=1, note="a")

        async def work() -> None:
            async with aio.open_database(None, TYPES, self.service.http, token="good", options=FAST) as db:
                await db.write(create)
                seen = []

                async def watch() -> None:
                    async for rows in db.watch(db[Day]):
                        seen.append([it.note for it in rows])
                        if seen[-1] == ["b"]:
                            return

                watching = asyncio.create_task(watch())
                await asyncio.sleep(0.05)
                await db.write(lambda tx: tx.update(Day, 1, note="b"))
                await asyncio.wait_for(watching, 10)
                self.assertEqual((seen[0], seen[-1]), (["a"], ["b"]))
                self.assertTrue(await db.synced(30))

        asyncio.run(work())


if __name__ == "__main__":
    unittest.main()
