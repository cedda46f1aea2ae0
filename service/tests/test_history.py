"""A history within a worker: what its listeners hear, and what comes while it is trimmed."""

import asyncio
import os
import shutil
import unittest
import unittest.mock
import uuid

from devices import new_client
from support import folder
from test_stores import Failing

from realm_service.config import HistoriesConfig
from realm_service.devices import Caller, Forbidden
from realm_service.histories import Histories
from realm_service.stores import Fenced, StoreDown
from realm_service.stores.files import Files

ANN = Caller("ann", True)


class Held(Files):
    """A store that says when a journal is to be replaced, and waits until it may."""

    def __init__(self, at):
        super().__init__(at)
        self.is_asked, self.may = asyncio.Event(), asyncio.Event()

    async def replace(self, lease, journal):
        self.is_asked.set()
        await self.may.wait()
        await super().replace(lease, journal)


class Case(unittest.IsolatedAsyncioTestCase):
    made = Files

    async def asyncSetUp(self):
        self.at = os.path.join(folder(), "histories")
        self.others = []
        self.histories = await self.begun(self.made(self.at))
        self.history = await self.histories.get("family", True)
        self.heard = []

    async def begun(self, store):
        await store.start("")
        self.others.append(Histories(store, HistoriesConfig(), 30))
        return self.others[-1]

    async def asyncTearDown(self):
        for it in self.others:
            await it.stop()
            await it.store.stop()

    @staticmethod
    async def said(history, client, count=1):
        """The client's next messages and their replies."""
        for _ in range(count):
            client.take(await history.ask(ANN, client.next_message()))

    @staticmethod
    def added(client):
        with client.transaction() as edits:
            edits.add("notes", "all", "count", 1)


class Listening(Case):
    async def test_news_of_an_append_that_failed_and_was_stored_all_the_same(self):
        client = new_client()
        await self.said(self.history, client, 2)
        self.added(client)
        upload = client.next_message()
        with self.history.listening(self.heard.append):
            with unittest.mock.patch("os.fsync", Failing(2)), self.assertRaises(StoreDown):  # of the gate, which is written then
                await self.history.ask(ANN, upload)
            self.assertEqual(self.heard, [])
            client.take(await self.history.ask(ANN, upload))
            self.assertEqual(self.heard, [client.standing().last])

    async def test_who_listens_is_told_that_the_history_is_given_back(self):
        with self.history.listening(self.heard.append):
            await self.history.close()
        self.assertEqual(self.heard, [None])
        with self.assertRaises(Fenced), self.history.listening(self.heard.append):
            pass

    async def test_an_idle_history_isnt_given_back_while_somebody_listens(self):
        bind = b"\x01" + uuid.uuid4().bytes
        await self.history.ask(ANN, bind)
        self.history.used -= 1000
        with self.history.listening(self.heard.append):
            await self.histories._sweep_once(self.history.used + 1)
            self.assertIn("family", self.histories.owned)
        await self.histories._sweep_once(self.history.used + 1)
        self.assertNotIn("family", self.histories.owned)


class Entries(Case):
    async def asyncSetUp(self):
        await super().asyncSetUp()
        self.client = new_client()
        for _ in range(5):
            self.added(self.client)
        await self.said(self.history, self.client, 3)

    async def test_their_devices_are_told_also_where_the_node_is_let_go_at_once(self):
        """As for room: whoever asked goes on a little later than the answer is there."""
        reply = self.history._reply

        def replied(*given):
            reply(*given)
            self.history.let_go()

        with unittest.mock.patch.object(self.history, "_reply", replied):
            page = await self.history.entries(2, 3, None)
        self.assertEqual([(it.version, it.ident, it.number) for it in page.entries], [(2, 1, 3), (3, 1, 4), (4, 1, 5)])
        self.assertEqual(page.uuids, {1: self.client.uuid.bytes})

    async def test_what_some_tables_get_of_them(self):
        page = await self.history.entries(0, 4, frozenset({"notes"}))
        self.assertEqual([it.version for it in page.entries], list(range(6)))
        self.assertEqual((await self.history.entries(6, 4, frozenset({"notes"}))).entries, [])
        for tables in (frozenset(), frozenset({"x" * 64}), frozenset(f"table {number}" for number in range(65))):
            with self.assertRaises(Forbidden):
                await self.history.entries(0, 4, tables)


class Trimming(Case):
    """Between the shorter file that the node tells and the exchange in the store."""

    made = Held

    async def asyncSetUp(self):
        await super().asyncSetUp()
        self.client = new_client()
        for _ in range(20):
            self.added(self.client)
        await self.said(self.history, self.client, 6)
        self.size = os.path.getsize(self.path())
        self.trimming = asyncio.create_task(self.history.trim())
        await self.histories.store.is_asked.wait()

    async def asyncTearDown(self):
        self.histories.store.may.set()  # also where a test failed before it did
        await super().asyncTearDown()

    def path(self):
        return os.path.join(self.at, "family.realm")

    async def stored(self):
        """The objects as a worker has them that begins with what is stored."""
        again = await (await self.begun(Files(self.at))).get("family")
        return (await again.read(b"D")).told

    async def test_what_comes_meanwhile_waits_and_stands(self):
        self.added(self.client)
        asking = asyncio.create_task(self.said(self.history, self.client, 3))
        await asyncio.sleep(0.1)
        self.assertEqual((asking.done(), self.trimming.done(), os.path.getsize(self.path())), (False, False, self.size))
        self.histories.store.may.set()
        before, after = await self.trimming
        self.assertEqual(before, self.size)
        self.assertLess(after, before)
        await asking
        self.assertEqual(self.client.standing().unsent, 0)
        self.assertGreater(os.path.getsize(self.path()), after)
        told = (await self.history.read(b"D")).told
        await self.history.close()
        self.assertEqual(await self.stored(), told)
        self.assertIn(b'"count":21', told)

    async def test_what_another_worker_stored_meanwhile_stands(self):
        """It has a copy in the file's place, since the lock can't be had otherwise."""
        shutil.copy(self.path(), self.path() + ".copy")
        os.rename(self.path() + ".copy", self.path())
        other = await (await self.begun(Files(self.at))).get("family")
        self.added(self.client)
        await self.said(other, self.client, 3)
        self.assertEqual(self.client.standing().unsent, 0)
        self.histories.store.may.set()
        with self.assertRaises(Fenced):
            await self.trimming
        told = (await other.read(b"D")).told
        await other.close()
        self.assertEqual(await self.stored(), told)
        self.assertIn(b'"count":21', told)


if __name__ == "__main__":
    unittest.main()
