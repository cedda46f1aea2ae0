"""The service as its users and operators see it, over each store: processes and URLs."""

import asyncio
import json
import os
import resource
import shutil
import signal
import sqlite3
import subprocess
import unittest

import aiohttp
from devices import Device, new_client
from link import Turned
from support import PATIENCE, TOP, Service, authorized, cluster, folder, free_port, get, stores, token, until

HISTORY = "family-7"


def lines(text):
    return [json.loads(line) for line in text.splitlines()]


async def fetched(session, method, url, headers, body=None):
    async with session.request(method, url, headers=headers, data=body) as answer:
        return answer.status, await answer.text(errors="replace")


class Suite:
    """The cases, over one `kind` of store."""

    kind = ""

    async def asyncSetUp(self):
        self.store = stores(self.kind)
        self.service = Service(self.store, histories={"idle_seconds": 1.0}).start().ready()
        self.url = f"{self.service.base}/v1/histories/{HISTORY}"
        self.session = aiohttp.ClientSession()

    async def asyncTearDown(self):
        await self.session.close()
        self.service.kill()

    async def get(self, path, user="ann", level="read", **headers):
        return await fetched(self.session, "GET", self.url + path, {**authorized(user, {HISTORY: level}), **headers})

    async def test_two_devices_agree(self):
        async with Device(self.service.base, HISTORY) as phone, Device(self.service.base, HISTORY, "bob") as laptop:
            phone.note("milk", "buy milk")
            laptop.note("home", "call home")
            for device in (phone, laptop, phone):
                await device.sync()
            self.assertEqual(phone.dump(), laptop.dump())
            self.assertEqual(phone.texts(), {"all": "", "home": "call home", "milk": "buy milk"})
            status, text = await self.get("/objects")
            self.assertEqual((status, lines(text)), (200, phone.dump()))
            _, text = await self.get("/objects?table=notes&key=%22milk%22")
            self.assertEqual(lines(text)[0]["cells"]["text"], "buy milk")
            self.assertEqual((await self.get("/objects?table=notes&key=%22none%22"))[0], 404)
            self.assertEqual((await self.get("/objects?table=notes&key=none"))[0], 400)

    async def test_what_was_answered_is_there_after_a_kill(self):
        async with Device(self.service.base, HISTORY) as phone:
            phone.note("milk", "buy milk")
            await phone.sync()
            self.service.kill()
            self.service.start().ready()
            self.assertEqual(lines((await self.get("/objects"))[1]), phone.dump())
            phone.note("bread", "buy bread")
            await phone.sync()
            self.assertEqual(lines((await self.get("/objects"))[1]), phone.dump())
        self.assertEqual(self.service.stop(), 0)

    async def test_an_idle_history_is_opened_again(self):
        async with Device(self.service.base, HISTORY) as phone, Device(self.service.base, HISTORY) as tablet:
            phone.note("milk", "buy milk")
            await phone.sync()
            self.assertTrue(await until(lambda: self.service.metric("realm_histories_open") == 0))
            await tablet.sync()
            self.assertEqual(tablet.texts(), phone.texts())

    async def test_news_by_long_poll_and_by_socket(self):
        async with Device(self.service.base, HISTORY) as phone, Device(self.service.base, HISTORY) as tablet:
            await phone.sync()
            await tablet.sync()
            self.assertEqual((await self.get("/news?after=2&wait=0.2"))[0], 204)
            self.assertEqual((await self.get("/news?after=x"))[0], 400)
            waiting = asyncio.create_task(self.get("/news?after=2&wait=20"))
            live = tablet.link.live()
            told = asyncio.create_task(live.__anext__())
            await asyncio.sleep(0.2)
            phone.note("milk", "buy milk")
            await phone.sync()
            self.assertEqual(await waiting, (200, '{"news": 3}'))
            self.assertTrue(await asyncio.wait_for(told, PATIENCE))
            self.assertEqual(tablet.texts(), phone.texts())
            await live.aclose()

    async def test_entries_from_a_version_on(self):
        self.assertEqual((await self.get("/entries"))[0], 404)
        async with Device(self.service.base, HISTORY) as phone:
            for number in range(5):
                phone.note(f"note {number}", "x")
            await phone.sync()
            size = await self._stored()
            status, text = await self.get("/entries")
            told = lines(text)
            self.assertEqual((status, [it["version"] for it in told]), (200, list(range(6))))
            self.assertEqual({(it["ident"], it["device"]) for it in told}, {(1, str(phone.client.uuid))})
            self.assertEqual([it["number"] for it in told], list(range(1, 7)))
            self.assertEqual(lines((await self.get("/entries?from=4"))[1]), told[4:])
            self.assertEqual((await self.get("/entries?from=6"))[1], "")
            self.assertEqual((await self.get("/entries?from=7"))[0], 410)
            self.assertEqual((await self.get("/entries?from=x"))[0], 400)
            self.assertEqual(await self._stored(), size)  # reading adds nothing to the history
            await self._followed(phone, told)

    async def _stored(self):
        return self.service.metric("realm_stored_bytes_total")

    async def _followed(self, phone, told):
        """Events are resumed behind the last one, and new ones come by themselves."""
        headers = {**authorized("ann", {HISTORY: "read"}), "Accept": "text/event-stream", "Last-Event-ID": "3"}
        async with self.session.get(self.url + "/entries", headers=headers) as stream:
            events = [await self._event(stream) for _ in range(2)]
            self.assertEqual(events, [("4", told[4]), ("5", told[5])])
            phone.note("later", "x")
            await phone.sync()
            number, entry = await self._event(stream)
            self.assertEqual((number, entry["number"]), ("6", 7))

    @staticmethod
    async def _event(stream):
        fields = {}
        while line := (await asyncio.wait_for(stream.content.readline(), PATIENCE)).decode().rstrip("\n"):
            name, _, value = line.partition(": ")
            fields[name] = value
        return fields["id"], json.loads(fields["data"])

    async def test_who_reads_makes_no_history(self):
        for path in ("/objects", "/entries"):
            self.assertEqual((await self.get(path, level="rule"))[0], 404)
        self.assertEqual((await fetched(self.session, "POST", self.url + "/trim", authorized("ann", {HISTORY: "rule"})))[0], 404)
        self.assertEqual(self.service.metric("realm_histories_owned"), 0)
        self.assertEqual((await self.get("/news?wait=0", level="read"))[0], 404)
        self.assertEqual((await self.get("/news?wait=0", level="write"))[0], 204)

    async def test_who_may_not_make_a_history_holds_up_nobody_who_may(self):
        bind = b"\x01" + b"u" * 16
        for number in range(10):
            url = f"{self.service.base}/v1/histories/new-{number}"
            reader, writer = (authorized("ann", {"*": level}) for level in ("read", "write"))
            asked = fetched(self.session, "GET", url + "/objects", reader), fetched(self.session, "POST", url, writer, bind)
            (_, (status, _)) = await asyncio.gather(*asked)
            self.assertEqual(status, 200)

    async def test_trimming_while_devices_change(self):
        async with Device(self.service.base, HISTORY) as phone, Device(self.service.base, HISTORY) as tablet:
            for device in (phone, tablet):
                await device.sync()
            for number in range(60):
                phone.note(f"note {number}", "x")
            for device in (phone, tablet, phone, tablet):
                await device.sync()
            rule = authorized("boss", {HISTORY: "rule"})
            status, _ = await fetched(self.session, "POST", self.url + "/trim", authorized("ann", {HISTORY: "write"}))
            self.assertEqual(status, 403)
            status, text = await fetched(self.session, "POST", self.url + "/trim", rule)
            self.assertEqual(status, 200, text)
            sizes = json.loads(text)
            self.assertLess(sizes["after"], sizes["before"])
            self.assertEqual((await self.get("/entries?from=1"))[0], 410)

            async def work(device, name):
                for number in range(10):
                    device.note(f"{name} {number}", "y")
                    await device.sync()

            async def trim():
                for _ in range(4):
                    await fetched(self.session, "POST", self.url + "/trim", rule)

            await asyncio.gather(work(phone, "a"), work(tablet, "b"), trim())
            for device in (phone, tablet, phone):
                await device.sync()
            self.assertEqual((phone.dump(), phone.count()), (tablet.dump(), 80))
            self.assertEqual(lines((await self.get("/objects"))[1]), phone.dump())

    async def test_a_backup_is_put_back_and_older_devices_are_refused_by_name(self):
        async with Device(self.service.base, HISTORY) as phone:
            phone.note("milk", "buy milk")
            await phone.sync()
            kept = self.backed_up()
            phone.note("bread", "after the backup")
            await phone.sync()
        self.service.stop()
        self.put_back(kept)
        status, said = self.service.command("raise-generation", "--all")
        self.assertEqual((status, said), (0, f"{HISTORY}: generation 2\n"))
        self.service.start().ready()
        async with Device(self.service.base, HISTORY, client=phone.client) as old, Device(self.service.base, HISTORY) as new:
            with self.assertRaises(Turned) as told:
                await old.sync()
            self.assertEqual(told.exception.status, 410)
            old.link.generation = 2  # and also where it says the new one
            with self.assertRaises(Turned) as told:
                await old.sync()
            self.assertEqual(told.exception.status, 410)
            self.assertIn("generation 1", str(told.exception))
            await new.sync()
            self.assertEqual((new.link.generation, new.texts()), (2, {"all": "", "milk": "buy milk"}))

    async def test_a_history_moves_to_another_store_and_back(self):
        async with Device(self.service.base, HISTORY) as phone:
            phone.note("milk", "buy milk")
            await phone.sync()
        self.service.stop()
        other = Service(stores("sqlite" if self.kind == "files" else "files"))
        self.assertEqual(self.service.command("move", "none", "--to", other.config)[0], 1)
        for here, there in ((self.service, other), (other, self.service)):
            status, said = here.command("move", HISTORY, "--to", there.config)
            self.assertEqual((status, said.partition(",")[0]), (0, f"{HISTORY}: moved"), said)
        other.start().ready()
        self.service.start().ready()
        self.assertEqual(get(f"{other.base}/v1/histories/{HISTORY}/objects", authorized("ann", {HISTORY: "read"}))[0], 404)
        async with Device(self.service.base, HISTORY, client=phone.client) as phone:
            phone.note("bread", "buy bread")
            await phone.sync()
            self.assertEqual(lines((await self.get("/objects"))[1]), phone.dump())
        other.stop()

    async def test_a_token_for_some_tables(self):
        async with Device(self.service.base, HISTORY) as phone:
            with phone.client.transaction() as edits:
                edits.add_table("diary", "Int")
                edits.add_column("diary", "text", "Text")
                edits.create("diary", 1)
            phone.note("milk", "buy milk")
            await phone.sync()
            grant = {"level": "read", "tables": ["notes"]}
            async with Device(self.service.base, HISTORY, "guest", level=grant) as whole:
                with self.assertRaises(Turned) as told:
                    await whole.sync()
                self.assertEqual(told.exception.status, 403)
            client = new_client_of(["notes"])
            async with Device(self.service.base, HISTORY, "guest", level=grant, client=client) as guest:
                await guest.sync()
                self.assertEqual({it["table"] for it in client.objects()}, {"notes"})
            told = lines((await self.get("/objects", "guest", grant))[1])
            self.assertEqual({it["table"] for it in told if "cells" in it}, {"notes"})
            self.assertEqual((await self.get("/objects?table=diary&key=1", "guest", grant))[0], 403)
            secret = lines((await self.get("/entries"))[1])[1]["changeset"]
            shown = lines((await self.get("/entries", "guest", grant))[1])[1]["changeset"]
            self.assertLess(len(shown), len(secret))


def new_client_of(tables):
    """A client of some tables alone, that has made nothing."""
    from realm_sync import Client

    client = Client()
    client.uuid = new_client().uuid
    client.born(client.uuid)
    client.subscribe(tables)
    return client


class Limited:
    """The stores that write files by themselves."""

    async def test_files_that_may_not_grow(self):
        """As on a disk that is full: nothing is acknowledged that isn't stored, questions are answered, and it goes on once there is room."""
        async with Device(self.service.base, HISTORY, patience=5) as phone, Device(self.service.base, HISTORY, "bob") as tablet:
            for device in (phone, tablet):
                await device.sync()
            limit, pid = resource.RLIMIT_FSIZE, self.service.process.pid
            resource.prlimit(pid, limit, (self.most_bytes, resource.RLIM_INFINITY))
            for number in range(20):
                phone.note(f"note {number}", "x" * 20_000)
            syncing = asyncio.create_task(phone.sync())
            self.assertTrue(await until(lambda: self.service.metric("realm_batches_failed_total") >= 2))
            self.assertEqual((syncing.done(), phone.client.standing().unsent), (False, 20))
            await tablet.sync()
            self.assertEqual(tablet.count(), 0)
            resource.prlimit(pid, limit, (resource.RLIM_INFINITY, resource.RLIM_INFINITY))
            await asyncio.wait_for(syncing, PATIENCE)
            await tablet.sync()
            self.service.kill()
            self.service.start().ready()
            self.assertEqual(lines((await self.get("/objects"))[1]), phone.dump())
            self.assertEqual((tablet.dump(), tablet.count()), (phone.dump(), 20))


class OfFiles(Limited, Suite, unittest.IsolatedAsyncioTestCase):
    kind, most_bytes = "files", 60_000

    def backed_up(self):
        """While it runs: the journals first, then the devices."""
        kept = folder()
        for end in (".realm", ".devices"):
            shutil.copy(os.path.join(self.store["folder"], HISTORY + end), kept)
        return kept

    def put_back(self, kept):
        shutil.rmtree(self.store["folder"])
        shutil.copytree(kept, self.store["folder"])

    async def test_a_damaged_history_isnt_moved(self):
        async with Device(self.service.base, HISTORY) as phone:
            phone.note("milk", "buy milk")
            await phone.sync()
        self.service.stop()
        path, other = os.path.join(self.store["folder"], HISTORY + ".realm"), Service(stores("sqlite"))
        os.truncate(path, os.path.getsize(path) - 2)
        with open(path, "rb") as file:
            damaged = file.read()
        status, said = self.service.command("move", HISTORY, "--to", other.config)
        self.assertEqual((status, said.partition(",")[0]), (1, f"realm_service: {HISTORY}: no journal of a server"))
        with open(path, "rb") as file:
            self.assertEqual(file.read(), damaged)

    async def test_a_long_history_comes_in_parts(self):
        async with Device(self.service.base, HISTORY) as phone, Device(self.service.base, HISTORY) as tablet:
            for _ in range(5000):
                with phone.client.transaction() as edits:
                    edits.add("notes", "all", "count", 1)
            await phone.sync()
            await tablet.sync()
            self.assertEqual((tablet.client.standing().cursor, tablet.count()), (5002, 5000))
            told = lines((await self.get("/entries"))[1])
            self.assertEqual([it["version"] for it in told], list(range(5002)))


class OfSqlite(Limited, Suite, unittest.IsolatedAsyncioTestCase):
    kind, most_bytes = "sqlite", 200_000

    def backed_up(self):
        kept = os.path.join(folder(), "backup.db")
        with sqlite3.connect(self.store["path"]) as link:
            link.execute("VACUUM INTO ?", (kept,))
        link.close()
        return kept

    def put_back(self, kept):
        for end in ("-wal", "-shm"):
            if os.path.exists(self.store["path"] + end):
                os.unlink(self.store["path"] + end)
        shutil.copy(kept, self.store["path"])


class OfPostgres(Suite, unittest.IsolatedAsyncioTestCase):
    kind = "postgres"

    def backed_up(self):
        kept = os.path.join(cluster().at, "backup")
        cluster().run("pg_dump", "-Fc", "-f", kept, self.store["dsn"].rpartition("/")[2])
        return kept

    def put_back(self, kept):
        name = self.store["dsn"].rpartition("/")[2]
        cluster().sql(f"DROP DATABASE {name} WITH (FORCE)")
        cluster().sql(f"CREATE DATABASE {name}")
        cluster().run("pg_restore", "-d", name, kept)


class Workers(unittest.IsolatedAsyncioTestCase):
    """Two workers over one PostgreSQL."""

    async def asyncSetUp(self):
        store = {**stores("postgres"), "lease_seconds": 30.0}
        self.service, self.other = (Service(store, histories={"idle_seconds": 1.0}).start() for _ in range(2))
        for it in (self.service, self.other):
            it.ready()
        self.url = f"{self.service.base}/v1/histories/{HISTORY}"
        self.session = aiohttp.ClientSession()

    async def asyncTearDown(self):
        await self.session.close()
        self.service.kill()
        self.other.kill()

    async def test_any_worker_takes_any_history(self):
        """One worker owns it, the other one passes on sockets, messages, news, objects and entries."""
        async with Device(self.service.base, HISTORY) as phone, Device(self.other.base, HISTORY) as tablet:
            phone.note("milk", "buy milk")
            await phone.sync()
            await tablet.sync()
            self.assertEqual(phone.texts(), tablet.texts())
            url = self.url.replace(self.service.base, self.other.base)
            headers = authorized("ann", {HISTORY: "write"})
            for path in ("/objects", "/entries", "/news?after=0"):
                self.assertEqual(await fetched(self.session, "GET", url + path, headers), await fetched(self.session, "GET", self.url + path, headers))
            bind = b"\x01" + tablet.client.uuid.bytes
            self.assertEqual(await fetched(self.session, "POST", url, headers, bind), await fetched(self.session, "POST", self.url, headers, bind))
            self.assertEqual((await fetched(self.session, "POST", url, authorized("eve", {HISTORY: "write"}), bind))[0], 403)
            self.assertGreater(self.other.metric("realm_relayed_total"), 0)
            phone.note("bread", "buy bread")
            live = tablet.link.live()
            told = asyncio.create_task(live.__anext__())
            await phone.sync()
            await asyncio.wait_for(told, PATIENCE)
            self.assertEqual(phone.texts(), tablet.texts())
            await live.aclose()

    async def test_a_worker_that_died_is_replaced_at_once(self):
        """Within a second where the machine isn't busy, and long before its lease ends."""
        async with Device(self.service.base, HISTORY) as phone, Device(self.other.base, HISTORY) as tablet:
            phone.note("milk", "buy milk")
            await phone.sync()
            await tablet.sync()
            self.service.kill()
            began = asyncio.get_running_loop().time()
            tablet.note("bread", "buy bread")
            await tablet.sync()
            took = asyncio.get_running_loop().time() - began
            self.assertLess(took, 15.0)
            self.assertEqual(tablet.count(), 2)

    async def test_callers_whose_owner_is_gone_or_hangs_are_answered_by_the_other_worker(self):
        """One that was killed is replaced at once, within the call; one that hangs when its lease has ended."""
        store = {**stores("postgres"), "lease_seconds": 2.0}
        asked = (("POST", "", b"\x04\x01\x00\x00", 200), ("GET", "/objects", None, 200), ("GET", "/entries", None, 200),
                 ("GET", "/news?after=1&wait=0", None, 204))
        for ends in (signal.SIGKILL, signal.SIGSTOP):
            owner, other = (Service(store).start().ready() for _ in range(2))
            headers, names = authorized("ann", {"*": "write"}), [f"{ends.name}-{number}" for number in range(len(asked))]
            for name in names:
                for base in (owner.base, other.base):
                    self.assertEqual((await fetched(self.session, "POST", f"{base}/v1/histories/{name}", headers, b"\x01" + b"u" * 16))[0], 200)
            owner.process.send_signal(ends)
            began = asyncio.get_running_loop().time()
            calls = (fetched(self.session, method, f"{other.base}/v1/histories/{name}{path}", headers, body)
                     for name, (method, path, body, _) in zip(names, asked))
            self.assertEqual([status for status, _ in await asyncio.gather(*calls)], [it[3] for it in asked])
            self.assertLess(asyncio.get_running_loop().time() - began, 20.0)
            owner.kill()
            self.assertEqual(other.stop(), 0)

    async def test_a_worker_passes_on_many_sockets(self):
        """More than the hundred connections that a client of the library has by itself."""
        store = stores("postgres")
        here, there = (Service(store, limits={"user_connections": 1000}).start().ready() for _ in range(2))
        headers = authorized("ann", {HISTORY: "write"})
        bind, ask = b"\x01" + b"u" * 16, b"\x04\x01\x00\x00"
        self.assertEqual((await fetched(self.session, "POST", f"{here.base}/v1/histories/{HISTORY}", headers, bind))[0], 200)
        async with aiohttp.ClientSession(connector=aiohttp.TCPConnector(limit=0)) as session:
            kept_open = []

            async def answered():
                opened = await session.ws_connect(f"{there.base}/v1/histories/{HISTORY}", headers=headers)
                kept_open.append(opened)
                await opened.send_bytes(ask)
                return (await opened.receive(timeout=PATIENCE)).data

            for _ in range(30):  # (not all at the same moment: a worker waits some seconds for the owner's handshake)
                self.assertEqual(set(await asyncio.gather(*(answered() for _ in range(5)))), {b"\x05\x01\x00\x00"})
        self.assertGreaterEqual(there.metric("realm_relayed_total"), 150)
        for it in (here, there):
            self.assertEqual(it.stop(), 0)

    async def test_callers_hear_nothing_of_the_store(self):
        cluster().stop()
        try:
            status, said = await fetched(self.session, "GET", self.url + "/objects", authorized("ann", {HISTORY: "write"}))
        finally:
            cluster().start()
        self.assertEqual((status, said), (503, "the worker or its store doesn't answer as yet: try again\n"))
        self.assertIn("callers are to try again: ", self.service.said())

    async def test_a_worker_that_stops_says_come_back(self):
        async with Device(self.service.base, HISTORY) as phone:
            await phone.sync()
            self.assertEqual(self.service.stop(), 0)
            got = await phone.link.socket.receive(timeout=PATIENCE)
            self.assertEqual((got.type, phone.link.socket.close_code), (aiohttp.WSMsgType.CLOSE, 1012))
            phone.link.base = self.other.base
            phone.note("milk", "buy milk")
            await phone.sync()
            self.assertEqual(self.other.metric("realm_histories_taken_total"), 1)


class WithoutConfiguration(unittest.TestCase):
    def test_one_command_serves_and_prints_a_token(self):
        port = free_port()
        words = [os.path.join(TOP, "realm_service"), "--listen", f"127.0.0.1:{port}"]
        at = folder()
        process = subprocess.Popen(words, cwd=at, stdout=subprocess.PIPE, stderr=subprocess.DEVNULL, text=True)
        try:
            self.assertIn(f"http://127.0.0.1:{port}", process.stdout.readline())
            printed = process.stdout.readline().strip()
            url = f"http://127.0.0.1:{port}"
            self.assertEqual(get(url + "/readyz"), (200, "ready\n"))
            self.assertIn("<table>", get(url + "/")[1])
            self.assertEqual(json.loads(get(url + "/openapi.json")[1])["openapi"], "3.0.3")
            told = subprocess.run([os.path.join(TOP, "service", "example.py"), "phone", "buy milk"], cwd=at, text=True, check=True,
                                  stdout=subprocess.PIPE, env={**os.environ, "REALM_TOKEN": printed, "REALM_URL": url}).stdout
            self.assertEqual(told, "buy milk\n")
            told = subprocess.run([os.path.join(TOP, "service", "example.py"), "laptop", "call home"], cwd=at, text=True, check=True,
                                  stdout=subprocess.PIPE, env={**os.environ, "REALM_TOKEN": printed, "REALM_URL": url}).stdout
            self.assertEqual(told, "buy milk\ncall home\n")
            second = subprocess.run(words, cwd=at, stdout=subprocess.PIPE, stderr=subprocess.STDOUT, text=True, check=False)
            self.assertEqual(second.returncode, 1)
        finally:
            process.terminate()
            process.wait(10)
            process.stdout.close()


if __name__ == "__main__":
    unittest.main()
