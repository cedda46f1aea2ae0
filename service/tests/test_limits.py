"""What callers may take of a worker, and what a worker tells of them."""

import asyncio
import json
import socket
import time
import unittest

import aiohttp
from devices import Device
from support import PATIENCE, STOP_SECONDS, Service, authorized, stores, token, until
from test_service import HISTORY, fetched


class OfOneWorker(unittest.IsolatedAsyncioTestCase):
    async def asyncSetUp(self):
        self.session = aiohttp.ClientSession()

    async def asyncTearDown(self):
        await self.session.close()

    async def test_a_worker_that_stops_answers_what_is_under_way(self):
        slow = Service(stores("files"), limits={"requests_per_second": 0.5}).start().ready()
        headers = authorized("ann", {HISTORY: "write"})
        async with self.session.ws_connect(f"{slow.base}/v1/histories/{HISTORY}", headers=headers) as opened:
            for _ in range(2):
                await opened.send_bytes(b"\x01" + b"u" * 16)
                await opened.receive(timeout=PATIENCE)
            await opened.send_bytes(b"\x04\x01\x00\x00")  # which waits two seconds for the user's rate
            self.assertTrue(await until(lambda: slow.metric("realm_bytes_in_flight") > 0))
            slow.process.terminate()
            self.assertEqual((await opened.receive(timeout=PATIENCE)).data, b"\x05\x01\x00\x00")
            self.assertEqual((await opened.receive(timeout=PATIENCE)).data, 1012)
        self.assertEqual(slow.process.wait(STOP_SECONDS), 0)

    async def test_a_worker_that_stops_answers_who_waits_for_news(self):
        service = Service(stores("files")).start().ready()
        url, headers = f"{service.base}/v1/histories/{HISTORY}", authorized("ann", {HISTORY: "write"})
        self.assertEqual((await fetched(self.session, "POST", url, headers, b"\x01" + b"u" * 16))[0], 200)
        waiting = asyncio.create_task(fetched(self.session, "GET", url + "/news?after=5&wait=60", headers))
        await asyncio.sleep(1)
        self.assertEqual(await asyncio.to_thread(service.stop), 0)
        self.assertEqual((await waiting)[0], 503)

    async def test_renewals_count_for_the_rate(self):
        slow = Service(stores("files"), limits={"requests_per_second": 2.0}).start().ready()
        given = token("ann", {HISTORY: "write"})
        async with self.session.ws_connect(f"{slow.base}/v1/histories/{HISTORY}", headers={"Authorization": "Bearer " + given}) as opened:
            began = time.monotonic()
            for _ in range(10):
                await opened.send_str(json.dumps({"token": given}))
            await opened.send_bytes(b"\x01" + b"u" * 16)
            self.assertEqual((await opened.receive(timeout=PATIENCE)).data[:1], b"\x02")
            self.assertGreater(time.monotonic() - began, 2.0)  # 11 at two a second, of which four may come at once
        slow.kill()

    async def test_no_token_comes_to_the_log(self):
        service = Service(stores("files")).start().ready()
        given, url = token("ann", {HISTORY: "write"}), f"{service.base}/v1/histories/{HISTORY}"
        async with self.session.ws_connect(url, protocols=("bearer." + given,)) as opened:  # and not `realm` beside it
            await opened.send_str("{}")
            await opened.receive(timeout=PATIENCE)
        for bad in (b"Bad Header: x", b"Content-Length: x", b"\xff\xfe: x"):
            reader, writer = await asyncio.open_connection("127.0.0.1", service.port)
            writer.write(f"GET /v1/histories/{HISTORY}/objects HTTP/1.1\r\nAuthorization: Bearer {given}\r\n".encode() + bad + b"\r\n\r\n")
            await asyncio.wait_for(reader.read(100), PATIENCE)
            writer.close()
        self.assertEqual((await fetched(self.session, "GET", url + "/objects?" + "x" * 9000, {"Authorization": "Bearer " + given}))[0], 400)
        self.assertEqual(service.stop(), 0)
        with open(service.log, encoding="utf-8") as log:
            said = log.read()
        for part in given.split("."):
            self.assertNotIn(part[:40], said)
        self.assertNotIn("Traceback", said)

    async def test_each_door_counts_for_the_rate(self):
        slow = Service(stores("files"), limits={"requests_per_second": 2.0}).start().ready()
        headers = authorized("ann", {HISTORY: "write"})
        for path in ("/objects", "/entries", "/news?wait=0"):
            asked = [fetched(self.session, "GET", f"{slow.base}/v1/histories/{HISTORY}{path}", headers) for _ in range(40)]
            self.assertIn(429, {status for status, _ in await asyncio.gather(*asked)})
        slow.kill()

    async def test_who_takes_no_answer_is_cut(self):
        slow = Service(stores("files"), limits={"message_seconds": 2.0}).start().ready()
        async with Device(slow.base, HISTORY) as phone:
            for number in range(30):
                phone.note(f"note {number}", "x" * 500_000)
                await phone.sync()
        for path in ("/objects", "/entries"):
            self.assertTrue(await self._is_cut(slow, path), path)
        slow.kill()

    async def _is_cut(self, slow, path):
        """Whether one that asks and takes nothing is cut. It asks again now and then: a busy machine may answer 503, which is soon taken."""
        before = slow.metric("realm_connections_too_slow_total")
        for _ in range(6):
            with socket.socket() as made:
                made.setsockopt(socket.SOL_SOCKET, socket.SO_RCVBUF, 4096)
                made.connect(("127.0.0.1", slow.port))
                headers = f"GET /v1/histories/{HISTORY}{path} HTTP/1.1\r\nHost: x\r\nAuthorization: Bearer {token('ann', {HISTORY: 'read'})}\r\n\r\n"
                made.sendall(headers.encode())
                if await until(lambda: slow.metric("realm_connections_too_slow_total") > before, PATIENCE / 6):
                    return True
        return False

    async def test_messages_that_arent_whole_take_no_more_than_their_room(self):
        limits = {"in_flight_bytes": 8 << 20, "message_bytes": 4 << 20, "message_seconds": 600.0}  # (nobody is cut for the time it takes)
        small = Service(stores("files"), limits=limits).start().ready()
        headers = authorized("ann", {HISTORY: "write"})
        async with aiohttp.ClientSession(connector=aiohttp.TCPConnector(limit=0)) as session:
            sockets = [await session.ws_connect(f"{small.base}/v1/histories/{HISTORY}", headers=headers) for _ in range(20)]
            for it in sockets:  # a frame of 2 MiB, of which a byte is lacking
                it._response.connection.transport.write(b"\x82\xff" + (2 << 20).to_bytes(8, "big") + b"\0" * ((2 << 20) + 3))
            self.assertTrue(await until(lambda: small.metric("realm_connections_too_slow_total") >= 16))
            cut = small.metric("realm_connections_too_slow_total")
            self.assertIn(cut, range(16, 19))
            self.assertTrue(await until(lambda: small.metric("realm_connections") == 20 - cut))
        self.assertEqual((await fetched(self.session, "POST", f"{small.base}/v1/histories/{HISTORY}", headers, b"\x01" + b"u" * 16))[0], 200)
        small.kill()


if __name__ == "__main__":
    unittest.main()
