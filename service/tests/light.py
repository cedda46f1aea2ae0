"""Clients that only speak: each says the messages of a client that adds 1 to a counter of all, without one of the library's behind it. So a load
of them costs little, and what is measured is the service."""

import time

import link
from load import Process

from realm_service.heads import ASK2, DOWNLOAD, STORED, UPLOAD, look, spelled

# docs/FORMATS.md, "Changesets": the strings notes, all and count; one AddInteger of the cell (notes, all, count) by 1.
ADDITION = b"\x01\x03\x05notes\x03all\x05count\x01\x06\x00\x01\x01\x02\x02"


class Speaker:
    """Stands in for a client that is in step and has made `last` transactions."""

    def __init__(self, client):
        standing = client.standing()
        self.ident, self.cursor, self.last = standing.ident, standing.cursor, standing.last

    def upload(self):
        self.last += 1
        change = b"".join(map(spelled, (self.last, self.cursor, time.time_ns() // 1_000_000, len(ADDITION))))
        return bytes([UPLOAD]) + spelled(self.ident) + b"\x01" + change + ADDITION

    def ask(self):
        return bytes([ASK2]) + b"".join(map(spelled, (self.ident, self.cursor, self.cursor)))

    def take(self, reply):
        """The tag of a reply; of a Download the cursor moves on."""
        head = look(reply)
        if head.tag == DOWNLOAD:
            self.cursor = head.second
        return head.tag


class LightProcess(Process):
    """The clients of one process: each begins as a client of the library."""

    async def work(self, device, ended):
        speaker = Speaker(device.client)
        device.speaker = speaker
        while not ended.done():
            await self.think()
            for message, tag in ((speaker.upload(), STORED), (None, DOWNLOAD)):
                reply = await self.sent(device, message or speaker.ask())
                if speaker.take(reply) != tag:
                    raise RuntimeError(f"a reply {reply[:8].hex()} in place of one of tag {tag}")
            device.made += 1

    @staticmethod
    async def sent(device, message):
        while True:
            try:
                return await device.link.send(message)
            except link.LOST:
                await device.link._drop()

    async def settle(self, devices_):
        """What they said stands; there is nothing to take."""

    @staticmethod
    def result(device):
        return {"history": device.link.history, "made": device.made, "ident": device.speaker.ident, "last": device.speaker.last,
                "count": None, "cursor": None, "unsent": None, "dump": None}
