"""Which messages are answered at once, in the loop of all, and which in a thread: going to a thread and back costs more than most messages."""

import collections

from .heads import BIND, RETIRE, UPLOAD, Head

LIGHT_MESSAGE, LIGHT_DOWNLOAD = 4 << 10, 64 << 10  # bytes
LIGHT_MERGE = 1 << 20  # bytes of an Upload, times those of the entries that it meets
LIGHT_HISTORY = 1 << 20  # bytes of a journal, over which a client is bound or retired
KEPT = 64  # appends whose sizes are known


class Sizes:
    """How many bytes came to a journal since a version, as far as this is known."""

    def __init__(self, length: int, size: int):
        self.length, self.size = length, size
        self.before: collections.deque[tuple[int, int]] = collections.deque(maxlen=KEPT)

    def grew(self, length: int, more: int) -> None:
        self.before.append((self.length, self.size))
        self.length, self.size = length, self.size + more

    def since(self, version: int) -> int | None:
        if version >= self.length:
            return 0
        for length, size in reversed(self.before):
            if length <= version:
                return self.size - size
        return None

    def is_light(self, head: Head, message_bytes: int) -> bool:
        """Whether a message is answered in some milliseconds at most."""
        if message_bytes > LIGHT_MESSAGE:
            return False
        if head.tag in (BIND, RETIRE):
            return self.size <= LIGHT_HISTORY
        behind = self.since(head.version)
        if behind is None:
            return False
        return behind * message_bytes <= LIGHT_MERGE if head.tag == UPLOAD else behind <= LIGHT_DOWNLOAD
