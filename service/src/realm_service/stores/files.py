"""A journal file for each history in a folder, and beside it whose devices are whose. One process: a file's lock is its lease.

`NAME.realm` is the journal that `realm_sync show` reads. `NAME.devices` has a line `UUID GENERATION USER` for each device and a line
`generation NUMBER` for each time that the history was restored; it is only ever appended to."""

import asyncio
import concurrent.futures
import errno
import fcntl
import os
import typing
from collections.abc import Callable

from . import Absent, Claims, Device, Elsewhere, Fenced, Lease, OnLapse, Stored, StoreDown

JOURNAL, DEVICES, NEW = ".realm", ".devices", ".new"
PART = 1 << 26  # bytes of one read
SMALL = 9  # bytes, up to which a journal counts as empty
THREADS = 32  # syncs at once: a file system joins them

Answer = typing.TypeVar("Answer")


def journal_end(journal: bytes) -> int:
    """The place of the closed gate of a journal (docs/FORMATS.md, "The journal"), which isn't damaged; a shorter file counts as empty."""
    place = 8
    while len(journal) > place and journal[place] == 1:
        place += 5 + int.from_bytes(journal[place + 1 : place + 5], "big")
    return place if len(journal) > place else 0


def _private(path: str, flags: int) -> int:
    """Opens a file that, where it is made, nobody else reads."""
    return os.open(path, flags, 0o600)


class Files:
    id: object = None

    def __init__(self, folder: str):
        self.folder = folder
        self.doubtful: set[str] = set()  # histories of which a sync failed: what is read of their files may not be on the disk
        self.pool = concurrent.futures.ThreadPoolExecutor(THREADS, "files")

    def on_lapse(self, told: OnLapse) -> None:
        """One process: nothing lapses."""

    async def start(self, address: str) -> None:
        os.makedirs(self.folder, mode=0o700, exist_ok=True)

    async def stop(self) -> None:
        """Nothing is held but the files of leases."""
        self.pool.shutdown(wait=False)

    async def _do(self, job: Callable[..., Answer], *given: object) -> Answer:
        return await asyncio.get_running_loop().run_in_executor(self.pool, job, *given)

    async def ready(self) -> bool:
        return os.access(self.folder, os.W_OK)

    async def names(self) -> list[str]:
        return sorted(it.removesuffix(JOURNAL) for it in os.listdir(self.folder) if it.endswith(JOURNAL))

    async def acquire(self, name: str, create: bool, suspect: object = None) -> Lease:
        return await self._do(self._acquire, name, create)

    async def read(self, lease: Lease) -> Stored:
        return await self._do(self._read, lease)

    async def append(self, lease: Lease, gate: int, tail: bytes, claims: Claims) -> None:
        await self._do(self._append, lease, gate, tail, claims)

    async def check(self, lease: Lease) -> None:
        """The lease is held as long as the file is open."""

    async def replace(self, lease: Lease, journal: bytes) -> None:
        await self._do(self._replace, lease, journal)

    async def raise_generation(self, lease: Lease) -> None:
        await self._do(self._note, lease.name, [f"generation {lease.generation + 1}"])
        lease.generation += 1

    async def release(self, lease: Lease) -> None:
        file, lease.file = lease.file, -1
        if file >= 0:
            os.close(file)

    async def remove(self, lease: Lease) -> None:
        self._is_ours(lease)
        for end in (JOURNAL, DEVICES):
            if os.path.exists(self._path(lease.name, end)):
                os.unlink(self._path(lease.name, end))
        self._sync_folder()
        await self.release(lease)

    # ---- each in a thread

    def _path(self, name: str, end: str) -> str:
        return os.path.join(self.folder, name + end)

    def _sync_folder(self) -> None:
        folder = os.open(self.folder, os.O_RDONLY)
        try:
            os.fsync(folder)
        finally:
            os.close(folder)

    @staticmethod
    def _lock(file: int) -> None:
        try:
            fcntl.flock(file, fcntl.LOCK_EX | fcntl.LOCK_NB)
        except OSError as error:
            os.close(file)
            if error.errno == errno.EWOULDBLOCK:
                raise Elsewhere(None, None) from None
            raise StoreDown(str(error)) from error

    def _acquire(self, name: str, create: bool) -> Lease:
        path = self._path(name, JOURNAL)
        is_new = create and not os.path.exists(path)
        try:
            file = os.open(path, os.O_RDWR | os.O_CLOEXEC | (os.O_CREAT if create else 0), 0o600)
        except FileNotFoundError:
            raise Absent(name) from None
        except OSError as error:
            raise StoreDown(str(error)) from error
        self._lock(file)
        if is_new:
            self._sync_folder()
        return Lease(name, file=file, generation=self._noted(name)[1])

    def _noted(self, name: str) -> tuple[dict[bytes, Device], int]:
        """The devices and the generation. A line that a crash cut is none."""
        devices: dict[bytes, Device] = {}
        generation = 1
        try:
            with open(self._path(name, DEVICES), "rb") as file:
                whole = file.read()
            for line in whole[: whole.rfind(b"\n") + 1].decode().split("\n")[:-1]:
                first, _, rest = line.partition(" ")
                if first == "generation":
                    generation = int(rest)
                else:
                    number, _, user = rest.partition(" ")
                    devices.setdefault(bytes.fromhex(first), Device(user, int(number)))
        except FileNotFoundError:
            pass
        except (OSError, ValueError) as error:
            raise StoreDown(f"{name}{DEVICES}: {error}") from error
        return devices, generation

    def _note(self, name: str, lines: list[str]) -> None:
        path = self._path(name, DEVICES)
        is_new = not os.path.exists(path)
        try:
            with open(path, "r+b" if not is_new else "w+b", opener=_private) as file:
                whole = file.read()
                file.seek(whole.rfind(b"\n") + 1)  # over a line that a crash cut
                file.truncate()
                file.write("".join(it + "\n" for it in lines).encode())
                file.flush()
                self._sync(file.fileno(), name)
            if is_new:
                self._sync_folder()
        except OSError as error:
            raise StoreDown(str(error)) from error

    def _sync(self, file: int, name: str) -> None:
        try:
            os.fsync(file)
        except OSError:
            self.doubtful.add(name)
            raise

    def _read(self, lease: Lease) -> Stored:
        self._is_ours(lease)
        if lease.name in self.doubtful:
            self._write_anew(lease)
        devices, lease.generation = self._noted(lease.name)
        journal = self._journal(lease)
        lease.length = journal_end(journal)
        return Stored(journal, devices)

    def _write_anew(self, lease: Lease) -> None:
        """A system may take for written what a failed sync left; so all of both files is written once more."""
        path = self._path(lease.name, DEVICES)
        if os.path.exists(path):
            with open(path, "rb") as file:
                os.close(self._put(path, file.read()))
        self._exchange(lease, self._journal(lease))
        self.doubtful.discard(lease.name)

    @staticmethod
    def _journal(lease: Lease) -> bytes:
        size, parts, place = os.fstat(lease.file).st_size, [], 0
        while place < size:
            part = os.pread(lease.file, min(size - place, PART), place)
            if not part:
                raise StoreDown("the file is shorter than it was")
            parts.append(part)
            place += len(part)
        return b"".join(parts)

    def _is_ours(self, lease: Lease) -> None:
        """The lock is on what the name names, and not on a file that somebody put away."""
        try:
            named, held = os.stat(self._path(lease.name, JOURNAL)), os.fstat(lease.file)
        except OSError as error:
            raise Fenced(f"{lease.name}: {error}") from error
        if (named.st_dev, named.st_ino) != (held.st_dev, held.st_ino):
            raise Fenced(f"{lease.name}: another file has its name")

    def _append(self, lease: Lease, gate: int, tail: bytes, claims: Claims) -> None:
        """The users of new devices come first, so that no device ever has an ident and no user."""
        self._is_ours(lease)
        if tail:
            self._ends_at(lease, gate)
        if claims:
            self._note(lease.name, [f"{uuid.hex()} {lease.generation} {user}" for uuid, user in claims])
        try:
            if tail and gate == 0:
                self._write(lease.file, tail, 0)
                self._sync(lease.file, lease.name)
            elif tail:  # all of it behind the closed gate, and then the gate: a crash leaves none of it or all
                self._write(lease.file, tail[1:], gate + 1)
                self._sync(lease.file, lease.name)
                self._write(lease.file, tail[:1], gate)
                self._sync(lease.file, lease.name)
        except OSError as error:
            raise StoreDown(str(error)) from error
        if tail:
            lease.length = gate + len(tail) - 1

    @staticmethod
    def _ends_at(lease: Lease, gate: int) -> None:
        """Raises Fenced where the journal doesn't end at that gate any more."""
        if gate == 0:
            is_closed = os.fstat(lease.file).st_size <= SMALL
        else:
            is_closed = os.pread(lease.file, 1, gate) not in (b"", b"\x01")
        if not is_closed:
            raise Fenced(f"{lease.name}: somebody appended, or cut it")

    @staticmethod
    def _write(file: int, data: bytes, place: int) -> None:
        while data:
            done = os.pwrite(file, data, place)
            data, place = data[done:], place + done

    def _replace(self, lease: Lease, journal: bytes) -> None:
        self._is_ours(lease)
        self._ends_at(lease, lease.length)
        self._exchange(lease, journal)

    def _exchange(self, lease: Lease, journal: bytes) -> None:
        """Puts a file of this journal in the old one's place. The lock of the old one is held until that of the new one is."""
        try:
            file = self._put(self._path(lease.name, JOURNAL), journal)
        except StoreDown:
            self.doubtful.add(lease.name)  # the new file may have the name, in a folder that isn't synced
            raise
        os.close(lease.file)
        lease.file, lease.length = file, max(0, len(journal) - 1)

    def _put(self, path: str, data: bytes) -> int:
        """Puts a file of these bytes in a name's place; answers it open."""
        try:
            file = os.open(path + NEW, os.O_RDWR | os.O_CREAT | os.O_TRUNC | os.O_CLOEXEC, 0o600)
        except OSError as error:
            raise StoreDown(str(error)) from error
        self._lock(file)  # held before the name is its own
        try:
            self._write(file, data, 0)
            os.fsync(file)
            os.rename(path + NEW, path)
            self._sync_folder()
        except OSError as error:
            os.close(file)
            raise StoreDown(str(error)) from error
        return file
