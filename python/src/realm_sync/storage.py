"""Where a node keeps its file. What `apply` did is there after a crash."""

from __future__ import annotations

import errno
import fcntl
import os
import re
import stat
from collections.abc import Sequence
from typing import NamedTuple, Protocol

from .errors import Busy, NotShrunk, OtherProcess, StorageFailed, StorageFull


class Write(NamedTuple):
    """Bytes that are written at a place."""

    place: int
    data: bytes


# A stroke is a write, or None: a sync.
Stroke = Write | None


class Storage(Protocol):
    """One file, with one opener."""

    def read(self) -> bytes:
        """All of it."""

    def apply(self, strokes: Sequence[Stroke]) -> None:
        """Does the strokes in order. When it returns, they are on the disk."""

    def rewrite(self, data: bytes, suffix: str) -> None:
        """From now on it has these bytes; a stop leaves those before or these. What is written beside meanwhile has this suffix. `NotShrunk` where all
        is as before."""

    def close(self) -> None:
        """Lets the file go."""


class Files(Protocol):
    """The files of one database, by name."""

    def open(self, name: str) -> Storage: ...

    def has(self, name: str) -> bool: ...

    def replace(self, name: str, by: str) -> None:
        """One file takes another one's name, at once: who opened it goes on with it."""

    def remove(self, name: str) -> None: ...


class FileImage:
    """The bytes that writes at places make: a file in memory."""

    def __init__(self, data: bytes = b"") -> None:
        self.data = bytearray(data)

    def write(self, place: int, data: bytes) -> None:
        if place > len(self.data):
            self.data.extend(bytes(place - len(self.data)))
        self.data[place : place + len(data)] = data

    def read(self) -> bytes:
        return bytes(self.data)

    def apply(self, strokes: Sequence[Stroke]) -> None:
        for it in strokes:
            if it is not None:
                self.write(it.place, it.data)

    def rewrite(self, data: bytes, suffix: str) -> None:
        """From now on it has these bytes."""
        self.data = bytearray(data)

    def close(self) -> None:
        """A file in memory is kept by who made it."""


class MemoryFiles:
    """Files in memory: gone with the process."""

    def __init__(self) -> None:
        self.files: dict[str, FileImage] = {}

    def open(self, name: str) -> Storage:
        return self.files.setdefault(name, FileImage())

    def has(self, name: str) -> bool:
        return name in self.files

    def replace(self, name: str, by: str) -> None:
        self.files[name] = self.files.pop(by)

    def remove(self, name: str) -> None:
        self.files.pop(name, None)


def sync_folder(path: str) -> None:
    """A new file's name is in its folder, and lost with it in a crash unless the folder is synced too."""
    folder = os.open(os.path.dirname(os.path.abspath(path)), os.O_RDONLY)
    try:
        os.fsync(folder)
    finally:
        os.close(folder)


# The other files of a database: docs/STORAGE.md.
_BESIDE = re.compile(r"\.(heir|reason|generation|shrunk|kept-\d+)(\.new)?")


def delete_database(path: str | os.PathLike[str]) -> None:
    """Takes a database off this machine, with what was never sent: the file of that path, and those beside it (docs/STORAGE.md). `Busy` where it is
    open."""
    folder, name = os.path.split(os.fspath(path))
    if os.path.exists(path):
        file = FileStorage(os.fspath(path))
        os.unlink(path)
        file.close()
    for it in os.listdir(folder or "."):
        if it.startswith(name) and _BESIDE.fullmatch(it, len(name)):
            os.unlink(os.path.join(folder, it))
    sync_folder(os.fspath(path))


def _lock(file: int, path: str) -> None:
    try:
        fcntl.flock(file, fcntl.LOCK_EX | fcntl.LOCK_NB)
    except OSError as why:
        raise Busy(f"{path} is open already, here or in another process") from why


class FileStorage:
    """A file, locked by `flock` as long as it is open. Where it can't be opened Python's own OSError says why."""

    def __init__(self, path: str) -> None:
        self._process = os.getpid()
        self._path = path
        self._file = self._locked(path)

    @staticmethod
    def _locked(path: str) -> int:
        while True:
            is_new = not os.path.exists(path)
            file = os.open(path, os.O_RDWR | os.O_CREAT | os.O_CLOEXEC, 0o666)
            try:
                _lock(file, path)
                # Between the two another file may have taken this one's name.
                if os.path.exists(path) and os.path.samestat(os.fstat(file), os.stat(path)):
                    if is_new:
                        sync_folder(path)
                    return file
            except BaseException:
                os.close(file)
                raise
            os.close(file)

    def _check(self) -> None:
        # The lock is inherited by a process that is forked, and two writers would overwrite each other's records.
        if os.getpid() != self._process:
            raise OtherProcess("the file was opened before this process was forked: open it in the process that uses it")

    def read(self) -> bytes:
        self._check()
        length, parts, at = os.fstat(self._file).st_size, [], 0
        while at < length:
            part = os.pread(self._file, length - at, at)
            if not part:
                raise StorageFailed("the file was not read whole")
            parts.append(part)
            at += len(part)
        return b"".join(parts)

    def apply(self, strokes: Sequence[Stroke]) -> None:
        self._check()
        try:
            for it in strokes:
                if it is None:
                    os.fsync(self._file)
                else:
                    self._write(it)
        except OSError as why:
            if why.errno in (errno.ENOSPC, errno.EDQUOT, errno.EFBIG):
                raise StorageFull(f"the storage is full: {why.strerror}") from why
            raise StorageFailed(f"the storage failed: {why.strerror}") from why

    def _write(self, write: Write) -> None:
        place, data = write
        while data:
            done = os.pwrite(self._file, data, place)
            place, data = place + done, data[done:]

    def rewrite(self, data: bytes, suffix: str) -> None:
        """Puts a file with these bytes in this one's place, under its lock: it is written beside it, with its permissions, synced and locked, and takes its
        name at once, so that a stop leaves the one or the other, whole. `NotShrunk` where this one stays."""
        self._check()
        path = os.path.realpath(self._path)
        beside = path + suffix
        try:
            opened = os.fstat(self._file)
            if not os.path.samestat(opened, os.stat(path)):
                raise NotShrunk(f"{path} is another file by now")
            made = self._made(beside, data, stat.S_IMODE(opened.st_mode))
            try:
                os.replace(beside, path)
            except OSError:
                os.close(made)
                os.unlink(beside)
                raise
        except OSError as why:
            raise NotShrunk(f"no shorter file could be put in the place of {path}: {why.strerror}") from why
        os.close(self._file)
        self._file = made
        try:
            sync_folder(path)
        except OSError as why:
            raise StorageFailed(f"the storage failed: {why.strerror}") from why

    @staticmethod
    def _made(path: str, data: bytes, mode: int) -> int:
        """A new file of that path with these bytes, synced and locked."""
        if os.path.lexists(path):
            os.unlink(path)
        file = os.open(path, os.O_RDWR | os.O_CREAT | os.O_EXCL | os.O_CLOEXEC, 0o600)
        try:
            os.fchmod(file, mode)
            view, place = memoryview(data), 0
            while place < len(data):
                place += os.pwrite(file, view[place:], place)
            os.fsync(file)
            fcntl.flock(file, fcntl.LOCK_EX | fcntl.LOCK_NB)
        except OSError:
            os.close(file)
            os.unlink(path)
            raise
        return file

    def close(self) -> None:
        if self._file >= 0:
            os.close(self._file)
        self._file = -1


class PathFiles:
    """The files of a database at a path: the client's own has that name, and others stand beside it."""

    def __init__(self, path: str | os.PathLike[str]) -> None:
        self._path = os.fspath(path)

    def path(self, name: str) -> str:
        return self._path if name == "client" else f"{self._path}.{name}"

    def open(self, name: str) -> Storage:
        return FileStorage(self.path(name))

    def has(self, name: str) -> bool:
        return os.path.exists(self.path(name))

    def replace(self, name: str, by: str) -> None:
        os.replace(self.path(by), self.path(name))
        sync_folder(self._path)

    def remove(self, name: str) -> None:
        if self.has(name):
            os.unlink(self.path(name))
            sync_folder(self._path)
