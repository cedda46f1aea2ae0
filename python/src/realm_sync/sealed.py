"""Encrypted files: AES-256-GCM of the library `cryptography`, over any other storage. docs/STORAGE.md says the form, and what it protects."""

from __future__ import annotations

import os
from collections.abc import Sequence
from typing import TYPE_CHECKING

from .errors import BadFile, WrongKey
from .storage import FileImage, Files, Storage, Stroke, Write

if TYPE_CHECKING:
    from cryptography.hazmat.primitives.ciphers.aead import AESGCM

MAGIC = b"rsealed1"
SALT, NONCE, TAG = 16, 12, 16
FIRST = len(MAGIC) + SALT  # where the first record's gate is


def is_sealed(data: bytes) -> bool:
    """Whether these are the bytes of an encrypted file."""
    return data[: len(MAGIC)] == MAGIC


def _cipher(key: bytes, salt: bytes) -> AESGCM:
    """The cipher of one file: each has a key of its own."""
    try:
        from cryptography.hazmat.primitives.ciphers.aead import AESGCM
        from cryptography.hazmat.primitives.hashes import SHA256
        from cryptography.hazmat.primitives.kdf.hkdf import HKDF
    except ImportError as why:
        raise ImportError("encrypted files take the package cryptography: pip install 'realm-sync[encryption]'") from why
    return AESGCM(HKDF(algorithm=SHA256(), length=32, salt=salt, info=b"realm_sync file").derive(key))


class SealedStorage:
    """One encrypted file. A record is sealed with its number, so that none can be left out, doubled or put elsewhere."""

    def __init__(self, inner: Storage, key: bytes) -> None:
        self._inner, self._key, self._image, self._gate, self._count = inner, key, FileImage(), FIRST, 0
        data = inner.read()
        # Nothing was answered of a file whose first gate is closed: it is begun anew, if it is one of these at all, and has no record behind the first.
        if data[FIRST : FIRST + 1] == b"\1":
            self._read(data, key)
        elif not is_sealed(data) and any(data[: len(MAGIC)]):
            raise BadFile(0)
        elif len(data) > FIRST + 5 + NONCE + TAG + 1:
            raise BadFile(FIRST)
        else:
            self._make(key)

    def _make(self, key: bytes) -> None:
        salt = os.urandom(SALT)
        self._cipher = _cipher(key, salt)
        self._inner.apply([Write(len(MAGIC), salt + b"\0"), None, Write(0, MAGIC), None])
        self._append(b"")  # by which a wrong key is known

    def _read(self, data: bytes, key: bytes) -> None:
        from cryptography.exceptions import InvalidTag

        if not is_sealed(data):
            raise BadFile(0)
        self._cipher = _cipher(key, data[len(MAGIC) : FIRST])
        while data[self._gate : self._gate + 1] == b"\1":
            at = self._gate + 5
            length = int.from_bytes(data[self._gate + 1 : at], "big")
            sealed = data[at : at + length]
            if len(sealed) < max(length, NONCE + TAG):
                raise BadFile(self._gate)
            try:
                plain = self._cipher.decrypt(sealed[:NONCE], sealed[NONCE:], self._count.to_bytes(8, "big"))
            except InvalidTag as why:
                raise WrongKey("the key is another one than that of the file") if self._count == 0 else BadFile(self._gate) from why
            _replay(plain, self._image)
            self._gate = at + length
            self._count += 1

    def _append(self, plain: bytes) -> None:
        """One record behind the closed gate, which is opened once the record is on the disk."""
        nonce = os.urandom(NONCE)
        sealed = nonce + self._cipher.encrypt(nonce, plain, self._count.to_bytes(8, "big"))
        record = len(sealed).to_bytes(4, "big") + sealed + b"\0"
        self._inner.apply([Write(self._gate + 1, record), None, Write(self._gate, b"\1"), None])
        self._gate += len(record)
        self._count += 1

    def read(self) -> bytes:
        return self._image.read()

    def apply(self, strokes: Sequence[Stroke]) -> None:
        writes = [it for it in strokes if it is not None]
        self._append(b"".join(it.place.to_bytes(8, "big") + len(it.data).to_bytes(4, "big") + it.data for it in writes))
        self._image.apply(writes)

    def rewrite(self, data: bytes, suffix: str) -> None:
        """Puts a file with these bytes in this one's place, sealed anew under a salt of its own."""
        sealed = FileImage()
        made = SealedStorage(sealed, self._key)
        made.apply([Write(0, data)])
        self._inner.rewrite(sealed.read(), suffix)
        self._cipher, self._image, self._gate, self._count = made._cipher, made._image, made._gate, made._count

    def close(self) -> None:
        self._inner.close()


def _replay(plain: bytes, image: FileImage) -> None:
    """Does the strokes of a record: each its place, its length and its bytes."""
    at = 0
    while at < len(plain):
        place, length = int.from_bytes(plain[at : at + 8], "big"), int.from_bytes(plain[at + 8 : at + 12], "big")
        image.write(place, plain[at + 12 : at + 12 + length])
        at += 12 + length


class SealedFiles:
    """Files whose contents are encrypted. Their names, sizes and times aren't."""

    def __init__(self, inner: Files, key: bytes) -> None:
        if len(key) != 32:
            raise WrongKey(f"a key has 32 bytes, and this one has {len(key)}")
        self._inner, self._key = inner, key

    def open(self, name: str) -> Storage:
        inner = self._inner.open(name)
        try:
            return SealedStorage(inner, self._key)
        except BaseException:
            inner.close()
            raise

    def has(self, name: str) -> bool:
        return self._inner.has(name)

    def replace(self, name: str, by: str) -> None:
        self._inner.replace(name, by)

    def remove(self, name: str) -> None:
        self._inner.remove(name)
