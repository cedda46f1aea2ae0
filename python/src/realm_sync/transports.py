"""Transports: one message there, one reply back."""

from __future__ import annotations

import json
import re
import threading
import urllib.error
import urllib.parse
import urllib.request
from collections.abc import Callable
from typing import Any, Protocol

from .errors import Error, NeedsAttention, Outdated, Unauthorized
from .problems import Problem

# A token, or what hands one over: it is asked for another one than before where that was refused.
TokenSource = str | Callable[[bool], str]


class Transport(Protocol):
    """The way to a server. `watch`, `renew` and `close` may do nothing. `generation` is that of the server's history in which this client's file
    began: 1, unless the server said another one (`Outdated`)."""

    generation: int

    def exchange(self, message: bytes) -> bytes:
        """Brings a message to the server, and its reply back. Where none came it raises, and is tried again; after an Unauthorized it isn't."""

    def watch(self, callback: Callable[[], None]) -> bool:
        """From now on calls back when the server may have something new; False where it doesn't, and is to be asked from time to time."""

    def renew(self, token: str) -> None:
        """A token in place of the one before."""

    def close(self) -> None:
        """Ends the connection, and the watch."""


class CallTransport:
    """A server in this process, by a function that takes a message and answers the reply: `Server.take`, for example."""

    generation = 1

    def __init__(self, exchange: Callable[[bytes], bytes]) -> None:
        self._exchange = exchange

    def exchange(self, message: bytes) -> bytes:
        return self._exchange(message)

    def watch(self, callback: Callable[[], None]) -> bool:
        return False

    def renew(self, token: str) -> None:
        """There is no token."""

    def close(self) -> None:
        """There is no connection."""


class _Token:
    """The token of a transport: a source is asked once, and again once the server refused what it gave."""

    def __init__(self, source: TokenSource) -> None:
        self._source, self._was_refused = source, False
        self._current: str | None = None
        self._lock = threading.Lock()

    def get(self) -> str:
        with self._lock:
            if self._current is None:
                self._current = self._source if isinstance(self._source, str) else self._source(self._was_refused)
            return self._current

    def renew(self, token: str) -> None:
        self._current, self._was_refused = token, False

    def refused(self, why: Error) -> None:
        """The server refused the token. Raises where there is no other one to try: one is asked for once."""
        if isinstance(self._source, str) or self._was_refused:
            raise why
        self._current, self._was_refused = None, True

    def accepted(self) -> None:
        self._was_refused = False

    def headers(self) -> dict[str, str]:
        token = self.get()
        return {"Authorization": f"Bearer {token}"} if token else {}


TOKEN_REFUSED, OUTDATED, TOO_LARGE = 401, 410, 413
_WORDS = {
    401: "the server refuses the token",
    403: "the server refuses this device",
    404: "the server has no such history",
    413: "the server takes no message that is so large",
}


def _refusal(status: int, said: str) -> Error | None:
    """What a server says for good by a status, with its own words; None where it may be tried again."""
    if status not in _WORDS:
        return None
    text = f"{_WORDS[status]}: {said}" if said else _WORDS[status]
    return NeedsAttention(Problem("full", text, False)) if status == TOO_LARGE else Unauthorized(text)


def _first_line(text: bytes) -> str:
    return text.decode(errors="replace").partition("\n")[0][:200]


def _words(headers: Any, body: bytes | None) -> str:
    """The words of an answer, where it has some for people."""
    return _first_line(body or b"") if _header(headers, "Content-Type").startswith("text/plain") else ""


def _header(headers: Any, name: str) -> str:
    """Of an answer's headers, whose names may be in lower case."""
    return {str(it).lower(): str(value) for it, value in dict(headers or {}).items()}.get(name.lower(), "")


def _address(url: str, generation: int, more: str = "", **words: int) -> str:
    """An address, with the generation in which the client's file began behind the history's name, and more behind that. For messages the first is
    said by the address as it is; whoever asks for something else without one is answered whatever the generation."""
    parts = urllib.parse.urlsplit(url)
    path = parts.path if generation == 1 and not more else re.sub(r"(@\d+)?/?$", f"@{generation}", parts.path, count=1)
    query = "&".join(filter(None, (parts.query, urllib.parse.urlencode(words))))
    return urllib.parse.urlunsplit(parts._replace(path=path + more, query=query))


def _generation_in(headers: Any) -> int | None:
    return int(_header(headers, "Realm-Generation") or 0) or None


class HttpTransport:
    """A server over HTTP: a POST of the message, its reply in the body. `url` is the history's own address. Unless `news` is false, the server is
    asked to answer `GET URL/news?after=N&wait=S` once the history has grown."""

    def __init__(self, url: str, token: TokenSource = "", timeout: float = 60, news: bool = True) -> None:
        self._url, self._token, self._timeout, self._news, self.generation = url, _Token(token), timeout, news, 1
        self._stopped = threading.Event()

    def exchange(self, message: bytes) -> bytes:
        while True:
            headers = {"Content-Type": "application/octet-stream", **self._token.headers()}
            try:
                request = urllib.request.Request(_address(self._url, self.generation), message, headers)
                with urllib.request.urlopen(request, timeout=self._timeout) as reply:
                    data: bytes = reply.read()
                self._token.accepted()
                return data
            except urllib.error.HTTPError as why:
                with why:
                    refused = _refusal(why.code, _words(why.headers, why.read(1000)))
                if why.code == OUTDATED:
                    raise Outdated(_generation_in(why.headers)) from why
                if refused is None:
                    raise Error(f"the server answered {why.code}") from why
                if why.code != TOKEN_REFUSED:
                    raise refused from why
                self._token.refused(refused)

    def watch(self, callback: Callable[[], None]) -> bool:
        if self._news:
            threading.Thread(target=self._watching, args=(callback,), name="realm_sync news", daemon=True).start()
        return self._news

    def _watching(self, callback: Callable[[], None]) -> None:
        length, wait = -1, 0
        while not self._stopped.is_set():
            try:
                found = self._news_after(max(0, length), wait)
                if length >= 0 and found > length:
                    callback()
                length, wait = max(length, found, 0), 25
            except urllib.error.HTTPError as why:
                why.close()
                if why.code == OUTDATED:
                    callback()  # the loop is told why when it asks
                length, wait = -1, 0  # a server without news: the loop asks from time to time
                self._stopped.wait(30)
            except (OSError, ValueError, Error):
                self._stopped.wait(30)

    def _news_after(self, length: int, seconds: int) -> int:
        """The length of the history once it is above that, or after so many seconds that length."""
        url = _address(self._url, self.generation, "/news", after=length, wait=seconds)
        request = urllib.request.Request(url, headers=self._token.headers())
        with urllib.request.urlopen(request, timeout=seconds + 10) as reply:
            return int(json.load(reply)["news"]) if reply.status == 200 else length

    def renew(self, token: str) -> None:
        self._token.renew(token)

    def close(self) -> None:
        self._stopped.set()


class WebSocketTransport:
    """A server over a WebSocket: a binary frame is a message or its reply, in turn; a text frame `{"news":LENGTH}` says that the history grew.
    It takes the package websocket-client: `pip install 'realm-sync[websocket]'`."""

    def __init__(self, url: str, token: TokenSource = "", timeout: float = 60) -> None:
        self._url, self._token, self._timeout, self.generation = url, _Token(token), timeout, 1
        self._socket: Any = None
        self._watcher: Callable[[], None] = lambda: None
        self._replies = threading.Condition()
        self._reply: bytes | Exception | None = None
        self._is_closed = self._is_waiting = False

    def _connected(self) -> Any:
        if self._socket is not None:
            return self._socket
        websocket = _websocket_client()
        headers = [f"{name}: {value}" for name, value in self._token.headers().items()]
        try:
            url = _address(self._url, self.generation)
            socket = websocket.create_connection(url, timeout=self._timeout, header=headers, subprotocols=["realm"], enable_multithread=True)
        except websocket.WebSocketBadStatusException as why:
            if why.status_code == OUTDATED:
                raise Outdated(_generation_in(why.resp_headers)) from why
            raise self._refused(int(why.status_code), _words(why.resp_headers, getattr(why, "resp_body", None))) from why
        self._token.accepted()
        socket.settimeout(None)
        self._socket = socket
        threading.Thread(target=self._reading, args=(socket,), name="realm_sync socket", daemon=True).start()
        return socket

    def _refused(self, status: int, said: str) -> Error:
        refused = _refusal(status, said)
        if refused is None:
            return Error(f"no connection came about ({status})")
        if status != TOKEN_REFUSED:
            return refused
        try:
            self._token.refused(refused)
            return Error("the token has ended: another one is tried")
        except Error as why:
            return why

    def _ended(self, data: bytes) -> Exception:
        """Why the server ended a connection: its codes are 4000 and a status, and 1009 for a message that is too large."""
        code, said = int.from_bytes(data[:2], "big"), _first_line(data[2:])
        if code == 4000 + OUTDATED:
            found = re.search(r"is of generation (\d+): begin", said)
            return Outdated(int(found[1]) if found else None)
        if code == 1009 or code - 4000 in _WORDS:
            return self._refused(TOO_LARGE if code == 1009 else code - 4000, said)
        return ConnectionError("the connection was lost")

    def _reading(self, socket: Any) -> None:
        """Takes what comes: a thread for each connection."""
        why: Exception = ConnectionError("the connection was lost")
        try:
            while True:
                kind, data = socket.recv_data()
                if kind == 1:
                    self._watcher()
                elif kind == 2:
                    self._arrived(bytes(data))
                elif kind == 8:
                    why = self._ended(bytes(data))
                    break
        except Exception:  # whatever ended the connection
            pass
        self._lost(socket, why)

    def _arrived(self, reply: bytes | Exception) -> None:
        with self._replies:
            if self._is_waiting:
                self._reply = reply
                self._replies.notify_all()

    def _lost(self, socket: Any, why: Exception) -> None:
        with self._replies:
            if self._socket is not socket:
                return
            self._socket = None
            is_waiting = self._is_waiting
        _shut(socket)
        self._arrived(why)
        if not is_waiting and not self._is_closed:
            self._watcher()  # nobody waits: the loop connects again, and asks what came meanwhile

    def exchange(self, message: bytes) -> bytes:
        socket = self._connected()
        with self._replies:
            if self._socket is not socket:
                raise ConnectionError("the connection was lost")
            self._reply, self._is_waiting = None, True
        try:
            socket.send_binary(message)
            with self._replies:
                self._replies.wait_for(lambda: self._reply is not None, self._timeout)
                reply = self._reply
        finally:
            with self._replies:
                self._reply, self._is_waiting = None, False
        if isinstance(reply, bytes):
            return reply
        if reply is None:  # a late reply would be taken for the next one's
            with self._replies:
                self._socket = None
            _shut(socket)
            raise TimeoutError("no reply came in time")
        raise reply

    def watch(self, callback: Callable[[], None]) -> bool:
        self._watcher = callback
        return True

    def renew(self, token: str) -> None:
        self._token.renew(token)
        socket = self._socket
        if socket is not None:
            socket.send(json.dumps({"token": token}))

    def close(self) -> None:
        self._is_closed, self._watcher = True, lambda: None
        socket, self._socket = self._socket, None
        if socket is not None:
            _shut(socket)
        self._arrived(ConnectionError("the connection was closed"))  # who waits for a reply waits no longer


def _shut(socket: Any) -> None:
    try:
        socket.close(timeout=1)
    except Exception:  # it was ended from the other side
        pass


def _websocket_client() -> Any:
    try:
        import websocket
    except ImportError as why:
        raise ImportError("a WebSocket takes the package websocket-client: pip install 'realm-sync[websocket]'") from why
    return websocket


def transport_of(url: str, token: TokenSource = "") -> Transport:
    """By the address: `ws:` and `wss:` a WebSocket, else HTTP."""
    if url.startswith(("ws:", "wss:")):
        return WebSocketTransport(url, token)
    return HttpTransport(url, token)
