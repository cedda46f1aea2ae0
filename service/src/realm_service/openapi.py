"""What the doors are, as OpenAPI, and a page that shows it."""

import html
import typing

_STATUSES = {
    "400": "no message, no WebSocket, or a parameter that isn't one", "401": "no token, or one that doesn't hold", "403": "not this caller's",
    "404": "no such history, name or object", "410": "another generation, or entries that are no more: begin anew",
    "413": "too large, or too much to merge at once", "429": "too many", "500": "a journal that is damaged, or a fault of the service",
    "503": "try again",
}
_NAME = {
    "name": "history", "in": "path", "required": True, "schema": {"type": "string", "pattern": "^[A-Za-z0-9_][A-Za-z0-9_.-]{0,127}(@[0-9]+)?$"},
    "description": "its name; behind @ the generation in which the caller's file began, where the history was restored since it was made",
}


def _operation(summary: str, parameters: list[tuple[str, str, str]], answers: dict[str, str], statuses: str = "") -> dict[str, typing.Any]:
    query = [{"name": name, "in": "query", "schema": {"type": kind}, "description": text} for name, kind, text in parameters]
    told = {status: {"description": text} for status, text in answers.items()}
    refused = {status: {"description": _STATUSES[status]} for status in ("401", "403", "404", "410", "429", "500", "503", *statuses.split())}
    return {"summary": summary, "parameters": [_NAME, *query], "responses": told | refused}


def _message() -> dict[str, typing.Any]:
    told = _operation("A message of docs/FORMATS.md and its reply", [], {"200": "the reply"}, "400 413")
    told["requestBody"] = {"required": True, "content": {"application/octet-stream": {"schema": {"type": "string", "format": "binary"}}}}
    return told


def described() -> dict[str, typing.Any]:
    """The whole description."""
    one = "/v1/histories/{history}"
    socket = "A WebSocket: binary frames are messages and replies in turn; text frames {\"news\": LENGTH} come, {\"token\": TOKEN} may go"
    paths: dict[str, typing.Any] = {
        one: {"post": _message(), "get": _operation(socket, [], {"101": "it is open"}, "400")},
        one + "/news": {"get": _operation("Waits until the history has more entries", [
            ("after", "integer", "how many the caller knows"), ("wait", "number", "seconds, at most 60")],
            {"200": "{\"news\": LENGTH}", "204": "none came"}, "400")},
        one + "/objects": {"get": _operation("The objects as the history has them now, a line of JSON each", [
            ("table", "string", "those of one table"), ("key", "string", "one of them, as JSON")], {"200": "lines"}, "400")},
        one + "/entries": {"get": _operation("Entries from a version on: lines of JSON, or server-sent events by Accept", [
            ("from", "integer", "the first version; a Last-Event-ID says the last one that the caller has"),
            ("follow", "integer", "1: go on with those that come; of events the default")], {"200": "entries"}, "400")},
        one + "/trim": {"post": _operation("Gives up what all devices have settled", [], {"200": "{\"before\": BYTES, \"after\": BYTES}"})},
    }
    for path, text in (("/healthz", "alive"), ("/readyz", "takes work"), ("/metrics", "Prometheus' text"), ("/openapi.json", "this")):
        paths[path] = {"get": {"summary": text, "security": [], "responses": {"200": {"description": text}}}}
    paths["/readyz"]["get"]["responses"]["503"] = {"description": "it starts, stops, or has no lease"}
    bearer = {"type": "http", "scheme": "bearer", "bearerFormat": "JWT"}
    return {"openapi": "3.0.3", "info": {"title": "realm_service", "version": "1"}, "paths": paths,
            "components": {"securitySchemes": {"bearer": bearer}}, "security": [{"bearer": []}]}


def _row(method: str, path: str, given: dict[str, typing.Any]) -> str:
    query = "".join(f"<br><code>{it['name']}</code> {html.escape(it['description'])}" for it in given.get("parameters", []) if it["in"] == "query")
    answers = "<br>".join(f"<b>{status}</b> {html.escape(it['description'])}" for status, it in sorted(given["responses"].items()))
    called = f"<code>{method.upper()} {html.escape(path)}</code>"
    return f"<tr><td>{called}<td>{html.escape(given['summary'])}{query}<td>{answers}"


def _page() -> str:
    rows = "".join(_row(method, path, given) for path, methods in described()["paths"].items() for method, given in methods.items())
    return ("<!doctype html><meta charset=utf-8><title>realm_service</title><style>body{font:15px/1.5 sans-serif;margin:2em;max-width:80em}"
            "td{vertical-align:top;padding:.5em;border-top:1px solid #999}</style><h1>realm_service</h1>"
            f"<p>The same as <a href=openapi.json>OpenAPI</a>. A token goes as <code>Authorization: Bearer TOKEN</code>.<table>{rows}</table>")


PAGE = _page()
