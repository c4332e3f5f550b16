"""Serve the files of the page, with headers that keep other origins out."""
from __future__ import annotations

import re
from pathlib import Path

from aiohttp import web

from .. import LIVE
from .tabs import Tabs

DRAWING = ("drawing.js", "drawing.mjs")
TYPES = {".html": "text/html", ".js": "text/javascript", ".mjs": "text/javascript", ".css": "text/css"}


class Page:
    """The routes of the page. A request must name one of the server's hosts, and a socket must come from the page itself."""

    def __init__(self, tabs: Tabs, hosts: set[str], scheme: str) -> None:
        self._tabs, self._hosts, self._scheme = tabs, hosts, scheme

    def app(self) -> web.Application:
        app = web.Application()
        app.add_routes([web.get("/", self._file), web.get("/live", self._live), web.get("/{name}", self._file),
                        web.get("/page/{part}", self._file), web.get("/viewer/{drawing}", self._file)])
        app.on_response_prepare.append(close_connection)
        return app

    def _check(self, request: web.Request) -> str:
        host = request.headers.get("Host", "")
        if host not in self._hosts:
            raise web.HTTPForbidden(text="this server does not have this name: start it with --name, or use the address that it printed")
        return host

    async def _live(self, request: web.Request) -> web.StreamResponse:
        host = self._check(request)
        if request.headers.get("Origin") != f"{self._scheme}://{host}":
            raise web.HTTPForbidden(text="only the server's own page may connect: open the address that live/serve printed")
        return await self._tabs.socket(request)

    async def _file(self, request: web.Request) -> web.StreamResponse:
        host = self._check(request)
        path = file_of(**request.match_info)
        if path is None or not path.is_file():
            raise web.HTTPNotFound()
        return web.Response(body=path.read_bytes(), content_type=TYPES[path.suffix], charset="utf-8",
                            headers=self._headers(host))

    def _headers(self, host: str) -> dict[str, str]:
        socket = f"{'wss' if self._scheme == 'https' else 'ws'}://{host}"
        policy = {"default-src": "'none'", "script-src": "'self'", "style-src": "'self'",
                  "img-src": "'self' data: blob:", "connect-src": f"'self' {socket}", "base-uri": "'none'",
                  "form-action": "'none'", "frame-ancestors": "'none'"}
        return {"Content-Security-Policy": "; ".join(" ".join(part) for part in policy.items()),
                "Referrer-Policy": "no-referrer", "X-Content-Type-Options": "nosniff", "Cache-Control": "no-store",
                "Cross-Origin-Opener-Policy": "same-origin", "Cross-Origin-Resource-Policy": "same-origin"}


async def close_connection(_: web.Request, response: web.StreamResponse) -> None:
    """Close a connection after its request, unless it becomes a tab: the limit of new connections is then one of requests, too."""
    if not isinstance(response, web.WebSocketResponse):
        response.force_close()
        response.headers["Connection"] = "close"


def file_of(name: str = "", part: str = "", drawing: str = "") -> Path | None:
    """Return the file at a path: the page or its style, a module of the page, or a module that draws. None if there is no such file."""
    if part:
        return LIVE / "page" / part if re.fullmatch(r"[a-z_]+\.mjs", part) else None
    if drawing:
        return LIVE.parent / "viewer" / drawing if drawing in DRAWING else None
    return {"": LIVE / "page.html", "page.css": LIVE / "page.css"}.get(name)
