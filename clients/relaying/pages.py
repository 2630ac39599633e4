"""The files that are served to browsers."""

from __future__ import annotations

import os
import stat
from http import HTTPStatus
from pathlib import Path
from typing import Dict, Optional, Tuple
from urllib.parse import unquote

Answer = Tuple[HTTPStatus, Dict[str, str], bytes]
"""The status, the headers and the body of an answer."""

BYTES_MOST = 16 * 1024 * 1024
FIRST = "index.html"
CLIENT = "metad"
"""The folder of the client in JavaScript, unless the folder that is served has one of this name."""
KINDS = {
    ".css": "text/css", ".gif": "image/gif", ".htm": "text/html", ".html": "text/html", ".ico": "image/x-icon", ".jpeg": "image/jpeg",
    ".jpg": "image/jpeg", ".js": "text/javascript", ".json": "application/json", ".map": "application/json", ".md": "text/plain",
    ".mjs": "text/javascript", ".pdf": "application/pdf", ".png": "image/png", ".svg": "image/svg+xml", ".txt": "text/plain",
    ".wasm": "application/wasm", ".webmanifest": "application/manifest+json", ".webp": "image/webp", ".woff2": "font/woff2",
    ".xml": "application/xml",
}  # fmt: skip
OF_TEXT = ("text/", "application/json", "application/xml", "image/svg")
HEADERS = {"X-Content-Type-Options": "nosniff", "Cache-Control": "no-cache", "Cross-Origin-Resource-Policy": "same-origin"}


def said(status: HTTPStatus, words: str, **headers: str) -> Answer:
    """An answer of one line of text."""
    return status, {**HEADERS, "Content-Type": "text/plain; charset=utf-8", **headers}, f"{words}\n".encode()


NOT_THERE = said(HTTPStatus.NOT_FOUND, "there is no such file")


def kind_of(path: Path) -> str:
    """The content type of a file, by its name."""
    kind = KINDS.get(path.suffix.lower(), "application/octet-stream")
    return f"{kind}; charset=utf-8" if kind.startswith(OF_TEXT) else kind


def read(path: Path) -> Optional[bytes]:
    """The bytes of a file; None if it may not be served."""
    try:
        with open(os.open(path, os.O_RDONLY | os.O_NONBLOCK | os.O_CLOEXEC), "rb") as file:
            held = os.fstat(file.fileno())
            if not stat.S_ISREG(held.st_mode) or held.st_size > BYTES_MOST:
                return None
            return file.read(BYTES_MOST)
    except (OSError, ValueError):
        return None


class Pages:
    """The files of a folder, and those of the client in JavaScript."""

    def __init__(self, folder: Path, client: Path) -> None:
        self.folder = folder.resolve()
        self.client = client.resolve()

    def answer(self, target: str) -> Answer:
        """The answer to `GET` of a path: a file of the folder. Names that begin with a dot, links out of the folder and
        folders without an index are not served."""
        path = self.path_of(target)
        body = None if path is None else read(path)
        if path is None or body is None:
            return NOT_THERE
        return HTTPStatus.OK, {**HEADERS, "Content-Type": kind_of(path)}, body

    def path_of(self, target: str) -> Optional[Path]:
        """The file of a path; None if there is no such file."""
        try:
            asked = unquote(target.partition("?")[0].partition("#")[0], errors="strict")
            names = asked.split("/")
            if names[0] or any(self.is_bad(name) for name in names[1:-1]) or names[-1] != "" and self.is_bad(names[-1]):
                return None
            names = [*names[1:-1], names[-1] or FIRST]
            root = self.folder
            if names[0] == CLIENT and len(names) > 1 and not (root / CLIENT).exists():
                root, names = self.client, names[1:]
            path = root.joinpath(*names).resolve(strict=True)
        except (OSError, ValueError, RuntimeError):
            return None
        return path if root in path.parents else None

    @staticmethod
    def is_bad(name: str) -> bool:
        """Whether a name is not served, wherever it leads."""
        return not name or name.startswith(".") or "\\" in name or "\0" in name
