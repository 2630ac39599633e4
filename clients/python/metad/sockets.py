"""Connections with a front: with its Unix-domain sockets, over TLS, and over TCP on the same machine."""

from __future__ import annotations

import errno
import os
import re
import socket
from os import PathLike, fspath
from typing import Optional, Union

from .tls import Tls, TlsLink

Link = Union[socket.socket, TlsLink]
"""A connection with a front."""

ADDRESS = re.compile(r"(tls|tcp)://(?:\[([^\]]+)\]|([^:/\[\]]+)):(\d{1,5})/?")
SECONDS = 30.0  # in which a front over the network has to be reached, with the handshake

ADVICE = {
    errno.ENOENT: "is a front running with this socket? `metad-front SOCKET PROGRAM` starts one, `start_front` does in Python",
    errno.ECONNREFUSED: "the front that had this socket is not running any more: start it again",
    errno.ENOTSOCK: "this is no socket: give the path that the front was started with",
    errno.EACCES: "the rights of the socket, or of its folder, keep this user out: see `--mode` of the front",
    errno.ENAMETOOLONG: "the path of a socket has at most 107 bytes: take a shorter one, or a relative one",
}
"""What to do where a socket cannot be reached, in addition to what the system says."""


def connected(place: Union[str, PathLike[str]], tls: Optional[Tls] = None) -> Link:
    """A connection with the socket at a path, or with `tls://HOST:PORT` or `tcp://HOST:PORT`. Where it fails, `OSError`
    with the path and advice."""
    name = fspath(place)
    found = ADDRESS.fullmatch(name)
    if found is None and isinstance(name, str) and name.startswith(("tls://", "tcp://")):
        raise ValueError(f"{name} is no address: it has the form tls://HOST:PORT")
    if tls is not None and (found is None or found[1] != "tls"):
        raise ValueError(f"{name} is not reached over TLS, as tls://HOST:PORT is")
    if found is None:
        return connected_by_path(place)
    return connected_over_network(found[2] or found[3], int(found[4]), (tls or Tls()) if found[1] == "tls" else None)


def connected_over_network(host: str, port: int, tls: Optional[Tls]) -> Link:
    """A connection over TLS, or over TCP without what that needs."""
    try:
        link = socket.create_connection((host, port), SECONDS)
    except OSError as error:
        advice = " (is a front running that listens there?)" if error.errno == errno.ECONNREFUSED else ""
        raise OSError(error.errno, f"{error.strerror or error}{advice}", f"{host}:{port}") from None
    link.setsockopt(socket.IPPROTO_TCP, socket.TCP_NODELAY, 1)
    sealed: Link = link if tls is None else TlsLink(link, tls, host)
    sealed.settimeout(None)
    return sealed


def connected_by_path(path: Union[str, PathLike[str]]) -> socket.socket:
    """A connection with the socket at a path."""
    link = socket.socket(socket.AF_UNIX)
    try:
        link.connect(fspath(path))
    except OSError as error:
        link.close()
        raise not_reached(error, path) from None
    except BaseException:
        link.close()
        raise
    return link


def not_reached(error: OSError, path: Union[str, PathLike[str]]) -> OSError:
    """The error for a socket that cannot be reached: of the same kind, with the path and advice."""
    number = errno.ENAMETOOLONG if error.errno is None else error.errno
    if number == errno.ECONNREFUSED and os.path.exists(path) and not is_socket(path):
        number = errno.ENOTSOCK
    advice = f" ({ADVICE[number]})" if number in ADVICE else ""
    return OSError(number, f"{os.strerror(number)}{advice}", fspath(path))


def is_socket(path: Union[str, PathLike[str]]) -> bool:
    """Whether a socket is at a path."""
    return os.path.exists(path) and os.stat(path).st_mode & 0o170000 == 0o140000
