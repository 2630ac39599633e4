"""Addresses to listen at, and which pages may connect."""

from __future__ import annotations

import argparse
import ipaddress
from dataclasses import dataclass
from typing import Optional, Sequence, Tuple
from urllib.parse import urlsplit

PORT_MOST = 65_535
PORTS = {"http": 80, "https": 443}
"""The port of each scheme where an origin has none."""

Host = Tuple[str, Optional[int]]
"""A name or an address in lower case, and a port."""


@dataclass(frozen=True)
class Address:
    """Where to listen."""

    host: str
    port: int

    @property
    def is_local(self) -> bool:
        """Whether only programs of this machine can connect."""
        return is_local(self.host)


def shown(host: str, port: int) -> str:
    """An address as in a URL."""
    return f"[{host}]:{port}" if ":" in host else f"{host}:{port}"


def is_local(host: str) -> bool:
    """Whether a host is this machine, by its name or its address."""
    if host == "localhost" or host.endswith(".localhost"):
        return True
    try:
        return ipaddress.ip_address(host).is_loopback
    except ValueError:
        return False


def address(word: str) -> Address:
    """The address of a word such as `127.0.0.1:7073`, `localhost:0` or `[::1]:7073`."""
    host, _, port = word.rpartition(":")
    is_number = port.isascii() and port.isdecimal() and len(port) <= 5 and int(port) <= PORT_MOST
    bare = host[1:-1] if host.startswith("[") and host.endswith("]") else host
    try:
        known = "127.0.0.1" if bare == "localhost" else str(ipaddress.ip_address(bare))
    except ValueError:
        known = ""
    if not is_number or not known or (":" in bare) != (bare != host):
        raise argparse.ArgumentTypeError(f"{word!r} is no address and port such as 127.0.0.1:7073 or [::1]:7073")
    return Address(known, int(port))


def host_of(word: str, scheme: str) -> Optional[Host]:
    """The host and port that the header `Host` names; None if it names none."""
    try:
        parts = urlsplit(f"//{word}")
        port = parts.port
    except ValueError:
        return None
    if not parts.hostname or parts.netloc != word or "@" in word:
        return None
    return parts.hostname, PORTS.get(scheme) if port is None else port


def origin_of(word: str) -> Optional[Tuple[str, Host]]:
    """The scheme and the host of an origin; None for other words, such as `null`."""
    scheme, found, rest = word.lower().partition("://")
    host = host_of(rest, scheme) if found and scheme.isascii() and scheme.isalpha() else None
    return None if host is None else (scheme, host)


def origin(word: str) -> str:
    """The origin of a word such as `https://example.org:8443`."""
    if origin_of(word) is None:
        raise argparse.ArgumentTypeError(f"{word!r} is no origin such as https://example.org")
    return word


class Doorkeeper:
    """Decides which pages may connect."""

    def __init__(self, origins: Sequence[str], is_local: bool, is_tls: bool) -> None:
        self.origins = {origin_of(word) for word in origins}
        self.is_local = is_local
        """Whether only this machine can connect, which needs no name that anybody could have pointed here."""
        self.schemes = ("https",) if is_tls else ("http", "https")
        """Of pages that come from here, perhaps through a proxy that speaks TLS."""

    def knows_host(self, hosts: Sequence[str]) -> bool:
        """Whether a request names this server. A foreign page may have had its own name pointed to a local address, so
        that its origin equals the host."""
        host = host_of(hosts[0].lower(), "http") if len(hosts) == 1 else None
        if host is None:
            return False
        if not self.is_local:
            return True
        return is_local(host[0]) or host[0] in [known[1][0] for known in self.origins if known]

    def lets_in(self, origins: Sequence[str], host: str) -> bool:
        """Whether a WebSocket of these headers `Origin` and this `Host` may be opened. Programs that are no browsers send no
        origin."""
        if not origins:
            return True
        asked = origin_of(origins[0]) if len(origins) == 1 else None
        if asked is None:
            return False
        if self.origins:
            return asked in self.origins
        scheme, own = asked
        return scheme in self.schemes and own == host_of(host.lower(), scheme)
