"""Connections over TLS, for two threads at once: one that reads and one that writes.

The objects of `ssl` are not made for two threads at once. So the bytes of a connection go through buffers in memory here: a
lock guards what seals and opens them, and no thread holds it while it waits for the other side.
"""

from __future__ import annotations

import io
import socket
import ssl
import threading
from dataclasses import dataclass
from os import PathLike
from typing import IO, Optional, Union, cast

READ_BYTES = 65_536

File = Union[str, "PathLike[str]"]


@dataclass(frozen=True)
class Tls:
    """What a connection over TLS needs and the system does not know."""

    ca: Optional[File] = None
    """The file with the certificates of those who sign the server's; without it, those that the system trusts."""
    certificate: Optional[File] = None
    """The file with this client's certificate, which a front may ask for."""
    key: Optional[File] = None
    """The file with its private key, if that is another one."""
    name: Optional[str] = None
    """The name that the server's certificate has to be for, if it is not that of the address."""

    def context(self) -> ssl.SSLContext:
        """The settings for `ssl`. `OSError` where a file cannot be read."""
        context = ssl.create_default_context(cafile=self.ca)
        if self.certificate is not None:
            context.load_cert_chain(self.certificate, self.key)
        return context


class TlsLink:
    """A connection over TLS, with those methods of a socket that the client uses."""

    def __init__(self, link: socket.socket, tls: Tls, host: str) -> None:
        """Makes it of a connection over TCP, which is closed if that fails."""
        self._link = link
        self._incoming, self._outgoing = ssl.MemoryBIO(), ssl.MemoryBIO()
        self._using, self._sending = threading.Lock(), threading.Lock()
        try:
            self._sealed = tls.context().wrap_bio(self._incoming, self._outgoing, server_hostname=tls.name or host)
            self._shake()
        except BaseException:
            link.close()
            raise

    def _shake(self) -> None:
        """Does the handshake."""
        while True:
            try:
                self._sealed.do_handshake()
                return
            except ssl.SSLWantReadError:
                pass
            finally:
                self._send_rest(True)  # what comes next of it, or why it fails
            self._take()

    def _take(self) -> None:
        """Waits for sealed bytes."""
        data = self._link.recv(READ_BYTES)
        with self._using:
            if data:
                self._incoming.write(data)
            else:
                self._incoming.write_eof()

    def _send_rest(self, waits: bool) -> None:
        """Sends what TLS itself has to say. Without waiting, it leaves that to a thread that sends just now."""
        if not self._sending.acquire(waits):
            return
        try:
            with self._using:
                data = self._outgoing.read()
            if data:
                self._link.sendall(data)
        finally:
            self._sending.release()

    def recv(self, size: int) -> bytes:
        """Reads at least one byte, and at most so many; nothing at the end."""
        while True:
            with self._using:
                try:
                    return self._sealed.read(size)
                except ssl.SSLWantReadError:
                    pass
                except (ssl.SSLZeroReturnError, ssl.SSLEOFError):
                    return b""
            self._send_rest(False)
            self._take()

    def sendall(self, data: Union[bytes, memoryview]) -> None:
        """Writes bytes, and waits until the system has taken all."""
        left = memoryview(data)
        with self._sending:
            while left:
                with self._using:
                    left = left[self._sealed.write(left) :]
                    sealed = self._outgoing.read()
                self._link.sendall(sealed)

    def makefile(self, mode: str) -> IO[bytes]:
        """A stream that reads (`rb`) or one that writes (`wb`)."""
        if mode == "rb":
            return cast(IO[bytes], io.BufferedReader(_Reading(self), READ_BYTES))
        return cast(IO[bytes], io.BufferedWriter(_Writing(self), READ_BYTES))

    def settimeout(self, timeout: Optional[float]) -> None:
        self._link.settimeout(timeout)

    def shutdown(self, how: int) -> None:
        """Ends a direction of the connection, or both. The end of the connection below ends what was written."""
        self._link.shutdown(how)

    def close(self) -> None:
        self._link.close()


class _Reading(io.RawIOBase):
    def __init__(self, link: TlsLink) -> None:
        self._of = link

    def readable(self) -> bool:
        return True

    def readinto(self, buffer: memoryview) -> int:  # type: ignore[override]
        data = self._of.recv(len(buffer))
        buffer[: len(data)] = data
        return len(data)


class _Writing(io.RawIOBase):
    def __init__(self, link: TlsLink) -> None:
        self._of = link

    def writable(self) -> bool:
        return True

    def write(self, data: memoryview) -> int:  # type: ignore[override]
        self._of.sendall(data)
        return len(data)
