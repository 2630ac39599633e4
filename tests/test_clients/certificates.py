"""Certificates that tests make by openssl, in a folder of their own: a CA, servers and clients signed by it, and others."""

import shutil
import subprocess
from pathlib import Path

PATIENCE = 300  # seconds for a key, on a machine that does much else
CONFIG = """[req]
distinguished_name = name
prompt = no
[name]
CN = name
[v3]
basicConstraints = critical, CA:TRUE
keyUsage = critical, keyCertSign, cRLSign
[server]
basicConstraints = CA:FALSE
subjectAltName = DNS:localhost, IP:127.0.0.1, IP:::1
extendedKeyUsage = serverAuth
[client]
basicConstraints = CA:FALSE
extendedKeyUsage = clientAuth
[ca]
default_ca = own
[own]
database = signed
serial = serial
new_certs_dir = .
default_md = sha256
policy = any
[any]
commonName = supplied
"""
LONG_AGO = ["-startdate", "20200101000000Z", "-enddate", "20200201000000Z"]
HAS_OPENSSL = shutil.which("openssl") is not None


def openssl(*words, folder=None):
    ran = subprocess.run(["openssl", *map(str, words)], capture_output=True, text=True, timeout=PATIENCE, cwd=folder)
    if ran.returncode:
        raise OSError(f"openssl {words[0]}: {ran.stderr}")
    return ran.stdout


class Authority:
    """A CA, which makes certificates in a folder of its own, each with its key next to it: NAME.pem and NAME.key."""

    def __init__(self, room, name="authority", subject=None):
        self.room = Path(room, name)
        self.room.mkdir()
        (self.room / "openssl.cnf").write_text(CONFIG)
        self.certificate, self.key = self._made(name, "v3", f"/CN={subject or name}", ["-x509", "-days", "30"])

    def _made(self, name, section, subject, more, kind=None):
        """The paths of a certificate, or of a request for one, and of its key, of a kind that is quick to make."""
        made, key = self.room / f"{name}.pem", self.room / f"{name}.key"
        new = [*(kind or ["-newkey", "ec", "-pkeyopt", "ec_paramgen_curve:P-256"]), "-nodes", "-keyout", key]
        names = ["-subj", subject, "-utf8", "-multivalue-rdn"]
        openssl("req", "-new", "-config", "openssl.cnf", "-extensions", section, *new, *names, *more, "-out", made, folder=self.room)
        return made, key

    def client(self, name, subject=None, section="client", kind=None):
        """A certificate for clients that this CA signs."""
        own = ["-x509", "-CA", self.certificate, "-CAkey", self.key, "-days", "30"]
        return self._made(name, section, subject or f"/CN={name}", own, kind)

    def server(self, name="server"):
        """A certificate for servers at this machine."""
        return self.client(name, section="server")

    def expired(self, name):
        """A certificate for clients that has expired."""
        request, key = self._made(name, "client", f"/CN={name}", [])
        (self.room / "signed").touch()
        (self.room / "serial").write_text("01\n")
        own = ["-cert", self.certificate, "-keyfile", self.key, "-extensions", "client"]
        given = ["-config", "openssl.cnf", "-in", request, "-out", self.room / "expired.pem", *LONG_AGO]
        openssl("ca", "-batch", "-notext", *own, *given, folder=self.room)
        return self.room / "expired.pem", key


def subject_of(certificate):
    """The subject of a certificate as openssl writes it by RFC 2253, whose form RFC 4514 keeps."""
    shown = openssl("x509", "-in", certificate, "-noout", "-subject", "-nameopt", "RFC2253")
    return shown.removeprefix("subject=").strip()
