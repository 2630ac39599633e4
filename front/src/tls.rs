//! TLS: the certificates that the front shows and asks for, and connections over it. `rustls` does the protocol.

use std::fs::File;
use std::io::{self, BufReader, ErrorKind, Read, Write};
use std::os::unix::io::{AsRawFd, RawFd};
use std::path::{Path, PathBuf};
use std::sync::Arc;
use std::time::SystemTime;

use ::ring::digest::{digest, SHA256};
use mio::net::UnixStream;
use rustls::server::{AllowAnyAuthenticatedClient, ClientCertVerified, ClientCertVerifier, NoServerSessionStorage};
use rustls::sign::any_supported_type;
use rustls::{Certificate, DistinguishedNames, PrivateKey, RootCertStore, ServerConfig, ServerConnection, SignatureScheme};
use rustls_pemfile::Item;
use webpki::{EndEntityCert, SignatureAlgorithm};

use crate::log::{reason, Ended};
use crate::rights::Shown;
use crate::subject::subject_of;

/// The most bytes that are sealed before the other side has taken them.
const SEALED_MOST: usize = 16_384;
/// The most certificates that a client may send in addition to its own.
const BETWEEN_MOST: usize = 4;

/// The kinds of signatures by which a key is compared with its certificate.
static KINDS: [(SignatureScheme, &SignatureAlgorithm); 4] = [
    (SignatureScheme::ECDSA_NISTP256_SHA256, &webpki::ECDSA_P256_SHA256),
    (SignatureScheme::ECDSA_NISTP384_SHA384, &webpki::ECDSA_P384_SHA384),
    (SignatureScheme::ED25519, &webpki::ED25519),
    (SignatureScheme::RSA_PKCS1_SHA256, &webpki::RSA_PKCS1_2048_8192_SHA256),
];

/// The files with the certificates.
#[derive(Clone, Debug, PartialEq, Eq)]
pub struct Files {
    pub certificate: PathBuf,
    pub key: PathBuf,
    /// Who signs the certificates that clients must have.
    pub clients: Option<PathBuf>,
}

/// Reads the certificates.
pub fn settings(files: &Files) -> Result<Arc<ServerConfig>, Ended> {
    let certificates = certificates_in(&files.certificate)?;
    let key = key_in(&files.key)?;
    if !fits(&certificates[0], &key) {
        return Err(fault_of(&files.key, &format!("is no key for {}, or of an unknown kind", files.certificate.display())));
    }
    let builder = ServerConfig::builder().with_safe_defaults();
    let builder = match &files.clients {
        Some(path) => {
            let verifier = AllowAnyAuthenticatedClient::new(roots_in(path)?);
            builder.with_client_cert_verifier(Arc::new(ShortChains(verifier)))
        }
        None => builder.with_no_client_auth(),
    };
    let fault = |error| fault_of(&files.key, &format!("cannot be used: {error}"));
    let mut settings = builder.with_single_cert(certificates, key).map_err(fault)?;
    if files.clients.is_some() {
        settings.session_storage = Arc::new(NoServerSessionStorage {}); // so that certificates are looked at each time
    }
    Ok(Arc::new(settings))
}

fn fault_of(path: &Path, what: &str) -> Ended {
    Ended(format!("{} {what}", path.display()))
}

fn items_in(path: &Path) -> Result<Vec<Item>, Ended> {
    let read = || -> io::Result<Vec<Item>> { rustls_pemfile::read_all(&mut BufReader::new(File::open(path)?)) };
    read().map_err(|error| fault_of(path, &format!("cannot be read: {}", reason(&error))))
}

fn certificates_in(path: &Path) -> Result<Vec<Certificate>, Ended> {
    let found = items_in(path)?.into_iter().filter_map(|item| match item {
        Item::X509Certificate(bytes) => Some(Certificate(bytes)),
        _ => None,
    });
    let found: Vec<Certificate> = found.collect();
    if found.is_empty() {
        return Err(fault_of(path, "has no certificate in PEM form"));
    }
    Ok(found)
}

fn key_in(path: &Path) -> Result<PrivateKey, Ended> {
    let found = items_in(path)?.into_iter().find_map(|item| match item {
        Item::RSAKey(bytes) | Item::PKCS8Key(bytes) | Item::ECKey(bytes) => Some(PrivateKey(bytes)),
        _ => None,
    });
    found.ok_or_else(|| fault_of(path, "has no private key in PEM form that needs no password"))
}

/// Whether a key is that of a certificate: whether what it signs can be verified by the certificate.
fn fits(certificate: &Certificate, key: &PrivateKey) -> bool {
    const SIGNED: &[u8] = b"signed by the key";
    let schemes: Vec<SignatureScheme> = KINDS.iter().map(|(scheme, _)| *scheme).collect();
    let signer = any_supported_type(key).ok().and_then(|key| key.choose_scheme(&schemes));
    let signed = signer.and_then(|signer| Some((signer.scheme(), signer.sign(SIGNED).ok()?)));
    let kind = |scheme| KINDS.iter().find(|(own, _)| *own == scheme).map(|(_, kind)| *kind);
    match (signed, EndEntityCert::try_from(certificate.0.as_slice())) {
        (Some((scheme, signature)), Ok(certificate)) => {
            kind(scheme).map_or(false, |kind| certificate.verify_signature(kind, SIGNED, &signature).is_ok())
        }
        _ => false,
    }
}

fn roots_in(path: &Path) -> Result<RootCertStore, Ended> {
    let mut roots = RootCertStore::empty();
    for certificate in certificates_in(path)? {
        roots.add(&certificate).map_err(|error| fault_of(path, &format!("cannot be used: {error}")))?;
    }
    Ok(roots)
}

/// Verifies the certificates of clients as `rustls` does, if there are only a few between a client's and an authority's. The
/// ways between them are tried one after the other, and with many certificates that would take hours.
struct ShortChains(Arc<dyn ClientCertVerifier>);

impl ClientCertVerifier for ShortChains {
    fn client_auth_root_subjects(&self) -> Option<DistinguishedNames> {
        self.0.client_auth_root_subjects()
    }

    fn verify_client_cert(
        &self,
        own: &Certificate,
        between: &[Certificate],
        now: SystemTime,
    ) -> Result<ClientCertVerified, rustls::Error> {
        if between.len() > BETWEEN_MOST {
            let fault = format!("the client has sent more than {BETWEEN_MOST} further certificates");
            return Err(rustls::Error::General(fault));
        }
        self.0.verify_client_cert(own, between, now)
    }
}

/// A connection over TLS.
pub struct Sealed {
    stream: UnixStream,
    session: ServerConnection,
}

impl Sealed {
    /// Makes a connection whose handshake has not begun.
    pub fn new(stream: UnixStream, settings: &Arc<ServerConfig>) -> Result<Sealed, Ended> {
        let mut session = ServerConnection::new(settings.clone()).map_err(|error| Ended(error.to_string()))?;
        session.set_buffer_limit(Some(SEALED_MOST));
        Ok(Sealed { stream, session })
    }

    pub fn stream(&mut self) -> &mut UnixStream {
        &mut self.stream
    }

    /// Continues with the handshake, until it is done. The error `WouldBlock` says that it waits for the other side.
    pub fn shake(&mut self) -> io::Result<()> {
        let _ = self.send();
        while self.session.is_handshaking() {
            if self.take()? == 0 {
                return Err(io::Error::new(ErrorKind::UnexpectedEof, "the other side has closed"));
            }
        }
        Ok(())
    }

    /// The client's certificate, once the handshake is done.
    pub fn shown(&self) -> Option<Shown> {
        let own = self.session.peer_certificates().and_then(|all| all.first())?;
        let fingerprint = digest(&SHA256, &own.0).as_ref().try_into().ok()?;
        Some(Shown { subject: subject_of(&own.0), fingerprint })
    }

    /// Reads sealed bytes and opens them; returns their number. What the protocol itself answers is sent.
    fn take(&mut self) -> io::Result<usize> {
        let count = loop {
            match self.session.read_tls(&mut self.stream) {
                Err(error) if error.kind() == ErrorKind::Interrupted => {}
                other => break other?,
            }
        };
        let opened = self.session.process_new_packets();
        let _ = self.send(); // what is not sent now is sent when there is room
        opened.map_err(|error| io::Error::new(ErrorKind::InvalidData, error.to_string()))?;
        Ok(count)
    }

    pub fn wants_to_write(&self) -> bool {
        self.session.wants_write()
    }

    /// Sends what is sealed. The error `WouldBlock` says that the other side has not taken all.
    pub fn send(&mut self) -> io::Result<()> {
        while self.session.wants_write() {
            match self.session.write_tls(&mut self.stream) {
                Ok(0) => return Err(ErrorKind::WriteZero.into()),
                Err(error) if error.kind() != ErrorKind::Interrupted => return Err(error),
                _ => {}
            }
        }
        Ok(())
    }

    /// Says that nothing more will be written, if the other side takes that at once; returns the connection below.
    pub fn end(mut self) -> UnixStream {
        self.session.send_close_notify();
        let _ = self.send();
        self.stream
    }
}

impl Read for Sealed {
    fn read(&mut self, bytes: &mut [u8]) -> io::Result<usize> {
        loop {
            match self.session.reader().read(bytes) {
                Err(error) if error.kind() == ErrorKind::WouldBlock => {}
                // as in the clear, the end of a connection is the end of what was written
                Err(error) if error.kind() == ErrorKind::UnexpectedEof => return Ok(0),
                other => return other,
            }
            self.take()?;
        }
    }
}

impl Write for Sealed {
    fn write(&mut self, bytes: &[u8]) -> io::Result<usize> {
        self.send()?;
        let count = self.session.writer().write(bytes)?;
        match self.send() {
            Err(error) if error.kind() != ErrorKind::WouldBlock => Err(error),
            _ => Ok(count),
        }
    }

    fn flush(&mut self) -> io::Result<()> {
        Ok(())
    }
}

impl AsRawFd for Sealed {
    fn as_raw_fd(&self) -> RawFd {
        self.stream.as_raw_fd()
    }
}
