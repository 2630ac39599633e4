//! A connection as bytes that are read and written without waiting, whatever its form: in the clear, or over TLS.
//!
//! `Link` uses it for lines, and does not know its form. A connection in the clear is read and written as it is. One over
//! TLS may hold bytes that it has sealed and the other side has not taken, so it can want to write with nothing unread.

use std::io::{self, Read, Write};
use std::net::Shutdown;
use std::os::unix::io::{AsRawFd, RawFd};

use mio::net::UnixStream;
use mio::{Interest, Registry, Token};

use crate::tls::Sealed;

/// A connection. Over TCP it is a `UnixStream` too: both are read and written alike.
pub enum Wire {
    Clear(UnixStream),
    Tls(Box<Sealed>),
}

impl From<UnixStream> for Wire {
    fn from(stream: UnixStream) -> Wire {
        Wire::Clear(stream)
    }
}

impl Wire {
    /// Whether bytes are read and written as they are.
    pub fn is_clear(&self) -> bool {
        matches!(self, Wire::Clear(_))
    }

    /// Begins to wait for events of the connection. One that can want to write at any time waits for room always: events
    /// come only when something changes.
    pub fn register(&mut self, registry: &Registry, token: Token) -> io::Result<()> {
        let interest = if self.is_clear() { Interest::READABLE } else { Interest::READABLE | Interest::WRITABLE };
        registry.register(self.stream(), token, interest)
    }

    /// Waits for room too, or no more. It has an effect only in the clear.
    pub fn await_room(&mut self, registry: &Registry, token: Token, awaits: bool) -> io::Result<()> {
        let writing = Interest::READABLE | Interest::WRITABLE;
        match self {
            Wire::Clear(stream) => registry.reregister(stream, token, if awaits { writing } else { Interest::READABLE }),
            Wire::Tls(_) => Ok(()),
        }
    }

    /// Whether bytes were written that the other side has not been sent.
    pub fn wants_to_write(&self) -> bool {
        match self {
            Wire::Clear(_) => false,
            Wire::Tls(sealed) => sealed.wants_to_write(),
        }
    }

    /// Sends as much of these bytes as the other side takes.
    pub fn send(&mut self) -> io::Result<()> {
        match self {
            Wire::Clear(_) => Ok(()),
            Wire::Tls(sealed) => sealed.send(),
        }
    }

    /// Says that nothing more will be written, and returns the connection below, which may still be read.
    pub fn end(self) -> UnixStream {
        let stream = match self {
            Wire::Clear(stream) => stream,
            Wire::Tls(sealed) => sealed.end(),
        };
        let _ = stream.shutdown(Shutdown::Write);
        stream
    }

    fn stream(&mut self) -> &mut UnixStream {
        match self {
            Wire::Clear(stream) => stream,
            Wire::Tls(sealed) => sealed.stream(),
        }
    }
}

impl Read for Wire {
    fn read(&mut self, bytes: &mut [u8]) -> io::Result<usize> {
        match self {
            Wire::Clear(stream) => stream.read(bytes),
            Wire::Tls(sealed) => sealed.read(bytes),
        }
    }
}

impl Write for Wire {
    fn write(&mut self, bytes: &[u8]) -> io::Result<usize> {
        match self {
            Wire::Clear(stream) => stream.write(bytes),
            Wire::Tls(sealed) => sealed.write(bytes),
        }
    }

    fn flush(&mut self) -> io::Result<()> {
        Ok(())
    }
}

impl AsRawFd for Wire {
    fn as_raw_fd(&self) -> RawFd {
        match self {
            Wire::Clear(stream) => stream.as_raw_fd(),
            Wire::Tls(sealed) => sealed.as_raw_fd(),
        }
    }
}
