//! The options for clients over the network.

use std::ffi::OsStr;
use std::net::SocketAddr;
use std::path::PathBuf;

use crate::command_line::{path, wrong_value};
use crate::doors::Comers;
use crate::tls::Files;

/// Where clients connect over the network, and the files with the certificates.
#[derive(Debug, Default, PartialEq, Eq)]
pub struct NetworkOptions {
    tcp: Option<SocketAddr>,
    tls: Option<SocketAddr>,
    certificate: Option<PathBuf>,
    key: Option<PathBuf>,
    clients: Option<PathBuf>,
}

impl NetworkOptions {
    /// Whether an option is one of these.
    pub fn has(name: &str) -> bool {
        ["--tcp", "--tls", "--tls-cert", "--tls-key", "--tls-clients"].contains(&name)
    }

    /// Reads the value of such an option.
    pub fn read(&mut self, name: &str, word: &str) -> Result<(), String> {
        match name {
            "--tcp" => self.tcp = Some(address(name, word)?),
            "--tls" => self.tls = Some(address(name, word)?),
            "--tls-cert" => self.certificate = Some(path(name, OsStr::new(word))?),
            "--tls-key" => self.key = Some(path(name, OsStr::new(word))?),
            _ => self.clients = Some(path(name, OsStr::new(word))?),
        }
        Ok(())
    }

    /// Checks which options may be combined.
    pub fn check(&self) -> Result<(), String> {
        let wrong = |fault: &str| Err(fault.to_string());
        if let Some(address) = self.tcp.filter(|address| !address.ip().is_loopback()) {
            return wrong(&format!(
                "--tcp {address} is no address of this machine alone, such as 127.0.0.1: others could read and change what \
                 is sent in the clear, so use --tls"
            ));
        }
        let has_files = self.certificate.is_some() || self.key.is_some() || self.clients.is_some();
        match (self.tls, &self.certificate, &self.key) {
            (Some(_), Some(_), Some(_)) => Ok(()),
            (Some(_), _, _) => wrong("--tls needs --tls-cert and --tls-key"),
            (None, _, _) if has_files => wrong("--tls-cert, --tls-key and --tls-clients need --tls"),
            (None, _, _) => Ok(()),
        }
    }

    /// The addresses at which clients connect, and how.
    pub fn doors(&self) -> impl Iterator<Item = (SocketAddr, Comers)> {
        let all = [(self.tcp, Comers::Tcp), (self.tls, Comers::Tls)];
        all.into_iter().filter_map(|(address, comers)| address.map(|address| (address, comers)))
    }

    /// The files with the certificates, if there is a use for them.
    pub fn files(&self) -> Option<Files> {
        let (certificate, key) = (self.certificate.clone()?, self.key.clone()?);
        Some(Files { certificate, key, clients: self.clients.clone() })
    }
}

fn address(name: &str, word: &str) -> Result<SocketAddr, String> {
    match word.parse() {
        Ok(address) => Ok(address),
        Err(_) => wrong_value(name, word, "address with a port, such as 127.0.0.1:7443 or [::1]:7443"),
    }
}

#[cfg(test)]
mod tests {
    use super::*;

    fn checked(words: &[(&str, &str)]) -> Result<(), String> {
        let mut options = NetworkOptions::default();
        words.iter().try_for_each(|(name, word)| options.read(name, word))?;
        options.check()
    }

    #[test]
    fn tls_needs_a_certificate_and_its_key() {
        let files = [("--tls-cert", "c"), ("--tls-key", "k")];
        assert_eq!(checked(&[("--tls", "0.0.0.0:1"), files[0], files[1]]), Ok(()));
        assert_eq!(checked(&[("--tls", "[::]:0"), files[1]]).unwrap_err(), "--tls needs --tls-cert and --tls-key");
        assert!(checked(&[("--tls-clients", "c")]).is_err() && checked(&files).is_err());
        assert!(checked(&[("--tls", "localhost:1")]).is_err() && checked(&[("--tls", "7443")]).is_err());
    }

    #[test]
    fn tcp_in_the_clear_is_for_this_machine() {
        for (address, is_right) in [("127.0.0.1:0", true), ("127.9.9.9:1", true), ("[::1]:1", true), ("0.0.0.0:1", false)] {
            assert_eq!(checked(&[("--tcp", address)]).is_ok(), is_right, "{address}");
        }
    }
}
