//! Where a box is: `HOST` or `HOST:PORT`.

use std::fmt;
use std::net::Ipv6Addr;

/// The port of the protocol.
pub const PORT: u16 = 10055;

/// A name or an address, and a port.
#[derive(Clone, Debug, PartialEq, Eq)]
pub struct Address {
    pub host: String,
    pub port: u16,
}

impl Address {
    /// Reads `box`, `box:10055`, `10.0.0.7`, `::1`, `[::1]` or `[::1]:10055`.
    pub fn read(text: &str) -> Result<Address, String> {
        let found = match text.strip_prefix('[') {
            Some(rest) => rest.split_once(']').and_then(|(host, behind)| {
                let port = match behind.strip_prefix(':') {
                    Some(port) => port.parse().ok()?,
                    None => behind.is_empty().then_some(PORT)?,
                };
                Some((host, port))
            }),
            None if text.parse::<Ipv6Addr>().is_ok() => Some((text, PORT)),
            None => match text.split_once(':') {
                Some((host, port)) => port.parse().ok().map(|port| (host, port)),
                None => Some((text, PORT)),
            },
        };
        match found {
            Some((host, port)) if !host.is_empty() && port > 0 => Ok(Address {
                host: host.to_string(),
                port,
            }),
            _ => Err(format!("this is no HOST or HOST:PORT: {text}")),
        }
    }
}

impl fmt::Display for Address {
    fn fmt(&self, out: &mut fmt::Formatter) -> fmt::Result {
        match self.host.contains(':') {
            true => write!(out, "[{}]:{}", self.host, self.port),
            false => write!(out, "{}:{}", self.host, self.port),
        }
    }
}

#[cfg(test)]
mod tests {
    use super::*;

    #[test]
    fn addresses() {
        for (text, host, port) in [
            ("box", "box", 10055),
            ("box:7", "box", 7),
            ("10.0.0.7", "10.0.0.7", 10055),
            ("::1", "::1", 10055),
            ("[::1]", "::1", 10055),
            ("[::1]:7", "::1", 7),
        ] {
            let address = Address::read(text).unwrap();
            assert_eq!((&address.host[..], address.port), (host, port), "{text}");
            assert_eq!(Address::read(&address.to_string()), Ok(address));
        }
        for wrong in [
            "",
            ":7",
            "box:",
            "box:x",
            "box:65536",
            "box:0",
            "[::1",
            "[::1]7",
        ] {
            assert!(Address::read(wrong).is_err(), "{wrong}");
        }
    }
}
