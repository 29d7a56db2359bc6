//! An address with a free port.

use std::net::SocketAddr;

/// Returns an address of this machine with a free port.
pub fn any_port() -> SocketAddr {
    SocketAddr::from(([127, 0, 0, 1], 0))
}
