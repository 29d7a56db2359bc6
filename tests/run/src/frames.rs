//! Frames that tests of ports and of runs send and expect.

/// The initial message.
pub const IM: &[u8] = b"\x00\x00\x00\x04\x00\x01\xda\x10";

/// The answer to it.
pub const RM: &[u8] = b"\x01\x00\x00\x00";

/// The final message.
pub const FM: &[u8] = b"\x03\x00\x00\x00";

/// A message `OBS`.
pub const OBS: &[u8] = b"\x02\x00\x00\x02\x48\x0f";

/// `GOF (`.
pub const UNCLOSED: &[u8] = b"\x02\x00\x00\x04\x48\x03\x40\x00";

/// `PRN ( GOF ( )`.
pub const ITS_PRN: &[u8] = b"\x02\x00\x00\x0a\x48\x13\x40\x00\x48\x03\x40\x00\x40\x01";
