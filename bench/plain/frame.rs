//! Frames: their sides, headers and error codes.

/// The length of a header.
pub const HEADER: usize = 4;

/// The sender of a frame.
#[derive(Clone, Copy, PartialEq, Eq)]
pub enum Side {
    Bot,
    Server,
}

/// The kind of a frame.
#[derive(Clone, Copy, PartialEq, Eq)]
pub enum Kind {
    Im,
    Rm,
    Dm,
    Fm,
    Em,
}

impl Kind {
    /// Returns whether a frame of this kind may have a body of this length.
    fn may_have_length(self, len: u16) -> bool {
        match self {
            Kind::Im => len == 4,
            Kind::Rm => len.is_multiple_of(6),
            Kind::Dm => len.is_multiple_of(2),
            Kind::Fm => len == 0,
            Kind::Em => len == 2,
        }
    }
}

/// A fault, by its code in an error message.
#[derive(Clone, Copy, PartialEq, Eq)]
pub enum Code {
    ImTimeout = 0x01,
    ImNotFirst = 0x02,
    WrongEndian = 0x03,
    WrongMagic = 0x04,
    WrongVersion = 0x05,
    SecondIm = 0x06,
    ImFromServer = 0x07,
    UnknownMessage = 0x08,
    WrongLength = 0x09,
    DmBeforeRm = 0x0A,
    RmNotFirst = 0x0B,
    SecondRm = 0x0C,
    RmFromClient = 0x0D,
    InvalidToken = 0x0E,
}

impl Code {
    /// Returns the code in two upper-case hexadecimal digits.
    pub fn digits(self) -> [u8; 2] {
        let number = self as u8;
        [b'0', if number < 10 { b'0' + number } else { b'A' + number - 10 }]
    }
}

/// The header of a frame.
#[derive(Clone, Copy)]
pub struct Head {
    pub kind: Kind,
    pub len: u16,
}

impl Head {
    /// Reads a header, for bodies of at most `max_body` bytes. Ignores the pad byte.
    pub fn read([kind, _pad, high, low]: [u8; HEADER], max_body: u16) -> Result<Head, Code> {
        let kind = match kind {
            0 => Kind::Im,
            1 => Kind::Rm,
            2 => Kind::Dm,
            3 => Kind::Fm,
            4 => Kind::Em,
            _ => return Err(Code::UnknownMessage),
        };
        let len = u16::from_be_bytes([high, low]);
        if kind == Kind::Im && len == 0x0400 {
            return Err(Code::WrongEndian);
        }
        if !kind.may_have_length(len) {
            return Err(Code::WrongLength);
        }
        if len > max_body {
            return Err(Code::UnknownMessage);
        }
        Ok(Head { kind, len })
    }
}

/// Checks the body of an initial message.
pub fn check_im(body: &[u8]) -> Result<(), Code> {
    match body {
        [_, _, 0x10, 0xDA] => Err(Code::WrongEndian),
        [0, 1, 0xDA, 0x10] => Ok(()),
        [_, _, 0xDA, 0x10] => Err(Code::WrongVersion),
        _ => Err(Code::WrongMagic),
    }
}
