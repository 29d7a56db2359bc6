//! Tables of tokens, their classes, names and printed text, byte by byte as the protocol defines them.

use daide_test_support::rows::same;
use daide_token::class::Class;
use daide_token::text::{write_text, write_text_with};
use daide_token::token::Token;
use std::alloc::Global;
use std::io;
use std::io::{ErrorKind, Write};
use std::test::Fail;

/// Two bytes | their number, if they are one.
const NUMBERS: &[([u8; 2], Option<i16>)] = &[
    ([0x00, 0x00], Some(0)),
    ([0x1F, 0xFF], Some(8191)),
    ([0x20, 0x00], Some(-8192)),
    ([0x3F, 0xFF], Some(-1)),
    ([0x40, 0x00], None),
    ([0xFF, 0xFF], None),
];

/// Numbers without a token.
const NO_NUMBERS: &[i16] = &[8192, -8193, i16::MAX, i16::MIN];

/// Checks the number of a token of two bytes, and that the number's token is this one.
fn check_number(bytes: [u8; 2], number: Option<i16>) -> Result<(), Fail> {
    let token = Token::from_be(bytes);
    let back = match number {
        Some(number) => Token::of_number(number),
        None => Some(token),
    };
    let told = (token.number(), token.to_be(), back);
    same(&told, &(number, bytes, Some(token)), &bytes)
}

#[test]
fn numbers_have_fourteen_bits(_rt: HostRuntime) -> Result<(), Fail> {
    for (bytes, number) in NUMBERS {
        check_number(*bytes, *number)?;
    }
    for number in NO_NUMBERS {
        same(&Token::of_number(*number), &None, number)?;
    }
    Ok(())
}

/// A code | its class | whether its category is known.
const CLASSES: &[(u16, Class, bool)] = &[
    (0x0000, Class::Num, true),
    (0x3FFF, Class::Num, true),
    (0x4000, Class::Bra, true),
    (0x4001, Class::Ket, true),
    (0x4002, Class::Other, true),
    (0x41FF, Class::Power, true),
    (0x4200, Class::Amy, true),
    (0x4380, Class::Bld, true),
    (0x4401, Class::Note, true),
    (0x440F, Class::Note, true),
    (0x4506, Class::Outcome, true),
    (0x460E, Class::Coast, true),
    (0x4704, Class::Season, true),
    (0x4813, Class::Prn, true),
    (0x481F, Class::Other, true),
    (0x4903, Class::Lvl, true),
    (0x490C, Class::Param, true),
    (0x4A0D, Class::Other, true),
    (0x4A12, Class::Other, true),
    (0x4A1F, Class::Xdo, true),
    (0x4B61, Class::Text, true),
    (0x4C00, Class::Alien, false),
    (0x4FFF, Class::Alien, false),
    (0x5300, Class::Province, true),
    (0x57FF, Class::Province, true),
    (0x5800, Class::Alien, false),
    (0xFFFF, Class::Alien, false),
];

#[test]
fn classes_go_by_category_then_code(_rt: HostRuntime) -> Result<(), Fail> {
    for (code, class, known) in CLASSES {
        let token = Token::from_code(*code);
        let told = (token.class(), token.has_known_category());
        same(&told, &(*class, *known), code)?;
    }
    Ok(())
}

/// A code | its name.
const NAMES: &[(u16, &str)] = &[
    (0x4000, "BRA"),
    (0x4001, "KET"),
    (0x4100, "AUS"),
    (0x4106, "TUR"),
    (0x4200, "AMY"),
    (0x4201, "FLT"),
    (0x4320, "CTO"),
    (0x4382, "WVE"),
    (0x4400, "MBV"),
    (0x4413, "YSC"),
    (0x4500, "SUC"),
    (0x4506, "RET"),
    (0x4600, "NCS"),
    (0x460E, "NWC"),
    (0x4700, "SPR"),
    (0x4704, "WIN"),
    (0x4800, "CCD"),
    (0x481E, "SMR"),
    (0x4900, "AOA"),
    (0x490D, "DSD"),
    (0x4A00, "ALY"),
    (0x4A1F, "XDO"),
    (0x5000, "BOH"),
    (0x5006, "UKR"),
    (0x5107, "BUD"),
    (0x510D, "WAR"),
    (0x520E, "ADR"),
    (0x5220, "WES"),
    (0x5421, "ALB"),
    (0x542F, "YOR"),
    (0x5530, "ANK"),
    (0x5547, "VEN"),
    (0x5748, "BUL"),
    (0x574A, "STP"),
];

#[test]
fn names_are_those_of_the_tables(_rt: HostRuntime) -> Result<(), Fail> {
    for (code, name) in NAMES {
        let token = Token::from_code(*code);
        let told = (token.name(), Token::by_name(name));
        same(&told, &(Some(*name), Some(token)), code)?;
    }
    Ok(())
}

#[test]
fn what_no_table_lists_has_none(_rt: HostRuntime) -> Result<(), Fail> {
    for code in &[0x0000, 0x3FFF, 0x4401, 0x4A12, 0x4B41, 0x5300, 0xFFFF] {
        same(&Token::from_code(*code).name(), &None, code)?;
    }
    for name in &["", "gof", "GO", "GOFF", "#4a12", "UNT"] {
        same(&Token::by_name(name), &None, name)?;
    }
    Ok(())
}

/// The bytes of tokens | their text.
const TEXTS: &[(&[u8], &str)] = &[
    (&[], ""),
    (&[0x1F, 0xFF, 0x20, 0x00, 0x3F, 0xFF], "8191 -8192 -1"),
    (&[0x4B, 0x49, 0x4B, 0x27, 0x4B, 0x6D], "'I' #4b27 'm'"),
    (
        &[0x48, 0x03, 0x40, 0x00, 0x4A, 0x12, 0x40, 0x01],
        "GOF ( #4a12 )",
    ),
    (
        &[0x4B, 0x1F, 0x4B, 0x20, 0x4B, 0x7E, 0x4B, 0x7F],
        "#4b1f ' ~' #4b7f",
    ),
    (&[0xFF, 0xFF, 0x00, 0x00], "#ffff 0"),
];

/// Checks the text of tokens.
fn check_text(alloc: Global, tokens: &[u8], text: &str) -> Result<(), Fail> {
    if tokens.len() % 2 != 0 {
        return Err(Fail::new(text));
    }
    let mut written = Vec::new(alloc);
    write_text(tokens, &mut written)?;
    same(&written.as_slice(), &text.as_bytes(), &text)
}

#[test]
fn printed_text(rt: HostRuntime) -> Result<(), Fail> {
    for (tokens, text) in TEXTS {
        check_text(rt.alloc(), tokens, text)?;
    }
    Ok(())
}

#[test]
fn added_names_are_printed(rt: HostRuntime) -> Result<(), Fail> {
    let added = [
        (Token::from_code(0x4A40), *b"XYZ"),
        (Token::from_code(0x4A40), *b"QQQ"),
        (Token::from_code(0x4803), *b"FOG"),
    ];
    let tokens = [0x4A, 0x40, 0x48, 0x03, 0x4B, 0x61, 0x4A, 0x41];
    let mut written = Vec::new(rt.alloc());
    write_text_with(&added, &tokens, &mut written)?;
    same(
        &written.as_slice(),
        &b"XYZ GOF 'a' #4a41".as_slice(),
        &"added names",
    )
}

/// A writer that accepts `writes` writes, and fails at the next one.
#[derive(Drop)]
struct FailsAtWrite {
    writes: usize,
}

impl Write for FailsAtWrite {
    fn write(&mut self, bytes: &[u8]) -> io::Result<usize> {
        if self.writes == 0 {
            return Err(io::Error::from(ErrorKind::StorageFull));
        }
        self.writes -= 1;
        Ok(bytes.len())
    }

    fn flush(&mut self) -> io::Result<()> {
        Ok(())
    }
}

/// Returns the error of a text's writer that accepts `writes` writes, if it is returned.
fn fault_after(writes: usize) -> Option<ErrorKind> {
    let tokens = [0x48, 0x03, 0x4B, 0x41, 0x00, 0x00, 0x4B, 0x42];
    let mut writer = FailsAtWrite { writes };
    match write_text(&tokens, &mut writer) {
        Ok(()) => None,
        Err(fault) => Some(fault.kind()),
    }
}

#[test]
fn writers_fault_is_handed_on(_rt: HostRuntime) -> Result<(), Fail> {
    let mut written = false;
    for writes in 0..16usize {
        let fault = fault_after(writes);
        written = written || fault.is_none();
        let want = if written {
            None
        } else {
            Some(ErrorKind::StorageFull)
        };
        same(&fault, &want, &writes)?;
    }
    same(&written, &true, &"written at last")
}
