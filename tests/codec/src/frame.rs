//! Tables of headers, initial messages and frames, byte by byte as the protocol defines them.

use daide_frame::code::Code;
use daide_frame::cutter::{Cutter, Step};
use daide_frame::head::{Head, Kind, read_head, write_head};
use daide_frame::initial_message::check_im;
use daide_test_support::rows::{holds, same};
use linked_list_allocator::LocalHeap;
use std::alloc::{Allocator, Global};
use std::test::Fail;

/// The body cap of a session with the default limits.
const CAP: u16 = 65_526;

/// A header | the cap | its kind and its length.
const GOOD_HEADERS: &[([u8; 4], u16, Kind, u16)] = &[
    ([0x02, 0x00, 0x00, 0x02], 1024, Kind::Dm, 2),
    ([0x02, 0xFF, 0x00, 0x02], 1024, Kind::Dm, 2),
    ([0x02, 0x00, 0x04, 0x00], 1024, Kind::Dm, 1024),
    ([0x00, 0x00, 0x00, 0x04], CAP, Kind::Im, 4),
    ([0x01, 0x00, 0x00, 0x00], CAP, Kind::Rm, 0),
    ([0x01, 0x00, 0x00, 0x0C], CAP, Kind::Rm, 12),
    ([0x03, 0x00, 0x00, 0x00], CAP, Kind::Fm, 0),
    ([0x04, 0x00, 0x00, 0x02], CAP, Kind::Em, 2),
];

/// A header | the cap | its first fault.
const WRONG_HEADERS: &[([u8; 4], u16, Code)] = &[
    ([0x02, 0x00, 0x04, 0x02], 1024, Code::UnknownMessage),
    ([0x02, 0x00, 0x04, 0x01], 1024, Code::WrongLength),
    ([0x01, 0x00, 0x04, 0x02], 1024, Code::UnknownMessage),
    ([0x02, 0x00, 0x00, 0x03], CAP, Code::WrongLength),
    ([0x02, 0x00, 0xFF, 0xFE], CAP, Code::UnknownMessage),
    ([0x00, 0x00, 0x04, 0x00], CAP, Code::WrongEndian),
    ([0x00, 0x00, 0x00, 0x06], CAP, Code::WrongLength),
    ([0x01, 0x00, 0x00, 0x08], CAP, Code::WrongLength),
    ([0x01, 0x00, 0x00, 0x03], CAP, Code::WrongLength),
    ([0x04, 0x00, 0x00, 0x04], CAP, Code::WrongLength),
    ([0x04, 0x00, 0x02, 0x00], CAP, Code::WrongLength),
    ([0x05, 0x00, 0x00, 0x00], CAP, Code::UnknownMessage),
    ([0x82, 0x00, 0x00, 0x02], CAP, Code::UnknownMessage),
];

/// Checks the kind and the length of a header.
fn check_header(row: &([u8; 4], u16, Kind, u16)) -> Result<(), Fail> {
    let (bytes, cap, kind, len) = row;
    let head = Head {
        kind: *kind,
        len: *len,
    };
    same(&read_head(*bytes, *cap), &Ok(head), bytes)
}

#[test]
fn headers_are_judged_in_order(_rt: HostRuntime) -> Result<(), Fail> {
    for row in GOOD_HEADERS {
        check_header(row)?;
    }
    for (bytes, cap, fault) in WRONG_HEADERS {
        same(&read_head(*bytes, *cap), &Err(*fault), bytes)?;
    }
    Ok(())
}

/// A kind and a length | the bytes of the header.
const WRITTEN: &[(Kind, u16, [u8; 4])] = &[
    (Kind::Im, 4, [0x00, 0x00, 0x00, 0x04]),
    (Kind::Rm, 6, [0x01, 0x00, 0x00, 0x06]),
    (Kind::Dm, 0xFFF6, [0x02, 0x00, 0xFF, 0xF6]),
    (Kind::Fm, 0, [0x03, 0x00, 0x00, 0x00]),
    (Kind::Em, 2, [0x04, 0x00, 0x00, 0x02]),
];

#[test]
fn headers_are_written_high_byte_first(_rt: HostRuntime) -> Result<(), Fail> {
    for (kind, len, bytes) in WRITTEN {
        let head = Head {
            kind: *kind,
            len: *len,
        };
        same(&write_head(head), bytes, &head)?;
    }
    Ok(())
}

/// The body of an initial message | the result of its check.
const INITIAL_MESSAGES: &[([u8; 4], Result<(), Code>)] = &[
    ([0x00, 0x01, 0xDA, 0x10], Ok(())),
    ([0x00, 0x01, 0x10, 0xDA], Err(Code::WrongEndian)),
    ([0x00, 0x01, 0xDA, 0x11], Err(Code::WrongMagic)),
    ([0x00, 0x02, 0xDA, 0x10], Err(Code::WrongVersion)),
    ([0x01, 0x00, 0xDA, 0x10], Err(Code::WrongVersion)),
    ([0x01, 0x01, 0xDA, 0x10], Err(Code::WrongVersion)),
    ([0x00, 0x02, 0x10, 0xDA], Err(Code::WrongEndian)),
    ([0x00, 0x02, 0x00, 0x00], Err(Code::WrongMagic)),
];

#[test]
fn faults_of_the_initial_message(_rt: HostRuntime) -> Result<(), Fail> {
    for (body, expected) in INITIAL_MESSAGES {
        same(&check_im(*body), expected, body)?;
    }
    Ok(())
}

/// A code | its number.
const CODES: &[(Code, u8)] = &[
    (Code::ImTimeout, 0x01),
    (Code::ImNotFirst, 0x02),
    (Code::WrongEndian, 0x03),
    (Code::WrongMagic, 0x04),
    (Code::WrongVersion, 0x05),
    (Code::SecondIm, 0x06),
    (Code::ImFromServer, 0x07),
    (Code::UnknownMessage, 0x08),
    (Code::WrongLength, 0x09),
    (Code::DmBeforeRm, 0x0A),
    (Code::RmNotFirst, 0x0B),
    (Code::SecondRm, 0x0C),
    (Code::RmFromClient, 0x0D),
    (Code::InvalidToken, 0x0E),
];

#[test]
fn codes_have_the_protocols_numbers(_rt: HostRuntime) -> Result<(), Fail> {
    for (code, number) in CODES {
        same(&code.number(), number, code)?;
    }
    Ok(())
}

/// Feeds bytes in pieces of at most `longest` bytes, as long as there is room. Returns the last step, and the number of
/// bytes fed up to it.
fn feed_all<A: Allocator>(cutter: &mut Cutter<A>, bytes: &[u8], longest: usize) -> (Step, usize) {
    let mut rest = bytes;
    let mut last = Step::More;
    for _ in 0..bytes.len() {
        let count = rest.len().min(cutter.room()).min(longest);
        if count == 0 {
            break;
        }
        last = cutter.feed(&rest[..count]);
        rest = &rest[count..];
    }
    (last, bytes.len().saturating_sub(rest.len()))
}

/// The header of a frame. Its body follows.
const HEAD: Head = Head {
    kind: Kind::Dm,
    len: 2,
};

const BODY: &[u8] = &[0x48, 0x0F];

/// A piece of that frame | the step that it causes | the room after it.
const PIECES: &[(&[u8], Step, usize)] = &[
    (&[], Step::More, 4),
    (&[0x02, 0x00, 0x00, 0x02], Step::Headed(HEAD), 2),
    (&[0x48, 0x0F], Step::Bodied(HEAD), 0),
    (&[], Step::More, 0),
];

/// The same frame in single bytes.
const SINGLE_BYTES: &[(&[u8], Step, usize)] = &[
    (&[0x02], Step::More, 3),
    (&[0x00], Step::More, 2),
    (&[0x00], Step::More, 1),
    (&[0x02], Step::Headed(HEAD), 2),
    (&[0x48], Step::More, 1),
    (&[0x0F], Step::Bodied(HEAD), 0),
];

/// Feeds a piece, if there is room for it, and returns its step.
fn feed_piece(cutter: &mut Cutter, piece: &[u8]) -> Option<Step> {
    if piece.len() > cutter.room() {
        return None;
    }
    Some(cutter.feed(piece))
}

/// Feeds pieces, and checks the step and the room after each.
fn feed_pieces(cutter: &mut Cutter, pieces: &[(&[u8], Step, usize)]) -> Result<(), Fail> {
    for (piece, step, room) in pieces {
        let answer = feed_piece(cutter, piece);
        same(&(answer, cutter.room()), &(Some(*step), *room), piece)?;
    }
    Ok(())
}

/// Returns a cutter's room and header, and whether it has this body.
fn seen(cutter: &Cutter, body: &[u8]) -> (usize, Option<Head>, bool) {
    (cutter.room(), cutter.head(), cutter.body() == body)
}

/// Checks that the cutter cuts the frame from these pieces, before and after a reset.
fn cut_frame(cutter: &mut Cutter, pieces: &[(&[u8], Step, usize)]) -> Result<(), Fail> {
    same(&seen(cutter, &[]), &(4, None, true), &"before")?;
    feed_pieces(cutter, pieces)?;
    same(&seen(cutter, BODY), &(0, Some(HEAD), true), &"cut")?;
    cutter.reset();
    same(&seen(cutter, &[]), &(4, None, true), &"reset")
}

#[test]
fn cuts_one_frame_whole_and_by_bytes(rt: HostRuntime) -> Result<(), Fail> {
    let mut cutter = Cutter::new(rt.alloc(), 1024)?;
    cut_frame(&mut cutter, PIECES)?;
    cut_frame(&mut cutter, SINGLE_BYTES)
}

/// The bytes of a first frame | the last step | the number of bytes fed up to it | the number of body bytes kept.
#[rattlefmt::skip]
const FIRST_FRAMES: &[(&[u8], Step, usize, usize)] = &[
    (&[0x02, 0x00, 0x00, 0x03], Step::Fault(Code::WrongLength), 4, 0),
    (&[0x02, 0x00, 0xFF, 0xFE], Step::Fault(Code::UnknownMessage), 4, 0),
    (&[0x00, 0x00, 0x04, 0x00], Step::Fault(Code::WrongEndian), 4, 0),
    (&[0x00, 0x00, 0x00, 0x06], Step::Fault(Code::WrongLength), 4, 0),
    (&[0x05, 0x00, 0x00, 0x00], Step::Fault(Code::UnknownMessage), 4, 0),
    (&[0x02, 0x00, 0x00, 0x06, 0x48, 0x03, 0x58, 0x00], Step::Fault(Code::InvalidToken), 8, 4),
    (&[0x02, 0x00, 0x00, 0x08, 0x4C, 0x00, 0x48, 0x03], Step::Fault(Code::InvalidToken), 6, 2),
    (&[0x02, 0x00, 0x00, 0x04, 0x4B, 0xFF, 0x57, 0xFF], Step::Bodied(Head { kind: Kind::Dm, len: 4 }), 8, 4),
    (&[0x02, 0x00, 0x00, 0x04, 0x48, 0x4C], Step::More, 6, 2),
    (&[0x00, 0x00, 0x00, 0x04, 0xFF, 0xFF, 0xFF, 0xFF], Step::Bodied(Head { kind: Kind::Im, len: 4 }), 8, 4),
    (&[0x01, 0x00, 0x00, 0x06, 0x50, 0x00, 0x42, 0x4F, 0x48, 0x00], Step::Bodied(Head { kind: Kind::Rm, len: 6 }), 10, 6),
    (&[0x03, 0x00, 0x00, 0x00], Step::Bodied(Head { kind: Kind::Fm, len: 0 }), 4, 0),
];

/// Cuts a first frame in pieces of at most `longest` bytes.
fn cut_first(alloc: Global, bytes: &[u8], longest: usize) -> Result<(Step, usize, usize), Fail> {
    let mut cutter = Cutter::new(alloc, CAP)?;
    let (last, fed) = feed_all(&mut cutter, bytes, longest);
    Ok((last, fed, cutter.body().len()))
}

/// Checks a first frame: fed in single bytes it has this last step at this byte; in longer pieces the same last step.
fn check_first(alloc: Global, row: &(&[u8], Step, usize, usize)) -> Result<(), Fail> {
    let (bytes, step, end, body) = row;
    same(&cut_first(alloc, bytes, 1)?, &(*step, *end, *body), bytes)?;
    for longest in 2..12usize {
        let (last, _, kept) = cut_first(alloc, bytes, longest)?;
        same(&(last, kept), &(*step, *body), bytes)?;
    }
    Ok(())
}

#[test]
fn faults_whole_and_by_bytes(rt: HostRuntime) -> Result<(), Fail> {
    for row in FIRST_FRAMES {
        check_first(rt.alloc(), row)?;
    }
    Ok(())
}

/// Cuts a frame on a heap. Returns the bytes in use after the allocation, the last step, and the bytes in use at the
/// end.
fn cut_within(heap: &LocalHeap) -> Option<(usize, Step, usize)> {
    let mut cutter = Cutter::new(heap, 512).ok()?;
    let taken = heap.used();
    let (last, _) = feed_all(&mut cutter, &[0x02, 0x00, 0x00, 0x02, 0x48, 0x0F], 512);
    Some((taken, last, heap.used()))
}

/// Returns whether a cutter can be allocated on a heap of this size, and checks that the heap is empty afterwards.
fn is_cut_within(alloc: Global, bytes: usize) -> Result<bool, Fail> {
    let heap = LocalHeap::new(alloc, bytes)?;
    let seen = cut_within(&heap);
    let is_right = seen.is_none() || seen == Some((512, Step::Bodied(HEAD), 512));
    same(&(is_right, heap.used()), &(true, 0), &bytes)?;
    Ok(seen.is_some())
}

/// Over heaps of growing size: the cutter allocates room for the longest body, and nothing else, or is refused.
#[test]
fn refused_memory_is_told_and_nothing_else(rt: HostRuntime) -> Result<(), Fail> {
    let mut refused = false;
    let mut made = false;
    for sixteens in 1..70usize {
        if is_cut_within(rt.alloc(), sixteens * 16)? {
            made = true;
        } else {
            refused = true;
        }
    }
    holds(refused && made, "refused, and made")
}
