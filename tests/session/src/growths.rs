//! The allocations of a session: two, in `new`, one for each body.

use crate::script::{IM, PIECES, RM, Sent, bytes_of};
use daide_frame::side::Side::{self, Bot, Server};
use daide_protocol::config::Config;
use daide_session::session::{Phase, Session, SessionError};
use daide_test_support::rows::{holds, same};
use daide_test_support::words::two_words;
use linked_list_allocator::LocalHeap;
use std::alloc::Global;
use std::test::Fail;

const CONFIG: Config = Config {
    top_level: 60,
    max_body: 512,
    max_depth: 62,
};

/// Fills a heap but for two separate holes of these sizes. The walls that are returned keep the rest allocated.
fn holes_of<'a>(
    heap: &'a LocalHeap,
    first: usize,
    second: usize,
) -> Result<(Vec<u8, &'a LocalHeap>, Vec<u8, &'a LocalHeap>), Fail> {
    let one = Vec::<u8, &LocalHeap>::with_capacity(heap, first)?;
    let wall = Vec::with_capacity(heap, 16)?;
    let other = Vec::<u8, &LocalHeap>::with_capacity(heap, second)?;
    let last = Vec::with_capacity(heap, 16)?;
    drop(one);
    drop(other);
    Ok((wall, last))
}

/// The sizes of two holes | whether a session can be allocated in them.
const HOLES: &[(usize, usize, bool)] = &[
    (0, 0, false),
    (512, 0, false),
    (512, 512, true),
    (496, 512, false),
    (512, 496, false),
    (1008, 0, false),
    (1024, 0, true),
    (0, 1024, true),
    (496, 1024, true),
];

/// Creates a session on a heap, with an operator's words or without.
fn session_in(heap: &LocalHeap, has_words: bool) -> Result<Session<&LocalHeap>, SessionError> {
    if has_words {
        return Session::with_words(heap, CONFIG, two_words());
    }
    Session::new(heap, CONFIG)
}

/// Checks that a session takes 1,024 bytes beside two walls of 16 bytes, or none if it is refused.
fn assert_taken(heap: &LocalHeap, has_words: bool, is_enough: bool) -> Result<(), Fail> {
    holds(heap.used() == 32, "two walls")?;
    match session_in(heap, has_words) {
        Ok(session) => {
            let is_new = session.phase() == Phase::WaitIm;
            holds(
                is_enough && is_new && heap.used() == 32 + 1024,
                "two bodies",
            )
        }
        Err(fault) => {
            let is_refused = !is_enough && fault == SessionError::Memory;
            holds(is_refused && heap.used() == 32, "nothing")
        }
    }
}

/// The same on a heap with two holes of these sizes.
fn assert_taken_of_holes(
    alloc: Global,
    first: usize,
    second: usize,
    is_enough: bool,
) -> Result<(), Fail> {
    let heap = LocalHeap::new(alloc, first.saturating_add(second).saturating_add(32))?;
    let walls = holes_of(&heap, first, second)?;
    assert_taken(&heap, false, is_enough)?;
    assert_taken(&heap, true, is_enough)?;
    drop(walls);
    Ok(())
}

#[test]
fn new_takes_two_bodies_and_no_byte_more(rt: HostRuntime) -> Result<(), Fail> {
    for (first, second, is_enough) in HOLES {
        assert_taken_of_holes(rt.alloc(), *first, *second, *is_enough)?;
    }
    Ok(())
}

/// All kinds of frames before a session's end: relayed messages, answers, an HLO, press, and the longest bodies.
#[rattlefmt::skip]
const TOLD: &[(Side, &str)] = &[
    (Bot, IM),
    (Server, RM),
    (Bot, "02 00 00 0E  48 0C 40 00 4B 61 40 01 40 00 4B 62 40 01"),
    (Bot, "02 00 00 04  48 03 40 00"),
    (Server, "02 00 00 0A  48 0E 40 00 47 00 07 6D 40 01"),
    (Server, "02 00 00 02  48 0F"),
    (Server, "02 00 00 1A  48 04 40 00 41 01 40 01 40 00 04 D2 40 01 40 00 40 00 49 03 00 0A 40 01 40 01"),
    (Bot, "02 00 00 1C  48 17 40 00 41 02 40 01 40 00 4A 13 40 00 4A 10 40 00 41 01 41 02 40 01 40 01 40 01"),
    // a message of 512 bytes: HUH and 255 times GOF, so that it has one token too many
    (Bot, "02 00 02 00  48 06  255*4803"),
    (Server, "02 00 02 00  48 06  255*4803"),
];

/// A session on a heap, which must stay as full as it is now, and the bytes that it sent.
#[derive(Drop)]
struct Watched<'a> {
    session: Session<&'a LocalHeap>,
    heap: &'a LocalHeap,
    used: usize,
    sent: Sent,
}

impl Watched<'_> {
    /// Feeds a side's bytes, and checks that no memory is allocated.
    fn hear(&mut self, side: Side, bytes: &[u8], piece: usize) -> Result<(), Fail> {
        self.sent.hear(&mut self.session, side, bytes, piece)?;
        holds(self.heap.used() == self.used, "memory is taken")
    }

    /// Feeds all frames in order, and checks that no memory is allocated.
    fn hear_all(&mut self, alloc: Global, piece: usize) -> Result<(), Fail> {
        for (side, text) in TOLD {
            let bytes = bytes_of(alloc, text)?;
            self.hear(*side, bytes.as_slice(), piece)?;
        }
        Ok(())
    }

    /// Ends the bot's stream, and checks that no memory is allocated.
    fn end(&mut self) -> Result<(), Fail> {
        self.session.ended(Bot);
        self.sent.deliver(&mut self.session)?;
        holds(self.session.phase() == Phase::Over, "the end")?;
        holds(self.heap.used() == self.used, "memory is taken at the end")
    }
}

/// Creates a session on a heap, which allocates two bodies.
fn watched_in(alloc: Global, heap: &LocalHeap) -> Result<Watched<'_>, Fail> {
    let session = Session::new(heap, CONFIG)?;
    let used = heap.used();
    Ok(Watched {
        session,
        heap,
        used,
        sent: Sent::none(alloc),
    })
}

/// Returns the bytes that a session on a heap sent up to its end. Checks that it allocated only its two bodies.
fn sent_over(alloc: Global, heap: &LocalHeap, piece: usize) -> Result<Sent, Fail> {
    let mut watched = watched_in(alloc, heap)?;
    watched.hear_all(alloc, piece)?;
    watched.end()?;
    same(&watched.used, &1024, &"two bodies")?;
    Ok(watched.sent)
}

/// The same on a heap of this size. If it has room only for the two bodies, it is full once the session is created.
fn sent_in(alloc: Global, bytes: usize, piece: usize) -> Result<Sent, Fail> {
    let heap = LocalHeap::new(alloc, bytes)?;
    sent_over(alloc, &heap, piece)
}

/// The number of bytes sent to both sides: the frames that are relayed, 512 + 8 + 4 bytes of HUH for each longest
/// message, and an FM.
const SENT: usize = 8 + 4 + 18 + 14 + 14 + 14 + 30 + 32 + 2 * 524 + 4;

/// Checks that the same bytes are sent on a large heap and on one that has room only for two bodies.
fn assert_sent_alike(alloc: Global, piece: usize) -> Result<(), Fail> {
    let want = sent_in(alloc, 65_536, piece)?;
    let sent = sent_in(alloc, 1024, piece)?;
    holds(sent.to(Bot) == want.to(Bot), "to the bot")?;
    holds(sent.to(Server) == want.to(Server), "to the server")?;
    let count = sent.to(Bot).len().saturating_add(sent.to(Server).len());
    holds(count == SENT, "how much")
}

#[test]
fn nothing_is_taken_after_new(rt: HostRuntime) -> Result<(), Fail> {
    for piece in PIECES {
        assert_sent_alike(rt.alloc(), *piece)?;
    }
    Ok(())
}

/// The IM, the RM and the bot's `GOF (`. The bytes that the bot gets follow: the RM and PRN ( GOF ( ).
const SAID: &[(Side, &[u8])] = &[
    (Bot, &[0, 0, 0, 4, 0, 1, 0xDA, 0x10]),
    (Server, &[1, 0, 0, 0]),
    (Bot, &[2, 0, 0, 4, 0x48, 0x03, 0x40, 0]),
];

const ANSWERED: &[u8] = &[
    1, 0, 0, 0, 2, 0, 0, 10, 0x48, 0x13, 0x40, 0, 0x48, 0x03, 0x40, 0, 0x40, 1,
];

/// Takes the bytes queued for both sides without storing them. Checks that the bot gets a prefix of `want`, and returns
/// the rest.
fn take_fronts<'a>(session: &mut Session, want: &'a [u8]) -> Result<&'a [u8], Fail> {
    let mut left = want;
    for _front in 0..4 {
        let front = session.front(Bot);
        let count = front.len();
        let (start, rest) = left.split_at(count.min(left.len()));
        holds(front == start, "what the bot gets")?;
        left = rest;
        session.wrote(Bot, count);
        let count = session.front(Server).len();
        session.wrote(Server, count);
    }
    Ok(left)
}

/// Feeds a side's bytes, one by one. Checks that the bot gets a prefix of `want`, and returns the rest.
fn say_bytes<'a>(
    session: &mut Session,
    side: Side,
    bytes: &[u8],
    want: &'a [u8],
) -> Result<&'a [u8], Fail> {
    let mut left = want;
    for byte in bytes {
        if session.room(side) > 0 {
            session.feed(side, &[*byte]);
        }
        left = take_fronts(session, left)?;
    }
    Ok(left)
}

/// Feeds the bytes of both sides, and checks that the bot gets all its answers.
fn say_all(session: &mut Session) -> Result<(), Fail> {
    let mut left = ANSWERED;
    for (side, bytes) in SAID {
        left = say_bytes(session, *side, bytes, left)?;
    }
    holds(left.is_empty(), "the bot gets all of it")
}

/// `rt try --test --fail-alloc N` refuses the Nth allocation of this test. The first and the second are the session's
/// own. The third is the test's, after all bytes were fed. So the session makes no allocation before or between them,
/// not even one that it frees at once. `scripts/refused-growths` runs the test in this way.
#[test]
fn third_growth_is_not_the_sessions(rt: HostRuntime) -> Result<(), Fail> {
    let mut session = Session::new(rt.alloc(), CONFIG)?;
    say_all(&mut session)?;
    let own = Vec::<u8>::with_capacity(rt.alloc(), 16);
    holds(own.is_ok(), "the test's own growth")
}
