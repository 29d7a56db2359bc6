//! The settings of a run: the text of each fault, both ends of each range, and each wrong type.
//!
//! The expected lines are worked out from docs/FORMATS.md, "Settings".

use daide_gate::settings::{AddressRange, Host, Settings, may_come, read_settings};
use daide_grammar::level::Level;
use daide_protocol::config::Config;
use daide_test_support::rows::same;
use daide_token::token::Token;
use daide_words::{Operand, Slot, Word};
use std::alloc::Global;
use std::net::IpAddr;
use std::test::Fail;

/// The two lines that are required.
const ADDRESSES: &str = "listen = \"127.0.0.1:16713\"\nserver = \"127.0.0.1:16714\"\n";

/// A text | its fault, or empty if it has none.
type Row = (&'static str, &'static str);

/// A whole document | its fault.
#[rattlefmt::skip]
const DOCUMENTS: &[Row] = &[
    ("listen =", "settings are not TOML"),
    ("listen = \"a:1\"\nlisten = \"b\"", "settings are not TOML"),
    ("", "missing listen"),
    ("server = \"b:2\"", "missing listen"),
    ("listen = \"a:1\"", "missing server"),
    ("listen = \"a:1\"\nmax_depth = 255", "missing server"),
    ("listen = \"a:1\"\nserver = 1", "wrong type for server"),
    ("listen = 1\nserver = 1", "wrong type for listen"),
    ("listen = 1979-05-27\nserver = \"b:2\"", "wrong type for listen"),
    ("listen = \"\"\nserver = 1", "listen out of range"),
    ("listen = \"a:1\"\nserver = \"\"", "server out of range"),
    ("listen = \"a:1\"\nserver = \"b\"", "server out of range"),
    ("listen = \"a:1\"\nserver = \"b:\"", "server out of range"),
    ("listen = \"a:1\"\nserver = \":2\"", "server out of range"),
    ("listen = \"a:1\"\nserver = \"b:65535\"", ""),
    ("listen = \"a:1\"\nserver = \"b:65536\"", "server out of range"),
    ("listen = \"a:1\"\nserver = \"http://b:2\"", "server out of range"),
    ("listen = \"17030\"\nserver = \"b:2\"", "listen out of range"),
    ("depth = 5", "unknown key"),
    ("listen = 1\ndepth = 5", "unknown key"),
    ("[listen]\nport = 1", "wrong type for listen"),
    ("listen = \"a:1\"\nserver = \"b:2\"\n[word]", "unknown key"),
    ("listen = \"a:1\"\nserver = \"b:2\"\nmax_body = 511\nmax_depth = true", "max_body out of range"),
];

/// A line after the two addresses | its fault, if it has one.
#[rattlefmt::skip]
const LINES: &[Row] = &[
    ("top_level = 0", ""),
    ("top_level = 60", ""),
    ("top_level = 25", "top_level out of range"),
    ("top_level = 70", "top_level out of range"),
    ("top_level = -10", "top_level out of range"),
    ("top_level = 65536", "top_level out of range"),
    ("top_level = \"60\"", "wrong type for top_level"),
    ("max_body = 512", ""),
    ("max_body = 65526", ""),
    ("max_body = 510", "max_body out of range"),
    ("max_body = 513", "max_body out of range"),
    ("max_body = 65528", "max_body out of range"),
    ("max_body = 512.0", "wrong type for max_body"),
    ("max_depth = 4", ""),
    ("max_depth = 254", ""),
    ("max_depth = 3", "max_depth out of range"),
    ("max_depth = 255", "max_depth out of range"),
    ("max_depth = true", "wrong type for max_depth"),
    ("im_seconds = 1", ""),
    ("im_seconds = 3600", ""),
    ("im_seconds = 0", "im_seconds out of range"),
    ("im_seconds = 3601", "im_seconds out of range"),
    ("im_seconds = [30]", "wrong type for im_seconds"),
    ("max_sessions = 1", ""),
    ("max_sessions = 256", ""),
    ("max_sessions = 0", "max_sessions out of range"),
    ("max_sessions = 257", "max_sessions out of range"),
    ("max_sessions = 1979-05-27", "wrong type for max_sessions"),
    ("sessions = 1", ""),
    ("sessions = 1000000", ""),
    ("sessions = 0", "sessions out of range"),
    ("sessions = 1000001", "sessions out of range"),
    ("sessions = \"\"", "wrong type for sessions"),
    ("turns = 1", ""),
    ("turns = 1000000000000", ""),
    ("turns = 0", "turns out of range"),
    ("turns = 1000000000001", "turns out of range"),
    ("turns = 9223372036854775807", "turns out of range"),
    ("turns = {}", "wrong type for turns"),
    ("idle_seconds = 0", ""),
    ("idle_seconds = 86400", ""),
    ("idle_seconds = 86401", "idle_seconds out of range"),
    ("idle_seconds = -1", "idle_seconds out of range"),
    ("idle_seconds = 0.5", "wrong type for idle_seconds"),
    ("stall_seconds = 0", ""),
    ("stall_seconds = 86400", ""),
    ("stall_seconds = 86401", "stall_seconds out of range"),
    ("stall_seconds = -1", "stall_seconds out of range"),
    ("stall_seconds = \"60\"", "wrong type for stall_seconds"),
    ("endless = true", ""),
    ("endless = false", ""),
    ("endless = 1", "wrong type for endless"),
    ("endless = \"true\"", "wrong type for endless"),
    ("endless = 1\nstall_seconds = 86401", "stall_seconds out of range"),
    ("allow = [ \"127.0.0.0/8\" ]", ""),
    ("allow = [ \"0.0.0.0/0\", \"::/0\" ]", ""),
    ("allow = [ \"10.1.2.3\", \"2001:db8::/32\", \"::1\" ]", ""),
    ("allow = []", "allow out of range"),
    ("allow = [ \"127.0.0.0/33\" ]", "allow out of range"),
    ("allow = [ \"::1/129\" ]", "allow out of range"),
    ("allow = [ \"127.0.0.0/08\" ]", "allow out of range"),
    ("allow = [ \"127.0.0.0/008\" ]", "allow out of range"),
    ("allow = [ \"::1/064\" ]", "allow out of range"),
    ("allow = [ \"::ffff:127.0.0.1\" ]", "allow out of range"),
    ("allow = [ \"localhost\" ]", "allow out of range"),
    ("allow = [ \"127.0.0.1\", \"\" ]", "allow out of range"),
    ("allow = \"127.0.0.1\"", "wrong type for allow"),
    ("allow = [ \"x\", 1 ]", "wrong type for allow"),
    ("allow = 1\nendless = 1", "wrong type for endless"),
    ("max_per_address = 0", ""),
    ("max_per_address = 256", ""),
    ("max_per_address = 257", "max_per_address out of range"),
    ("max_per_address = true", "wrong type for max_per_address"),
    ("max_per_address = 257\nallow = []", "allow out of range"),
    ("max_refused = 0", ""),
    ("max_refused = 1000000", ""),
    ("max_refused = 1000001", "max_refused out of range"),
    ("max_refused = \"9\"", "wrong type for max_refused"),
    ("max_refused = -1\nmax_per_address = 257", "max_per_address out of range"),
    ("control = \"\"\nmax_refused = -1", "max_refused out of range"),
    ("control = \"c\"", ""),
    ("control = \"\"", "control out of range"),
    ("control = 1", "wrong type for control"),
    ("control = [ \"c\" ]", "wrong type for control"),
    ("control = \"\"\nmax_per_address = 257", "max_per_address out of range"),
    ("top_level = 0x3C", ""),
    ("max_depth = 6_2", ""),
    ("turns = -1", "turns out of range"),
    ("turns = 1\nsessions = 0", "sessions out of range"),
    ("turns = 1.5\nsessions = 0", "sessions out of range"),
    ("sessions = 1.5\nturns = 0", "wrong type for sessions"),
    ("listening = 1", "unknown key"),
    ("Turns = 1", "unknown key"),
    ("# nothing else", ""),
];

/// The value of `words` | its fault, if it has one.
#[rattlefmt::skip]
const WORDS: &[Row] = &[
    ("[]", ""),
    ("[ { name = \"XYZ\", code = 0x4A40, slot = \"press\", level = 20, operand = \"power\" } ]", ""),
    ("[ { operand = \"power\", level = 20, slot = \"press\", code = 19008, name = \"XYZ\" } ]", ""),
    ("1", "wrong type for words"),
    ("{}", "wrong type for words"),
    ("[ 1 ]", "wrong type for words"),
    ("[ {} ]", "wrong type for words"),
    ("[ { name = \"XYZ\", code = 0x4A40, slot = \"press\", level = 20 } ]", "wrong type for words"),
    ("[ { name = \"XYZ\", code = 0x4A40, slot = \"press\", level = 20, operand = \"power\", side = 1 } ]", "wrong type for words"),
    ("[ { name = 1, code = 0x4A40, slot = \"press\", level = 20, operand = \"power\" } ]", "wrong type for words"),
    ("[ { name = \"XYZ\", code = \"4A40\", slot = \"press\", level = 20, operand = \"power\" } ]", "wrong type for words"),
    ("[ { name = \"XYZ\", code = 0x4A40, slot = 0, level = 20, operand = \"power\" } ]", "wrong type for words"),
    ("[ { name = \"XYZ\", code = 0x4A40, slot = \"press\", level = \"20\", operand = \"power\" } ]", "wrong type for words"),
    ("[ { name = \"XYZ\", code = 0x4A40, slot = \"press\", level = 20, operand = [] } ]", "wrong type for words"),
    ("[ { name = \"XYZ\", code = 0x4A40, slot = \"pres\", level = 20, operand = \"power\" } ]", "words out of range"),
    ("[ { name = \"XYZ\", code = 0x4A40, slot = \"press\", level = 20, operand = \"province\" } ]", "words out of range"),
    ("[ { name = \"XYZ\", code = 0x4A40, slot = \"press\", level = 25, operand = \"power\" } ]", "words out of range"),
    ("[ { name = \"XYZ\", code = 0x4A40, slot = \"press\", level = 65556, operand = \"power\" } ]", "words out of range"),
    ("[ { name = \"XYZ\", code = 0x4A40, slot = \"press\", level = 0, operand = \"power\" } ]", "words out of range"),
    ("[ { name = \"XYZW\", code = 0x4A40, slot = \"press\", level = 20, operand = \"power\" } ]", "words out of range"),
    ("[ { name = \"GOF\", code = 0x4A40, slot = \"press\", level = 20, operand = \"power\" } ]", "words out of range"),
    ("[ { name = \"XYZ\", code = 0x4A10, slot = \"press\", level = 20, operand = \"power\" } ]", "words out of range"),
    ("[ { name = \"XYZ\", code = 84544, slot = \"press\", level = 20, operand = \"power\" } ]", "words out of range"),
    ("[ { name = \"XYZ\", code = -1, slot = \"press\", level = 20, operand = \"power\" } ]", "words out of range"),
    ("[ { name = \"XYZ\", code = 0x4A40, slot = \"arrangement\", level = 20, operand = \"press\" } ]", "words out of range"),
    // the types of all words are checked before any range
    ("[ { name = \"XYZ\", code = 0x4A40, slot = \"pres\", level = 20, operand = \"power\" }, { name = \"QQQ\" } ]", "wrong type for words"),
    // one name twice
    ("[ { name = \"XYZ\", code = 0x4A40, slot = \"press\", level = 20, operand = \"power\" }, { name = \"XYZ\", code = 0x4A41, slot = \"press\", level = 20, operand = \"power\" } ]", "words out of range"),
];

/// Lines with words | their fault: words are checked before `stall_seconds` and the keys after it.
const BESIDE_WORDS: &[Row] = &[
    ("turns = 0\nwords = 1", "turns out of range"),
    (
        "words = 1\nidle_seconds = 86401",
        "idle_seconds out of range",
    ),
    (
        "words = [ { name = \"XYZ\" } ]\nturns = 0",
        "turns out of range",
    ),
    ("stall_seconds = 86401\nwords = 1", "wrong type for words"),
    ("endless = 1\nwords = 1", "wrong type for words"),
];

/// Seventeen words, each of which would be accepted after those before it.
const SEVENTEEN: &str = "words = [
    { name = 'QQA', code = 0x4A50, slot = 'press', level = 20, operand = 'power' },
    { name = 'QQB', code = 0x4A51, slot = 'press', level = 20, operand = 'power' },
    { name = 'QQC', code = 0x4A52, slot = 'press', level = 20, operand = 'power' },
    { name = 'QQD', code = 0x4A53, slot = 'press', level = 20, operand = 'power' },
    { name = 'QQE', code = 0x4A54, slot = 'press', level = 20, operand = 'power' },
    { name = 'QQF', code = 0x4A55, slot = 'press', level = 20, operand = 'power' },
    { name = 'QQG', code = 0x4A56, slot = 'press', level = 20, operand = 'power' },
    { name = 'QQH', code = 0x4A57, slot = 'press', level = 20, operand = 'power' },
    { name = 'QQI', code = 0x4A58, slot = 'press', level = 20, operand = 'power' },
    { name = 'QQJ', code = 0x4A59, slot = 'press', level = 20, operand = 'power' },
    { name = 'QQK', code = 0x4A5A, slot = 'press', level = 20, operand = 'power' },
    { name = 'QQL', code = 0x4A5B, slot = 'press', level = 20, operand = 'power' },
    { name = 'QQM', code = 0x4A5C, slot = 'press', level = 20, operand = 'power' },
    { name = 'QQN', code = 0x4A5D, slot = 'press', level = 20, operand = 'power' },
    { name = 'QQO', code = 0x4A5E, slot = 'press', level = 20, operand = 'power' },
    { name = 'QQP', code = 0x4A5F, slot = 'press', level = 20, operand = 'power' },
    { name = 'QQQ', code = 0x4A60, slot = 'press', level = 20, operand = 'power' },
    ]";

/// Returns the line of a text's fault, or an empty text if it has none.
fn fault_of(alloc: Global, text: &str) -> Result<String, Fail> {
    match read_settings(alloc, text) {
        Ok(_) => Ok(String::new(alloc)),
        Err(fault) => Ok(fault.to_string(alloc)?),
    }
}

/// Checks that the front and the text together have this fault.
fn assert_fault(alloc: Global, front: &str, text: &str, want: &str) -> Result<(), Fail> {
    let mut whole = String::from_str(alloc, front)?;
    whole.push_str(text)?;
    whole.push_str("\n")?;
    let fault = fault_of(alloc, whole.as_str())?;
    same(&fault.as_str(), &want, &text)
}

/// Checks each row: a text after this front, and its fault.
fn assert_faults(alloc: Global, front: &str, rows: &[Row]) -> Result<(), Fail> {
    for (text, fault) in rows {
        assert_fault(alloc, front, text, fault)?;
    }
    Ok(())
}

#[test]
fn settings_faults_in_order(rt: HostRuntime) -> Result<(), Fail> {
    assert_faults(rt.alloc(), "", DOCUMENTS)?;
    assert_faults(rt.alloc(), ADDRESSES, LINES)
}

/// The two lines that are required, and the key of the words.
const ADDRESSES_AND_WORDS: &str =
    "listen = \"127.0.0.1:16713\"\nserver = \"127.0.0.1:16714\"\nwords = ";

#[test]
fn shape_of_all_words_before_their_range(rt: HostRuntime) -> Result<(), Fail> {
    assert_faults(rt.alloc(), ADDRESSES_AND_WORDS, WORDS)?;
    assert_faults(rt.alloc(), ADDRESSES, BESIDE_WORDS)?;
    assert_fault(rt.alloc(), ADDRESSES, SEVENTEEN, "words out of range")
}

/// Returns the rest of an address whose host has `count` bytes, and the end of its line.
fn address_of(alloc: Global, count: usize) -> Result<String, Fail> {
    let mut address = String::new(alloc);
    for _ in 0..count {
        address.push('a')?;
    }
    address.push_str(":1\"")?;
    Ok(address)
}

#[test]
fn addresses_of_255_bytes_and_one_more(rt: HostRuntime) -> Result<(), Fail> {
    let front = "listen = \"a:1\"\nserver = \"";
    let longest = address_of(rt.alloc(), 253)?;
    assert_fault(rt.alloc(), front, longest.as_str(), "")?;
    let longer = address_of(rt.alloc(), 254)?;
    assert_fault(rt.alloc(), front, longer.as_str(), "server out of range")
}

/// Checks the addresses, the limits and the time of a session, the limits of a run, and the number of words.
fn assert_settings(
    settings: &Settings,
    addresses: (&str, &str),
    limits: (Config, u32),
    run: (usize, u32, u64, u32, u32, bool, u16, u32),
    words: usize,
) -> Result<(), Fail> {
    let are_there = (settings.listen.as_str(), settings.server.as_str());
    let of_run = (
        settings.max_sessions,
        settings.sessions,
        settings.turns,
        settings.idle_seconds,
        settings.stall_seconds,
        settings.endless,
        settings.max_per_address,
        settings.max_refused,
    );
    let of_session = (settings.config, settings.im_seconds);
    let told = (are_there, of_session, of_run);
    same(&told, &(addresses, limits, run), &"addresses and limits")?;
    same(&settings.words.names().len(), &words, &"words")
}

/// The limits if none are given.
const DEFAULTS: Config = Config {
    top_level: 60,
    max_body: 65_526,
    max_depth: 62,
};

#[test]
fn two_addresses_give_the_defaults(rt: HostRuntime) -> Result<(), Fail> {
    let settings = read_settings(rt.alloc(), ADDRESSES)?;
    let addresses = ("127.0.0.1:16713", "127.0.0.1:16714");
    let run = (16, 1, 1_000_000_000, 0, 60, false, 0, 0);
    assert_settings(&settings, addresses, (DEFAULTS, 30), run, 0)?;
    same(&settings.control.is_none(), &true, &"no control")?;
    let everyone = [in_range(Host::V4(0), 0), in_range(Host::V6(0), 0)];
    same(
        &settings.allow.as_slice(),
        &everyone.as_slice(),
        &"everyone",
    )
}

/// Returns a range of addresses.
fn in_range(host: Host, prefix: u8) -> AddressRange {
    AddressRange { host, prefix }
}

/// Each key with a value of its own, in reverse order.
const EACH_KEY: &str =
    "control = \"c\"\nmax_refused = 11\nmax_per_address = 10\nallow = [ \"127.0.0.0/8\", \"::1\" ]\nendless = true\nstall_seconds = 9\nwords = [ { name = \"XYZ\", code = 0x4A40, slot = \"press\", level = 20, operand = \"power\" } ]\n\
    idle_seconds = 8\nturns = 7\nsessions = 6\nmax_sessions = 5\nim_seconds = 4\nmax_depth = 13\nmax_body = 1024\n\
    top_level = 20\nserver = \"s:2\"\nlisten = \"l:1\"\n";

/// The limits of a session in `EACH_KEY`.
const OWN_LIMITS: Config = Config {
    top_level: 20,
    max_body: 1024,
    max_depth: 13,
};

#[test]
fn each_key_sets_its_own_field(rt: HostRuntime) -> Result<(), Fail> {
    let settings = read_settings(rt.alloc(), EACH_KEY)?;
    let run = (5, 6, 7, 8, 9, true, 10, 11);
    assert_settings(&settings, ("l:1", "s:2"), (OWN_LIMITS, 4), run, 1)?;
    let control = settings.control.as_ref().map(|path| path.as_str());
    same(&control, &Some("c"), &"control")?;
    let word = Word {
        name: *b"XYZ",
        code: Token::from_code(0x4A40),
        slot: Slot::Press,
        level: Level::L20,
        operand: Operand::Power,
    };
    same(&settings.words.get(0), &Some(word), &"the word")?;
    let home = [
        in_range(Host::V4(0x7F00_0000), 8),
        in_range(Host::V6(1), 128),
    ];
    same(&settings.allow.as_slice(), &home.as_slice(), &"ranges")?;
    same(&comes(&settings, [127, 0, 0, 1]), &true, &"a bot at home")?;
    same(
        &comes(&settings, [128, 0, 0, 1]),
        &false,
        &"a bot from elsewhere",
    )
}

/// Returns true if a bot at an IPv4 address may come while nine from it are there.
fn comes(settings: &Settings, octets: [u8; 4]) -> bool {
    let host = Host::of(IpAddr::from(octets));
    may_come(
        settings.allow.as_slice(),
        settings.max_per_address,
        &[host; 9],
        host,
    )
}
