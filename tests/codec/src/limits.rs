//! Settings with two limits at once: each pair of numbers, both at an end of their ranges or one step beyond it.
//!
//! The ranges, the defaults and the order of the keys are those of the table in docs/OPERATING.md, "Settings".

use daide_gate::settings::{Settings, read_settings};
use daide_test_support::rows::same;
use std::alloc::Global;
use std::test::Fail;

/// A key | its number if a document does not have it | the least and the greatest number | one below and one above.
type Limit = (&'static str, i64, [i64; 2], [i64; 2]);

/// The keys with a number, in the order of the checks.
#[rattlefmt::skip]
const LIMITS: &[Limit] = &[
    ("top_level", 60, [0, 60], [-1, 61]),
    ("max_body", 65_526, [512, 65_526], [511, 65_527]),
    ("max_depth", 62, [4, 254], [3, 255]),
    ("im_seconds", 30, [1, 3_600], [0, 3_601]),
    ("max_sessions", 16, [1, 256], [0, 257]),
    ("sessions", 1, [1, 1_000_000], [0, 1_000_001]),
    ("turns", 1_000_000_000, [1, 1_000_000_000_000], [0, 1_000_000_000_001]),
    ("idle_seconds", 0, [0, 86_400], [-1, 86_401]),
    ("stall_seconds", 60, [0, 86_400], [-1, 86_401]),
    ("max_per_address", 0, [0, 256], [-1, 257]),
    ("max_refused", 0, [0, 1_000_000], [-1, 1_000_001]),
];

/// A key of `LIMITS` by its index, with a number, and whether that is in its range.
type Setting = (usize, i64, bool);

/// Returns the settings of a key at both ends of its range and beyond them.
fn settings_of(index: usize) -> [Setting; 4] {
    let (_, _, [least, greatest], [below, above]) = LIMITS[index];
    [
        (index, least, true),
        (index, greatest, true),
        (index, below, false),
        (index, above, false),
    ]
}

/// Returns the numbers of settings, in the order of `LIMITS`.
fn numbers_of(alloc: Global, settings: &Settings) -> Result<String, Fail> {
    let config = settings.config;
    let (top_level, max_body, max_depth) = (config.top_level, config.max_body, config.max_depth);
    let (im_seconds, max_sessions) = (settings.im_seconds, settings.max_sessions);
    let (sessions, turns) = (settings.sessions, settings.turns);
    let (idle_seconds, stall_seconds) = (settings.idle_seconds, settings.stall_seconds);
    let (max_per_address, max_refused) = (settings.max_per_address, settings.max_refused);
    Ok(format!(in alloc;
        "{top_level} {max_body} {max_depth} {im_seconds} {max_sessions} {sessions} {turns} \
        {idle_seconds} {stall_seconds} {max_per_address} {max_refused} "
    )?)
}

/// Returns the defaults with two settings in their places.
fn numbers_with(alloc: Global, first: Setting, second: Setting) -> Result<String, Fail> {
    let mut text = String::new(alloc);
    for (index, (_, default, _, _)) in LIMITS.iter().enumerate() {
        let number = if index == first.0 {
            first.1
        } else if index == second.0 {
            second.1
        } else {
            *default
        };
        text.push_str(format!(in alloc; "{number} ")?.as_str())?;
    }
    Ok(text)
}

/// Returns what is expected of two settings, the first of which is checked first: the first fault, or all numbers.
fn wanted(alloc: Global, first: Setting, second: Setting) -> Result<String, Fail> {
    for (index, _, is_fitting) in [first, second] {
        if !is_fitting {
            let key = LIMITS[index].0;
            return Ok(format!(in alloc; "{key} out of range")?);
        }
    }
    numbers_with(alloc, first, second)
}

/// Checks a document with two settings, whose lines are in the other order.
fn assert_pair(alloc: Global, first: Setting, second: Setting) -> Result<(), Fail> {
    let (key, number) = (LIMITS[first.0].0, first.1);
    let (later_key, later_number) = (LIMITS[second.0].0, second.1);
    let text = format!(in alloc;
        "{later_key} = {later_number}\n{key} = {number}\nlisten = \"a:1\"\nserver = \"b:2\"\n"
    )?;
    let found = match read_settings(alloc, text.as_str()) {
        Ok(settings) => numbers_of(alloc, &settings)?,
        Err(fault) => fault.to_string(alloc)?,
    };
    let want = wanted(alloc, first, second)?;
    same(&found.as_str(), &want.as_str(), &text.as_str())
}

/// Checks each pair of numbers of two keys.
fn assert_pairs(alloc: Global, index: usize, later: usize) -> Result<(), Fail> {
    for first in settings_of(index) {
        for second in settings_of(later) {
            assert_pair(alloc, first, second)?;
        }
    }
    Ok(())
}

#[test]
fn each_pair_of_limits_at_its_ends(rt: HostRuntime) -> Result<(), Fail> {
    for later in 1..LIMITS.len() {
        for index in 0..later {
            assert_pairs(rt.alloc(), index, later)?;
        }
    }
    Ok(())
}
