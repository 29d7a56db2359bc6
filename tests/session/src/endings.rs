//! How sessions end, and their counts.

use crate::script::{Act, IM, Look, RM, WIDEST, assert_acts, script_of};
use daide_frame::code::Code;
use daide_frame::side::Side::{Bot, Server};
use daide_session::session::Ending;
use std::alloc::Global;
use std::test::Fail;

/// A message of a bot. The next ones are one with an unclosed bracket, and one that is valid from neither side.
const OBS: &str = "02 00 00 02 480F";

const UNCLOSED: &str = "02 00 00 04 4803 4000";

const NO_MESSAGE: &str = "02 00 00 02 4806";

/// The size of a piece that has any frame whole.
const WHOLE: usize = 65_530;

const FM: &str = "03 00 00 00";

const EM: &str = "04 00 00 02 00 09";

/// A session that relayed three frames, and answered one with PRN and two with HUH.
const AT_WORK: &[Act] = &[
    Act::Sees(Look::Ending(None, [0, 0, 0, 0])),
    Act::Says(Bot, IM),
    Act::Says(Server, RM),
    Act::Says(Bot, OBS),
    Act::Says(Bot, UNCLOSED),
    Act::Says(Bot, NO_MESSAGE),
    Act::Says(Server, NO_MESSAGE),
    Act::Sees(Look::Ending(None, [3, 1, 2, 0])),
];

/// Events that could have ended the session, after it is over.
const LATER: &[Act] = &[
    Act::ImTimerExpired,
    Act::Says(Bot, FM),
    Act::Says(Server, EM),
    Act::Loses(Bot),
    Act::Ends(Server),
    Act::Ends(Bot),
    Act::Loses(Server),
    Act::OperatorStops,
];

/// The event that ends the session | its ending | its counts.
const ENDINGS: &[(Act, Ending, [u64; 4])] = &[
    (Act::Ends(Bot), Ending::Ended(Bot), [3, 1, 2, 0]),
    (Act::Ends(Server), Ending::Ended(Server), [3, 1, 2, 0]),
    (Act::Loses(Bot), Ending::Lost(Bot), [3, 1, 2, 0]),
    (Act::Loses(Server), Ending::Lost(Server), [3, 1, 2, 0]),
    (Act::Says(Bot, FM), Ending::Final(Bot), [4, 1, 2, 0]),
    (Act::Says(Server, FM), Ending::Final(Server), [4, 1, 2, 0]),
    (Act::Says(Bot, EM), Ending::Error(Bot), [4, 1, 2, 0]),
    (Act::Says(Server, EM), Ending::Error(Server), [4, 1, 2, 0]),
    (
        Act::Says(Bot, "00 00 00 04"),
        Ending::Fault(Bot, Code::SecondIm),
        [3, 1, 2, 1],
    ),
    (
        Act::Says(Server, "01 00 00 00"),
        Ending::Fault(Server, Code::SecondRm),
        [3, 1, 2, 1],
    ),
    (Act::OperatorStops, Ending::Stopped, [3, 1, 2, 0]),
];

/// Checks the ending and the counts after an event, and that later events do not change them.
fn assert_end(alloc: Global, row: &(Act, Ending, [u64; 4])) -> Result<(), Fail> {
    let (ends, ending, counts) = *row;
    let sees = Act::Sees(Look::Ending(Some(ending), counts));
    let mut script = script_of(alloc, WIDEST)?;
    script.play_all(alloc, AT_WORK, WHOLE)?;
    script.play(alloc, ends, WHOLE)?;
    script.play(alloc, sees, WHOLE)?;
    script.play_all(alloc, LATER, WHOLE)?;
    script.play(alloc, sees, WHOLE)
}

#[test]
fn first_event_that_ends_a_session_is_told(rt: HostRuntime) -> Result<(), Fail> {
    for row in ENDINGS {
        assert_end(rt.alloc(), row)?;
    }
    Ok(())
}

/// Before the IM: the timer, a stop, and an FM that is dropped and not counted.
const FIRST: &[&[Act]] = &[
    &[
        Act::ImTimerExpired,
        Act::Sees(Look::Ending(Some(Ending::Fault(Bot, Code::ImTimeout)), [0, 0, 0, 1])),
        Act::Ends(Bot),
        Act::Sees(Look::Ending(Some(Ending::Fault(Bot, Code::ImTimeout)), [0, 0, 0, 1])),
    ],
    &[
        Act::OperatorStops,
        Act::Sees(Look::Ending(Some(Ending::Stopped), [0, 0, 0, 0])),
        Act::ImTimerExpired,
        Act::Sees(Look::Ending(Some(Ending::Stopped), [0, 0, 0, 0])),
    ],
    &[
        Act::Says(Bot, FM),
        Act::Sees(Look::Ending(Some(Ending::Final(Bot)), [0, 0, 0, 0])),
    ],
    &[
        Act::Says(Server, EM),
        Act::Sees(Look::Ending(Some(Ending::Error(Server)), [1, 0, 0, 0])),
    ],
];

#[test]
fn sessions_that_end_before_the_im(rt: HostRuntime) -> Result<(), Fail> {
    for acts in FIRST {
        assert_acts(rt.alloc(), WIDEST, acts)?;
    }
    Ok(())
}
