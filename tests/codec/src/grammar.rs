//! Values that no contract states, each public call once, and a test that moves are small.

use daide_grammar::column::Column;
use daide_grammar::dense::Dense;
use daide_grammar::level::Level;
use daide_grammar::meaning::Rest;
use daide_grammar::plain::Plain;
use daide_grammar::predict::{Move, Predict};
use daide_grammar::side::Side2;
use daide_grammar::symbol::{Sym, Symbol};
use daide_test_support::rows::same;
use daide_token::class::Class;
use daide_token::token::Token;
use daide_words::{Extended, Words};
use std::mem::size_of;
use std::test::Fail;

/// The numbers of all levels. The numbers after them are of no level.
const LEVELS: &[u16] = &[0, 10, 20, 30, 40, 50, 60];

const NO_LEVELS: &[u16] = &[1, 9, 65, 70, 65535];

/// Checks that a number is that of a level.
fn check_level(number: u16) -> Result<(), Fail> {
    match Level::of(number) {
        Some(level) => same(&level.number(), &number, &number),
        None => Err(Fail::new(number)),
    }
}

#[test]
fn levels_have_their_numbers(_rt: HostRuntime) -> Result<(), Fail> {
    for number in LEVELS {
        check_level(*number)?;
    }
    for number in NO_LEVELS {
        same(&Level::of(*number), &None, number)?;
    }
    Ok(())
}

/// The number in an HLO | the top level | the level that is set.
const HLO_LEVELS: &[(i16, Level, Level)] = &[
    (8191, Level::L60, Level::L60),
    (60, Level::L30, Level::L30),
    (25, Level::L60, Level::L20),
    (10, Level::L10, Level::L10),
    (9, Level::L60, Level::L0),
    (0, Level::L60, Level::L0),
    (-1, Level::L60, Level::L0),
    (-8192, Level::L10, Level::L0),
    (60, Level::L0, Level::L0),
];

#[test]
fn level_of_an_hlo_is_the_greatest_allowed(_rt: HostRuntime) -> Result<(), Fail> {
    for (number, top, want) in HLO_LEVELS {
        same(&Level::of_lvl(*number, *top), want, number)?;
    }
    Ok(())
}

/// Returns whether a move is an error entry, whether it takes the class, and the number of symbols that it pushes.
fn seen(answer: &Move) -> (bool, bool, usize) {
    (answer.is_stop(), answer.is_take(), answer.len())
}

/// Returns whether a table has the start symbols of a client and of a server.
fn are_starts<T: Predict>(table: &mut T) -> (bool, bool) {
    let client = table.start(Side2::Client, Level::L0);
    let server = table.start(Side2::ServerEnd, Level::L60);
    (
        matches!(client.sym(), Sym::Client(Level::L0)),
        matches!(server.sym(), Sym::Server(Level::L60)),
    )
}

/// Returns a table's class of OBS, its move for OBS at the start, and whether a bracket is an error there.
fn obs_at_start<T: Predict>(table: &mut T) -> (Class, (bool, bool, usize), bool) {
    let client = table.start(Side2::Client, Level::L0);
    let obs = table.class_of(Token::from_code(0x480F));
    let answer = table.predict(client, obs);
    let bracket = table.predict(client, Column::named(Class::Ket));
    (obs.class(), seen(&answer), bracket.is_stop())
}

/// Returns a table's entries for TME. They are the move at the start; whether the next symbol is an optional number,
/// takes a bracket, or has an error entry for it; and whether the message may end before the number, and an HST before
/// its turn.
fn tme_at_start<T: Predict>(
    table: &mut T,
) -> ((bool, bool, usize), (bool, bool, bool), (bool, bool)) {
    let client = table.start(Side2::Client, Level::L0);
    let answer = table.predict(client, Column::named(Class::Tme));
    let number = answer.cells()[0];
    let is_number = matches!(number.sym(), Sym::MaybeNumberGroup);
    let left_out = table.predict(number, Column::named(Class::Ket));
    let may_end = table.may_end(number);
    (
        seen(&answer),
        (is_number, left_out.is_take(), left_out.is_stop()),
        (may_end, table.may_end(Symbol::named(Sym::TurnGroup))),
    )
}

/// Checks some known cells of any table, and the number of look-ups.
fn answers_and_counts<T: Predict>(table: &mut T) -> Result<(), Fail> {
    same(&are_starts(table), &(true, true), &"the start")?;
    // OBS is a complete message, and nothing may follow it.
    let obs = obs_at_start(table);
    same(&obs, &(Class::Obs, (false, true, 0), true), &"OBS")?;
    // TME is complete without a number; HST is not complete without a turn.
    let tme = tme_at_start(table);
    let want = ((false, true, 1), (true, false, false), (true, false));
    same(&tme, &want, &"TME, and HST")?;
    same(&table.asked(), &6, &"asked")
}

#[test]
fn plain_answers_and_counts(_rt: HostRuntime) -> Result<(), Fail> {
    answers_and_counts(&mut Plain::new())
}

#[test]
fn dense_answers_and_counts(_rt: HostRuntime) -> Result<(), Fail> {
    answers_and_counts(&mut Dense::new())
}

#[test]
fn extended_answers_and_counts(_rt: HostRuntime) -> Result<(), Fail> {
    answers_and_counts(&mut Extended::new(Words::new()))
}

#[test]
fn rests_tell_their_symbols(_rt: HostRuntime) -> Result<(), Fail> {
    let rest = Rest::of([
        Sym::OneUnit,
        Sym::Closing,
        Sym::OrderTail,
        Sym::Closing,
        Sym::Orders,
    ]);
    let is_told = matches!(
        rest.as_slice(),
        [
            Sym::OneUnit,
            Sym::Closing,
            Sym::OrderTail,
            Sym::Closing,
            Sym::Orders
        ]
    );
    let none = Rest::of([]).as_slice().len();
    same(&(is_told, none), &(true, 0), &"five symbols, and none")
}

#[test]
fn answers_are_small(_rt: HostRuntime) -> Result<(), Fail> {
    let symbol = size_of::<Symbol>();
    let sizes = (symbol, size_of::<Column>(), size_of::<Move>());
    let word = size_of::<usize>();
    same(
        &sizes,
        &(1, word, 2 * word),
        &"a symbol, a column, an answer",
    )
}
