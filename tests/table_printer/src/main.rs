//! Prints the entries that the plain table returns. `scripts/print-table` makes the text of the grammar's constant table
//! from them.
//!
//! With the argument `answers`, it prints one line for each symbol and class unless the entry is a Stop: their numbers,
//! `skip` or `take`, and the numbers of the symbols that follow. With the argument `classes`, it prints one line for
//! each token: its code and the number of its class. Nothing here is trusted: the check of `daide_grammar` compares
//! each cell of the constant table with the definitions.
#![tactic(auto)]

use daide_grammar::column::Column;
use daide_grammar::meaning::Meaning;
use daide_grammar::numbers::{OWN_CLASSES, SYMBOL_COUNT};
use daide_grammar::plain::meaning_of;
use daide_grammar::symbol::Symbol;
use daide_token::token::Token;
use std::alloc::{AllocError, Global};
use std::{env, io};

/// Writes the line of an entry, unless it is a Stop.
fn write_answer(text: &mut String, symbol: Symbol, class: Column) -> Result<(), AllocError> {
    let (number, column) = (symbol.number(), class.number());
    match meaning_of(symbol.sym(), class.class()) {
        Meaning::Stop => Ok(()),
        Meaning::Skip => writeln!(text, "{number} {column} skip"),
        Meaning::Take(rest) => {
            write!(text, "{number} {column} take")?;
            for sym in rest.as_slice() {
                let next = Symbol::named(*sym).number();
                write!(text, " {next}")?;
            }
            text.push('\n')
        }
    }
}

/// Returns the entries of the plain table, at all classes except an operator's words.
fn answers(alloc: Global) -> Result<String, AllocError> {
    let mut text = String::new(alloc);
    for symbol in 0..SYMBOL_COUNT {
        for class in 0..OWN_CLASSES {
            write_answer(&mut text, Symbol::of(symbol as u8), Column::of(class as u8))?;
        }
    }
    Ok(text)
}

/// Returns the class of each token.
fn classes(alloc: Global) -> Result<String, AllocError> {
    let mut text = String::new(alloc);
    for code in 0..=u16::MAX {
        let number = Token::from_code(code).class().number();
        writeln!(text, "{code} {number}")?;
    }
    Ok(text)
}

fn main(rt: HostRuntime) -> io::Result<()> {
    for word in env::args(&rt)? {
        let text = match word.as_str() {
            "answers" => answers(rt.alloc())?,
            "classes" => classes(rt.alloc())?,
            _ => String::new(rt.alloc()),
        };
        print!(rt; "{text}")?;
    }
    Ok(())
}
