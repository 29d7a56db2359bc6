//! Tests of the libraries below a session, and of those that parse text: the worked examples of verdicts in
//! docs/EXAMPLES.md, each rule of the grammar, tables of known values, and each public call once on its successful
//! path.
//!
//! Contracts are proved, not tested. These tests compare the definitions with verdicts and bytes that were worked out
//! from the protocol.

#[cfg(test)]
mod added;
#[cfg(test)]
mod explained;
#[cfg(test)]
mod frame;
#[cfg(test)]
mod grammar;
#[cfg(test)]
mod judging;
#[cfg(test)]
mod limits;
#[cfg(test)]
mod log;
#[cfg(test)]
mod messages;
#[cfg(test)]
mod parts;
#[cfg(test)]
mod powers;
#[cfg(test)]
mod ranges;
#[cfg(test)]
mod rules;
#[cfg(test)]
mod settings;
#[cfg(test)]
mod token;
#[cfg(test)]
mod typed;
#[cfg(test)]
mod verdicts;
#[cfg(test)]
mod words;
