//! The program's error messages, its exit status, and the hint to a person who types.

use daide_commands::answer;
use daide_commands::terminal::Asking;
use daide_gate::ServeFault;
use daide_gate::settings::{Key, SettingsError};
use daide_run::{GatewayFault, RunFault};
use daide_test_support::fakes::FailsAtWrite;
use daide_test_support::rows::{holds, same};
use std::alloc::AllocError;
use std::cell::Cell;
use std::fmt::Display;
use std::io;
use std::io::{Eprint, ErrorKind, IsTerminal, Read};
use std::test::Fail;

/// A fault of a run | its text.
#[rattlefmt::skip]
const FAULTS: &[(RunFault, &str)] = &[
    (RunFault::Memory, "out of memory"),
    (RunFault::Record(ErrorKind::PermissionDenied), "record could not be written"),
    (RunFault::Settings(SettingsError::Memory), "out of memory"),
    (RunFault::Gateway(GatewayFault::Listen(Key::Listen, ErrorKind::AddrInUse)), "cannot listen"),
    (RunFault::Gateway(GatewayFault::Name(Key::Server)), "unknown name"),
    (RunFault::Gateway(GatewayFault::Memory), "out of memory"),
    (
        RunFault::Gateway(GatewayFault::Serve(ServeFault::Memory)),
        "out of memory",
    ),
];

/// Returns whether the fault has this text.
fn has_text(rt: &HostRuntime, fault: &RunFault, text: &str) -> Result<bool, AllocError> {
    let told = fault.to_string(rt.alloc())?;
    Ok(told.as_str() == text)
}

#[test]
fn faults_of_a_run_have_their_texts(rt: HostRuntime) -> Result<(), Fail> {
    for (fault, text) in FAULTS {
        holds(has_text(&rt, fault, text)?, text)?;
    }
    Ok(())
}

/// Arguments with one fault each: of a run, of the input, of a known subcommand, and of an unknown one.
const FAULTY: &[&[&str]] = &[
    &["daide-gate", "run", "no-such-file"],
    &["daide-gate"],
    &["daide-gate", "check"],
    &["daide-gate", "check", "no-such-file"],
    &["daide-gate", "frame", "zzz"],
    &["daide-gate", "settings"],
    &["daide-gate", "settings", "no-such-file"],
    &["daide-gate", "show", "zz"],
    &["daide-gate", "show", "--side", "both"],
    &["daide-gate", "tell"],
];

/// Returns whether the program fails with these arguments if its standard error can't be written.
fn is_untold(rt: &HostRuntime, words: &[&str]) -> bool {
    let mut output = Vec::new(rt.alloc());
    let mut errors = FailsAtWrite {
        taken: Vec::new(rt.alloc()),
        writes: 0,
    };
    let ended = answer(rt, words, &mut b"".as_slice(), &mut output, &mut errors);
    ended.is_err()
}

/// A fault that can't be printed is an error of the program, with exit status 1, and never a success.
#[test]
fn fault_that_cannot_be_told_is_an_error(rt: HostRuntime) -> Result<(), Fail> {
    for words in FAULTY {
        same(&is_untold(&rt, words), &true, words)?;
    }
    Ok(())
}

/// An input that is a terminal, or is not.
#[derive(Drop)]
struct Typed {
    bytes: &'static [u8],
    is_terminal: bool,
}

impl Read for Typed {
    fn read(&mut self, buffer: &mut [u8]) -> io::Result<usize> {
        let count = self.bytes.len().min(buffer.len()).min(1);
        buffer[..count].copy_from_slice(&self.bytes[..count]);
        self.bytes = &self.bytes[count..];
        Ok(count)
    }
}

impl IsTerminal for Typed {
    fn is_terminal(&self) -> bool {
        self.is_terminal
    }
}

/// A standard error that counts its lines.
#[derive(Drop)]
struct Lines(Cell<u32>);

impl Eprint for Lines {
    fn eprint<D: Display + Drop>(&self, _value: D) -> io::Result<()> {
        Ok(())
    }

    fn eprintln<D: Display + Drop>(&self, _value: D) -> io::Result<()> {
        self.0.set(self.0.get().saturating_add(1));
        Ok(())
    }
}

/// Returns the number of lines printed before an input is read, and after it was read to its end.
fn told_of(is_terminal: bool) -> io::Result<(u32, u32)> {
    let lines = Lines(Cell::new(0));
    let typed = Typed {
        bytes: b"0g\n",
        is_terminal,
    };
    let mut input = Asking::new(&lines, typed);
    let before = lines.0.get();
    let mut byte = [0];
    for _ in 0..4 {
        input.read(&mut byte)?;
    }
    Ok((before, lines.0.get()))
}

/// If the input is a terminal, one line says what the program waits for, and only when it reads.
#[test]
fn hint_stands_at_a_terminal_only(_rt: HostRuntime) -> Result<(), Fail> {
    same(&told_of(true)?, &(0, 1), &"a terminal")?;
    same(&told_of(false)?, &(0, 0), &"no terminal")
}
