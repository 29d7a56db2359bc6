//! Runs of a simulation, one after the other.

use crate::lines::Lines;
use crate::network::{MemoryNetwork, World};
use crate::observed::ObservedSockets;
use crate::operator::Operator;
use crate::random::Random;
use crate::state::{Fault, RunTimes, State, Tally};
use crate::style::Company;
use crate::wire::Snapshot;
use daide_buffered_io::pool::Pool;
use daide_event_loop::serve;
use daide_event_loop::serving::ServeFault;
use daide_settings::{Settings, read_settings};
use daide_sockets::bound_sockets::sockets_on;
use daide_sockets::table::SocketTable;
use linked_list_allocator::LocalHeap;
use std::alloc::Global;
use std::cell::RefCell;
use std::io;
use std::io::{ErrorKind, Write};
use std::net::SocketAddr;

/// The most polls of one run.
const MOST_POLLS: u64 = 20_000;

/// Returns the settings of a run in this company.
fn settings_of(alloc: Global, company: Company, random: &mut Random) -> io::Result<Settings> {
    let (max, sessions) = company.counts(random);
    let im = random.between(1, 40);
    let idle = random.between(1, 20);
    let stall = random.between(1, 20);
    let body = random.between(256, 8_000).saturating_mul(2);
    let turns = if random.one_in(5) {
        random.between(1, 2_000)
    } else {
        1_000_000_000
    };
    let first = format!(in alloc; "listen = 'a:1'\nserver = 'b:1'\nmax_sessions = {max}\n")?;
    let second = format!(in alloc; "sessions = {sessions}\nim_seconds = {im}\nturns = {turns}\n")?;
    let third = format!(in alloc; "idle_seconds = {idle}\nstall_seconds = {stall}\n")?;
    let fourth = format!(in alloc; "max_body = {body}\n")?;
    let text = format!(in alloc; "{first}{second}{third}{fourth}")?;
    match read_settings(alloc, text.as_str()) {
        Ok(settings) => Ok(settings),
        Err(_) => Err(ErrorKind::InvalidInput.into()),
    }
}

/// Returns a time of the settings in milliseconds.
fn millis(seconds: u32) -> u64 {
    u64::from(seconds).saturating_mul(1_000)
}

/// Returns the times of the settings.
fn rules_of(settings: &Settings) -> RunTimes {
    RunTimes {
        im: millis(settings.im_seconds),
        idle: millis(settings.idle_seconds),
        stall: millis(settings.stall_seconds),
        max_sessions: settings.max_sessions,
        sessions: settings.sessions,
        turns: settings.turns,
    }
}

/// How a run ended.
#[derive(Clone, Copy, PartialEq, Eq)]
enum RunEnd {
    /// All bots were served.
    Served,
    /// Memory was refused.
    OutOfMemory,
    /// It never began, or was given up for another cause.
    GivenUp,
}

/// Returns how a run ended, by its result.
fn end_of(served: Result<(), ServeFault>) -> RunEnd {
    match served {
        Ok(()) => RunEnd::Served,
        Err(ServeFault::Memory) => RunEnd::OutOfMemory,
        Err(ServeFault::RoundsSpent) => RunEnd::GivenUp,
    }
}

/// Makes a run over this network, with these rows. The places and bodies of its sessions are on a heap of this size, if
/// one is named. Returns how it ended.
fn run_on(
    alloc: Global,
    settings: &Settings,
    resources: (MemoryNetwork<'_>, &[SocketAddr], SocketTable, &Pool),
    heap: Option<&LocalHeap>,
) -> RunEnd {
    let world = resources.0.world;
    let lines = Lines::new(alloc, world);
    let Some(mut sockets) = sockets_on(alloc, settings, resources, lines) else {
        return RunEnd::GivenUp;
    };
    sockets.set_verbose(true);
    let mut system = ObservedSockets::new(alloc, settings, world, sockets);
    let served = match heap {
        Some(heap) => serve(heap, settings, &mut system),
        None => serve(alloc, settings, &mut system),
    };
    system.finish();
    end_of(served)
}

/// Notes what is left of a run: wires, or a session that was dropped before its end.
fn check_rest(state: &mut State, end: RunEnd) {
    state.is_over = false;
    if state.fault.is_some() {
        return;
    }
    if state.live > 0 {
        state.fail("a wire is left behind the run", 0);
    }
    let is_refused = end == RunEnd::OutOfMemory;
    if end == RunEnd::GivenUp || is_refused && !state.refuses {
        state.fail("the run ended early", 0);
    }
    if state.has_dropped && !is_refused {
        state.fail("a wire was dropped although no memory was refused", 0);
    }
}

/// Returns what a run did, and what went wrong in it.
fn run(alloc: Global, seed: u64, limit: u64) -> io::Result<(u64, Tally, Option<Fault>)> {
    let mut random = Random::new(seed);
    let company = Company::new(&mut random);
    let settings = settings_of(alloc, company, &mut random)?;
    let mut state = State::new(alloc, random.next(), rules_of(&settings), company, limit);
    let heap = if random.one_in(8) {
        let size = usize::try_from(random.between(1, 1_000_000)).unwrap_or(1);
        Some(LocalHeap::new(alloc, size)?)
    } else {
        None
    };
    state.refuses = heap.is_some();
    state.operator = Operator::new(alloc, seed, state.now);
    let world = World {
        state: RefCell::new(state),
    };
    let table = SocketTable::new(alloc, settings.max_sessions, 256)?;
    let pool = Pool::new(alloc);
    let one = SocketAddr::from(([127, 0, 0, 1], 1));
    let other = SocketAddr::from(([127, 0, 0, 1], 2));
    let servers = [one, other];
    let count = if random.one_in(2) { 1 } else { 2 };
    let network = MemoryNetwork { world: &world };
    let resources = (network, &servers[..count], table, &pool);
    let end = run_on(alloc, &settings, resources, heap.as_ref());
    let World { state } = world;
    let mut state = state.into_inner();
    check_rest(&mut state, end);
    Ok((state.polls, state.tally, state.fault))
}

/// Prints what a run did.
fn print_run<W: Write>(
    output: &mut W,
    count: u64,
    seed: u64,
    polls: u64,
    tally: Tally,
) -> io::Result<()> {
    let Tally {
        sessions,
        reads,
        writes,
        stalls,
        silences,
        timers,
        stopped,
        statuses,
        most_live,
        latest_stall,
    } = tally;
    writeln!(
        output,
        "run {count} (seed {seed}): {polls} polls, {sessions} sessions, {most_live} wires at once, {reads} reads, {writes} writes, {timers} IM timers, {silences} silences, {stalls} stalls, told {latest_stall} ms late at most, {stopped} stopped, {statuses} statuses"
    )?;
    output.flush()
}

/// Prints what is known of a wire.
fn print_wire<W: Write>(output: &mut W, snapshot: Option<Snapshot>) -> io::Result<()> {
    let Some(snapshot) = snapshot else {
        return Ok(());
    };
    let Snapshot {
        is_bot,
        inbound,
        delivered,
        answered,
        accepted,
        written,
        room,
        moved_at,
        heard_at,
        has_ended,
        told_failure,
    } = snapshot;
    let side = if is_bot { "bot" } else { "server" };
    writeln!(
        output,
        "{side}: {inbound} bytes to read, {delivered} read ahead, {answered} answered, {accepted} put, {written} written, room for {room}"
    )?;
    writeln!(
        output,
        "{side}: last took a byte at {moved_at} ms, last pulled at {heard_at} ms, ended: {has_ended}, failed: {told_failure}"
    )
}

/// Prints the difference that was found in a run.
fn print_fault<W: Write>(output: &mut W, seed: u64, count: u64, fault: Fault) -> io::Result<()> {
    let Fault {
        what,
        poll,
        wire,
        number,
        reading,
        own,
        other,
    } = fault;
    writeln!(
        output,
        "seed {seed}: difference in run {count} at poll {poll}: wire {wire} of session {number}: {what}"
    )?;
    writeln!(output, "reading of the clock: {reading} ms")?;
    for snapshot in [own, other] {
        print_wire(output, snapshot)?;
    }
    output.flush()
}

/// Makes runs until so many polls were made, or a difference was found. Returns false if one was.
pub fn simulate<W: Write>(
    rt: &HostRuntime,
    seed: u64,
    polls: u64,
    output: &mut W,
) -> io::Result<bool> {
    let mut random = Random::new(seed);
    let mut made = 0u64;
    for count in 1..u64::MAX {
        let own = random.next();
        let (more, tally, fault) = run(rt.alloc(), own, MOST_POLLS)?;
        made = made.saturating_add(more);
        print_run(output, count, own, more, tally)?;
        if let Some(fault) = fault {
            print_fault(output, seed, count, fault)?;
            return Ok(false);
        }
        if made >= polls {
            writeln!(
                output,
                "seed {seed}: no difference in {count} runs, {made} polls"
            )?;
            output.flush()?;
            return Ok(true);
        }
    }
    Ok(true)
}
