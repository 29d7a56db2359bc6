//! Tests of sessions and of their drivers: the worked examples of sessions in docs/EXAMPLES.md, relays, hubs, and whole
//! runs over ports in memory. The expected bytes are worked out from the protocol.

#[cfg(test)]
mod answers;
#[cfg(test)]
mod breaks;
#[cfg(test)]
mod broken_neighbours;
#[cfg(test)]
mod calm;
#[cfg(test)]
mod chains;
#[cfg(test)]
mod cut_frames;
#[cfg(test)]
mod endings;
#[cfg(test)]
mod fakes;
#[cfg(test)]
mod fault_fields;
#[cfg(test)]
mod growths;
#[cfg(test)]
mod harness;
#[cfg(test)]
mod hubs;
#[cfg(test)]
mod orders;
#[cfg(test)]
mod ranges;
#[cfg(test)]
mod records;
#[cfg(test)]
mod relays;
#[cfg(test)]
mod resting;
#[cfg(test)]
mod script;
#[cfg(test)]
mod serving;
#[cfg(test)]
mod sessions;
#[cfg(test)]
mod timed_records;
#[cfg(test)]
mod worded_sessions;
