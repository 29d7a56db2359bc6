//! Tests of the program and of its sockets, in cases that only a test inside the program can see.

#[cfg(test)]
mod addresses;
#[cfg(test)]
mod admission;
#[cfg(test)]
mod closings;
#[cfg(test)]
mod control;
#[cfg(test)]
mod doors;
#[cfg(test)]
mod frames;
#[cfg(test)]
mod im_timer;
#[cfg(test)]
mod memory;
#[cfg(test)]
mod program;
#[cfg(test)]
mod refusals;
#[cfg(test)]
mod session_lines;
#[cfg(test)]
mod settings;
#[cfg(test)]
mod stalls;
#[cfg(test)]
mod streams;
#[cfg(test)]
mod wires;
