//! A message between two nodes, and one from a clock that is far ahead. Build it from the top of the repository with
//!
//!     packaging/library && rustc --edition 2021 -L crates/hlc_c/out examples/rust/two_nodes.rs

use std::fmt;

/// A stamp as C lays it out, in the order of stamps.
#[repr(C)]
#[derive(Clone, Copy, Debug, Default, PartialEq, Eq, PartialOrd, Ord)]
pub struct Stamp {
    pub l: u64,
    pub c: u32,
}

#[link(name = "hlc", kind = "static")]
extern "C" {
    fn hlc_tick(clock: *mut Stamp, reading: u64) -> u32;
    fn hlc_merge_within(clock: *mut Stamp, message: Stamp, reading: u64, limit: u64) -> u32;
}

/// Why a clock stayed as it was: the statuses of hlc.h.
#[derive(Clone, Copy, Debug, PartialEq, Eq)]
pub enum Refusal {
    Reading,
    NoRoom,
    TooFar,
}

/// A node's clock. `&mut self` is what the library asks of a pointer: live, aligned, and nobody else's. So its calls are safe.
#[derive(Debug, Default)]
pub struct Clock(Stamp);

impl Clock {
    /// The stamp of a send or a local event.
    pub fn tick(&mut self, reading: u64) -> Result<Stamp, Refusal> {
        let status = unsafe { hlc_tick(&mut self.0, reading) };
        self.answer(status)
    }

    /// The stamp of a delivery, unless it would be ahead of the reading by more than the limit.
    pub fn merge(&mut self, message: Stamp, reading: u64, limit: u64) -> Result<Stamp, Refusal> {
        let status = unsafe { hlc_merge_within(&mut self.0, message, reading, limit) };
        self.answer(status)
    }

    fn answer(&self, status: u32) -> Result<Stamp, Refusal> {
        match status {
            0 => Ok(self.0),
            1 => Err(Refusal::Reading),
            2 => Err(Refusal::NoRoom),
            _ => Err(Refusal::TooFar),
        }
    }
}

impl fmt::Display for Stamp {
    fn fmt(&self, f: &mut fmt::Formatter) -> fmt::Result {
        write!(f, "{},{}", self.l, self.c)
    }
}

fn main() -> Result<(), Refusal> {
    let limit = 500;
    let (mut ours, mut theirs) = (Clock::default(), Clock::default());
    theirs.tick(100)?;
    let sent = theirs.tick(100)?;
    println!("sent {sent}");
    println!("received {}", ours.merge(sent, 97, limit)?);
    let sent = theirs.tick(9000)?;
    if ours.merge(sent, 98, limit) == Err(Refusal::TooFar) {
        println!("refused, still {}", ours.0);
    }
    Ok(())
}
