//! A packed clock that threads share without a lock. Build it from the top of the repository with
//!
//!     packaging/library && rustc --edition 2021 -L crates/hlc_c/out examples/rust/packed_clock.rs

use std::sync::atomic::{AtomicU64, Ordering};
use std::thread;

/// How many low bits of a stamp are c. All nodes have the same.
const BITS: u32 = 16;
/// How far a stamp may be ahead of its reading.
const LIMIT: u64 = 500;
const THREADS: u64 = 4;
const EVENTS: u64 = 10_000;

#[link(name = "hlc", kind = "static")]
extern "C" {
    fn hlc_packed_after(old: u64, bits: u32, reading: u64, limit: u64, packed: *mut u64) -> u32;
    fn hlc_packed_after_message(old: u64, message: u64, bits: u32, reading: u64, limit: u64, packed: *mut u64) -> u32;
}

/// Why a clock stayed as it was: the statuses of hlc.h.
#[derive(Clone, Copy, Debug, PartialEq, Eq)]
enum Refusal {
    Reading,
    NoRoom,
    TooFar,
    MessageTooFar,
    Bits,
}

fn refusal(status: u32) -> Option<Refusal> {
    match status {
        0 => None,
        1 => Some(Refusal::Reading),
        2 => Some(Refusal::NoRoom),
        3 => Some(Refusal::TooFar),
        9 => Some(Refusal::MessageTooFar),
        _ => Some(Refusal::Bits),
    }
}

/// A node's clock: its last stamp, l above the low bits, which are c.
#[derive(Debug, Default)]
struct Clock(AtomicU64);

impl Clock {
    /// The stamp of a send or a local event.
    fn tick(&self, reading: u64) -> Result<u64, Refusal> {
        self.advance(|old, new| unsafe { hlc_packed_after(old, BITS, reading, LIMIT, new) })
    }

    /// The stamp of a delivery.
    fn merge(&self, message: u64, reading: u64) -> Result<u64, Refusal> {
        self.advance(|old, new| unsafe { hlc_packed_after_message(old, message, BITS, reading, LIMIT, new) })
    }

    /// Takes the number that comes after the clock's, and puts it there if nobody was faster.
    fn advance(&self, after: impl Fn(u64, &mut u64) -> u32) -> Result<u64, Refusal> {
        let mut old = self.0.load(Ordering::Acquire);
        loop {
            let mut new = 0;
            if let Some(refusal) = refusal(after(old, &mut new)) {
                return Err(refusal);
            }
            match self.0.compare_exchange_weak(old, new, Ordering::AcqRel, Ordering::Acquire) {
                Ok(_) => return Ok(new),
                Err(other) => old = other,
            }
        }
    }
}

fn text(stamp: u64) -> String {
    format!("{},{}", stamp >> BITS, stamp & ((1 << BITS) - 1))
}

/// The stamps of as many ticks, one after another.
fn ticks(clock: &Clock, reading: u64) -> Result<Vec<u64>, Refusal> {
    (0..EVENTS).map(|_| clock.tick(reading)).collect()
}

fn main() -> Result<(), Refusal> {
    let clock = Clock::default();
    let each: Vec<_> = thread::scope(|scope| {
        let threads: Vec<_> = (0..THREADS).map(|_| scope.spawn(|| ticks(&clock, 1000))).collect();
        threads.into_iter().map(|thread| thread.join().expect("a thread that panicked")).collect::<Result<_, _>>()
    })?;
    assert!(each.iter().all(|stamps| stamps.windows(2).all(|pair| pair[0] < pair[1])));
    let mut all = each.concat();
    all.sort_unstable();
    all.dedup();
    println!("{} different stamps, the last {}", all.len(), text(all[all.len() - 1]));
    println!("received {}", text(clock.merge(1200 << BITS | 5, 1000)?));
    if clock.merge(9000 << BITS, 1000) == Err(Refusal::MessageTooFar) {
        println!("refused, still {}", text(clock.0.load(Ordering::Acquire)));
    }
    Ok(())
}
