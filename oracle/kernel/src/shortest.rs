//! The shortest User timeslice: a number with patches/2026-07-shortest-timeslice.patch, the Rust's constant without it. This
//! compiles with both.

use core::sync::atomic::{AtomicU32, Ordering};

use crate::processor::sched::MIN_TIMESLICE_TICKS;

trait Shortest {
    fn get(&self) -> u32;
    fn set(&self, ticks: u32);
}

impl Shortest for AtomicU32 {
    fn get(&self) -> u32 {
        self.load(Ordering::SeqCst)
    }

    fn set(&self, ticks: u32) {
        self.store(ticks, Ordering::SeqCst)
    }
}

impl Shortest for u32 {
    fn get(&self) -> u32 {
        *self
    }

    fn set(&self, ticks: u32) {
        if ticks != *self {
            eprintln!("the shortest timeslice is {self} in this build, without the patch of 2026-07, and cannot be {ticks}");
            std::process::exit(3);
        }
    }
}

pub fn get_shortest_timeslice() -> u32 {
    MIN_TIMESLICE_TICKS.get()
}

/// Ends the program if the shortest timeslice is a constant and another one.
pub fn set_shortest_timeslice(ticks: u32) {
    MIN_TIMESLICE_TICKS.set(ticks)
}
