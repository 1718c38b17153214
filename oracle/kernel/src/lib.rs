//! The kernel files of docs/src with the modules around them that they need. The setup script copies this directory to
//! build/kernel, puts the original files beside it, applies the patches and appends the probes.

#![feature(allocator_api, core_intrinsics, thread_local)]
#![allow(internal_features, static_mut_refs, dead_code, unused_imports, unused_variables)]
#![allow(unused_mut, unused_must_use, mismatched_lifetime_syntaxes)]

extern crate alloc;

#[macro_export]
macro_rules! logln {
    ($($arg:tt)*) => { eprintln!($($arg)*) };
}

#[macro_export]
macro_rules! emerglogln {
    ($($arg:tt)*) => { eprintln!($($arg)*) };
}

// The originals.
pub mod idcounter;
pub mod once;
pub mod processor;
pub mod spinlock;
pub mod thread;
pub mod utils;

// What stands for the rest of the kernel.
pub mod arch;
pub mod clock;
pub mod condvar;
pub mod image;
pub mod interrupt;
pub mod memory;
pub mod mutex;
pub mod obj;
pub mod security;
pub mod shortest;
pub mod syscall;
pub mod time;
pub mod trace;

pub fn is_bench_mode() -> bool {
    false
}

pub fn init_threading() -> ! {
    unreachable!()
}
