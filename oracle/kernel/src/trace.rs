use twizzler_abi::trace::{TraceEntryFlags, TraceKind};

use crate::thread::ThreadRef;

pub struct TraceEntry;

pub fn new_trace_entry(_kind: TraceKind, _event: u64, _flags: TraceEntryFlags) -> TraceEntry {
    TraceEntry
}

pub fn new_trace_entry_thread(
    _thread: &ThreadRef,
    _cpu: u64,
    _kind: TraceKind,
    _event: u64,
    _flags: TraceEntryFlags,
) -> TraceEntry {
    TraceEntry
}

pub mod mgr {
    use super::*;

    pub struct TraceEvent;

    impl TraceEvent {
        pub fn new_with_data<T>(_entry: TraceEntry, _data: T) -> Self {
            Self
        }
    }

    pub struct TraceMgr;

    impl TraceMgr {
        pub fn any_enabled(&self, _kind: TraceKind, _event: u64) -> bool {
            false
        }

        pub fn async_enqueue(&self, _event: TraceEvent) {}
    }

    pub static TRACE_MGR: TraceMgr = TraceMgr;

    pub fn is_thread_ktrace_thread(_thread: &ThreadRef) -> bool {
        false
    }
}
