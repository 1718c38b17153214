//! The types of `twizzler-abi` that the kernel files name. None of them has a part in a scheduling decision.

pub mod object {
    #[derive(Clone, Copy, Debug, PartialEq, Eq, PartialOrd, Ord)]
    pub struct ObjID(u128);

    impl From<u128> for ObjID {
        fn from(id: u128) -> Self {
            Self(id)
        }
    }

    impl core::fmt::Display for ObjID {
        fn fmt(&self, f: &mut core::fmt::Formatter<'_>) -> core::fmt::Result {
            write!(f, "{:x}", self.0)
        }
    }

    pub const NULLPAGE_SIZE: usize = 0x1000;
}

pub mod thread {
    #[derive(Clone, Copy, Debug, PartialEq, Eq, Default)]
    pub enum ExecutionState {
        #[default]
        Running,
        Sleeping,
        Suspended,
        Exited,
    }

    #[derive(Default)]
    pub struct ThreadRepr {
        pub status: u64,
    }

    impl ThreadRepr {
        /// Every thread counts as running already, so that nobody waits for a change of state.
        pub fn set_state(&self, _state: ExecutionState, _code: u64) -> ExecutionState {
            ExecutionState::Running
        }

        pub fn get_state(&self) -> ExecutionState {
            ExecutionState::Running
        }
    }
}

pub mod syscall {
    pub const PERTHREAD_TRACE_GEN_SAMPLE: u64 = 1;
    pub struct ThreadSpawnArgs;
}

pub mod trace {
    use super::{object::ObjID, thread::ExecutionState};

    pub const THREAD_MIGRATE: u64 = 1;
    pub const THREAD_CONTEXT_SWITCH: u64 = 2;
    pub const THREAD_SAMPLE: u64 = 4;

    pub enum TraceKind {
        Thread,
    }

    bitflags::bitflags! {
        #[derive(Copy, Clone, Debug)]
        pub struct TraceEntryFlags: u32 {
            const HAS_DATA = 1;
        }
    }

    bitflags::bitflags! {
        #[derive(Copy, Clone, Debug)]
        pub struct SwitchFlags: u32 {
            const IS_TRACE = 1;
            const PREEMPTED = 2;
            const TO_IDLE = 4;
            const TO_KTHREAD = 8;
            const SLEEPING = 16;
        }
    }

    pub struct ThreadMigrate {
        pub from: u64,
        pub to: u64,
    }

    pub struct ThreadCtxSwitch {
        pub to: Option<ObjID>,
        pub flags: SwitchFlags,
    }

    pub struct ThreadSamplingEvent {
        pub ip: u64,
        pub state: ExecutionState,
    }
}

pub mod upcall {
    use super::object::ObjID;

    pub const UPCALL_EXIT_CODE: u64 = 127;

    #[derive(Debug)]
    pub enum UpcallInfo {
        Mailbox(u64),
    }

    impl UpcallInfo {
        pub fn number(&self) -> usize {
            0
        }
    }

    #[derive(Clone, Copy)]
    pub enum UpcallMode {
        Abort,
        CallSuper,
    }

    bitflags::bitflags! {
        #[derive(Copy, Clone, Debug)]
        pub struct UpcallFlags: u32 {
            const SUSPEND = 1;
        }
    }

    #[derive(Clone, Copy)]
    pub struct UpcallOptions {
        pub mode: UpcallMode,
        pub flags: UpcallFlags,
    }

    #[derive(Clone, Copy)]
    pub struct UpcallTarget {
        pub self_ctx: ObjID,
        pub options: [UpcallOptions; 1],
    }
}
