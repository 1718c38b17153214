#[derive(Clone, Copy)]
pub struct VirtAddr;

pub fn init_secondary() {}

pub unsafe fn poke_cpu(_cpu: u32, _tcb_base: VirtAddr, _kernel_stack: *mut u8) {}

pub fn send_ipi(_target: crate::interrupt::Destination, _vector: u32) {}

pub mod image {
    pub fn init_tls(_template: crate::image::TlsInfo) -> super::VirtAddr {
        super::VirtAddr
    }
}

pub mod interrupt {
    pub const GENERIC_IPI_VECTOR: u32 = 1;
}

pub mod thread {
    use twizzler_abi::upcall::{UpcallInfo, UpcallTarget};

    use crate::thread::Thread;

    pub struct ArchThread;

    impl ArchThread {
        pub fn new() -> Self {
            Self
        }

        pub fn has_upcall_restore_frame(&self) -> bool {
            false
        }
    }

    impl Thread {
        /// The switch of registers and stacks is left out: the caller runs on.
        pub fn arch_switch_to(&self, _old: &Thread) {}

        pub fn arch_queue_upcall(&self, _target: UpcallTarget, _info: UpcallInfo, _sup: bool) {}

        pub fn read_ip(&self) -> u64 {
            0
        }

        pub fn read_registers(&self) -> u64 {
            0
        }
    }
}

pub mod processor {
    use std::sync::atomic::{AtomicU64, Ordering};

    use crate::processor::{Processor, mp::probe_current_processor};

    #[derive(Default)]
    pub struct ArchProcessor;

    /// How often `wakeup` was called of a processor other than the current one.
    pub static WAKEUPS: AtomicU64 = AtomicU64::new(0);
    /// How often it was called of the current one.
    pub static OWN_WAKEUPS: AtomicU64 = AtomicU64::new(0);

    impl Processor {
        pub fn wakeup(&self, _signal: bool) {
            // A CPU that was not started has no current processor.
            let own = std::ptr::eq(self, unsafe { *probe_current_processor() });
            let calls = if own { &OWN_WAKEUPS } else { &WAKEUPS };
            calls.fetch_add(1, Ordering::Relaxed);
        }
    }

    pub fn init(_tcb_base: super::VirtAddr) {}

    pub fn get_topology() -> Vec<(usize, bool)> {
        Vec::new()
    }

    #[inline]
    pub fn tls_ready() -> bool {
        true
    }

    pub fn spin_wait_iteration() {
        std::thread::yield_now();
    }
}
