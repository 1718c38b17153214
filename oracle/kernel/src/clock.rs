use core::sync::atomic::{AtomicU64, Ordering};

pub type Nanoseconds = u64;

static BSP_TICK: AtomicU64 = AtomicU64::new(0);

pub fn get_current_ticks() -> u64 {
    BSP_TICK.load(Ordering::SeqCst)
}

pub fn set_current_ticks(tick: u64) {
    BSP_TICK.store(tick, Ordering::SeqCst)
}
