
// Probes, appended by the setup script: they read and change nothing.

pub use rq::{NR_QUEUES as PROBE_NR_QUEUES, RunQueue as ProbeRunQueue};

impl Processor {
    pub fn probe_rq(&self) -> &RunQueue<NR_QUEUES> {
        &self.rq
    }

    pub fn probe_own_priority(&self) -> u32 {
        self.current_priority.load(Ordering::SeqCst)
    }

    pub fn probe_is_idle(&self) -> bool {
        self.is_idle.load(Ordering::SeqCst)
    }
}
