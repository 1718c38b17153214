
// Probe, appended by the setup script: where the thread-local of the CPU lies.

pub fn probe_rand_state() -> *mut u32 {
    &raw mut RAND_STATE
}
