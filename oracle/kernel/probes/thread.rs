
// Probe, appended by the setup script: where the thread-local of the CPU lies.

pub fn probe_current_thread() -> *mut *const ThreadRef {
    CURRENT_THREAD.get()
}
