
// Probe, appended by the setup script: where the thread-local of the CPU lies.

pub fn probe_current_processor() -> *mut *const Processor {
    CURRENT_PROCESSOR.get()
}
