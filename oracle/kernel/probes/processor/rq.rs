
// Probes, appended by the setup script: they read and change nothing.

impl<const N: usize> RunQueue<N> {
    /// The threads of one bucket, front to back. Part 0 is realtime, 1 timeshare, 2 idle.
    pub fn probe_bucket(&self, part: usize, bucket: usize, each: &mut dyn FnMut(u64)) {
        match part {
            0 => self.realtime.0.lock().queues[bucket].iter().for_each(|t| each(t.id())),
            1 => self.timeshare.0.lock().probe_bucket(bucket, each),
            _ => self.idle.0.lock().queues[bucket].iter().for_each(|t| each(t.id())),
        }
    }

    /// Filling index, emptying index and the counts of the timeshare part.
    pub fn probe_timeshare(&self) -> (usize, usize, [u32; N]) {
        self.timeshare.0.lock().probe()
    }

    pub fn probe_flags(&self) -> u32 {
        self.flags.load(Ordering::SeqCst)
    }
}
