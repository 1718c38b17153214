
// Probes, appended by the setup script: they read and change nothing.

impl<const N: usize> TimeshareQueue<N> {
    pub fn probe(&self) -> (usize, usize, [u32; N]) {
        (self.insert_idx, self.take_idx, self.priorities)
    }

    pub fn probe_bucket(&self, bucket: usize, each: &mut dyn FnMut(u64)) {
        self.queues[bucket].iter().for_each(|t| each(t.id()))
    }
}
