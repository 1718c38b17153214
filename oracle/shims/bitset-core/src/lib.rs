//! The five operations of the crate `bitset-core` that sched.rs calls, on arrays of 64-bit words.

pub trait BitSet {
    fn bit_init(&mut self, value: bool);
    fn bit_set(&mut self, bit: usize);
    fn bit_reset(&mut self, bit: usize);
    fn bit_test(&self, bit: usize) -> bool;
    fn bit_any(&self) -> bool;
}

impl<const N: usize> BitSet for [u64; N] {
    fn bit_init(&mut self, value: bool) {
        self.fill(if value { u64::MAX } else { 0 });
    }

    fn bit_set(&mut self, bit: usize) {
        self[bit / 64] |= 1 << (bit % 64);
    }

    fn bit_reset(&mut self, bit: usize) {
        self[bit / 64] &= !(1 << (bit % 64));
    }

    fn bit_test(&self, bit: usize) -> bool {
        self[bit / 64] & (1 << (bit % 64)) != 0
    }

    fn bit_any(&self) -> bool {
        self.iter().any(|word| *word != 0)
    }
}
