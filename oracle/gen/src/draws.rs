//! A stream without chance in which the draw state of CPU 32 returns to 0 and is replaced by the CPU number, after
//! 51,188,000 draws: sooner than on any other CPU. A count of 2,437,900 commands gets there.

pub const PROFILE: &str = "draws";

const CPU: u8 = 32;
const TAIL: usize = 120;

/// All 64 CPUs on the root. A Realtime thread waits on CPU 63 for ever, so that the User thread pinned there finds its
/// place by a search each time that CPU 32 wakes it: 63 draws. It runs on CPU 0 and blocks. At the end a hundred and
/// twenty threads are woken by CPU 32, and where they go tells the draws.
pub fn generate(count: usize) -> Vec<u8> {
    let mut stream = Vec::new();
    for cpu in 0..64 {
        stream.extend_from_slice(&[0x01, cpu]);
    }
    for cpu in 0..64 {
        stream.extend_from_slice(&[0x03, 0, cpu]);
    }
    stream.extend_from_slice(&[0x04]);
    stream.extend_from_slice(&[0x10, 0, 0, 2, 64, 63]);
    stream.extend_from_slice(&[0x10, 1, 0, 3, 100, 63]);
    stream.extend_from_slice(&[0x12, 0, 1, 0]);
    let mut written = 64 + 64 + 1 + 3;
    while written + 3 + 2 * TAIL <= count {
        stream.extend_from_slice(&[0x12, CPU, 0, 0, 0x13, 0, 0, 0x13, 0, 0]);
        written += 3;
    }
    for thread in 2..2 + TAIL as u8 {
        stream.extend_from_slice(&[0x10, thread, 0, 2, 64, 0xff, 0x12, CPU, thread, 0]);
    }
    stream
}
