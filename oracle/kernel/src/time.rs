use std::time::Duration;

pub struct Rate;

impl core::ops::Mul<Rate> for u64 {
    type Output = Duration;
    fn mul(self, _rate: Rate) -> Duration {
        Duration::from_nanos(self)
    }
}

pub struct Ticks {
    pub value: u64,
    pub rate: Rate,
}

pub struct BenchClock;

impl BenchClock {
    pub fn read(&self) -> Ticks {
        Ticks {
            value: 0,
            rate: Rate,
        }
    }
}

pub fn bench_clock() -> Option<BenchClock> {
    None
}
