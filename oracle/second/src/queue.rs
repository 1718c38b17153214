//! Priorities, the three parts of a run queue, timeslice and deadline.

use std::collections::VecDeque;

use crate::{IDLE, REALTIME, Thread, USER};

/// "Order: class, then value"
#[derive(Clone, Copy, PartialEq, Eq, PartialOrd, Ord, Debug)]
pub struct Priority {
    pub class: u8,
    pub value: u8,
}

impl Priority {
    pub const LEAST: Priority = Priority { class: IDLE, value: 0 };

    pub fn new(class: u8, value: u8) -> Self {
        Priority { class, value }
    }

    pub fn raw(self) -> u32 {
        self.class as u32 * 65_536 + self.value as u32
    }
}

pub type Threads = [Option<Thread>];
pub type Buckets = [VecDeque<u16>; 8];

#[derive(Clone, Debug)]
pub struct Queue {
    pub realtime: Buckets,
    pub timeshare: Buckets,
    pub idle: Buckets,
    pub filling: usize,
    pub emptying: usize,
    pub advertised: Priority,
    pub last_tick: u64,
    /// Filling and emptying index at each put of value 0 into timeshare beside another value, which no line shows.
    pub zero_puts: Vec<(usize, usize)>,
}

fn held(buckets: &Buckets) -> usize {
    buckets.iter().map(|bucket| bucket.len()).sum()
}

/// What a part advertises: 16 times the number of the highest bucket that holds a thread.
fn highest(buckets: &Buckets) -> Option<u8> {
    (0..8).rev().find(|b| !buckets[*b].is_empty()).map(|b| b as u8 * 16)
}

/// "bucket 0 is handed out first"
fn take_first(buckets: &mut Buckets) -> Option<u16> {
    buckets.iter_mut().find_map(|bucket| bucket.pop_front())
}

impl Queue {
    pub fn new() -> Self {
        Queue {
            realtime: Default::default(),
            timeshare: Default::default(),
            idle: Default::default(),
            filling: 0,
            emptying: 0,
            advertised: Priority::LEAST,
            last_tick: 0,
            zero_puts: Vec::new(),
        }
    }

    pub fn load(&self) -> usize {
        held(&self.realtime) + held(&self.timeshare) + held(&self.idle)
    }

    pub fn timeshare_load(&self) -> usize {
        held(&self.timeshare)
    }

    fn waiting(&self) -> impl Iterator<Item = u16> + '_ {
        [&self.realtime, &self.timeshare, &self.idle]
            .into_iter()
            .flatten()
            .flatten()
            .copied()
    }

    pub fn movable(&self, threads: &Threads) -> usize {
        let unpinned = |t: u16| threads[t as usize].as_ref().unwrap().pin.is_none();
        self.waiting().filter(|t| unpinned(*t)).count()
    }

    /// How many timeshare threads were put in with a value in each sixteenth.
    pub fn counts(&self, threads: &Threads) -> [usize; 8] {
        let mut counts = [0; 8];
        for thread in self.timeshare.iter().flatten() {
            counts[threads[*thread as usize].as_ref().unwrap().stable.value as usize / 16] += 1;
        }
        counts
    }

    /// "Offset = (128 − value) / 16 rounded down; bucket = (filling + offset) modulo 8, stepped back by one (0 to 7) if
    /// it is the emptying bucket and the indexes differ. A current thread joins the emptying bucket." 2026-04: "Value 0
    /// shall have offset 7; all other offsets keep their formula".
    pub fn timeshare_bucket(&self, value: u8, current: bool) -> usize {
        if current {
            return self.emptying;
        }
        let offset = if value == 0 { 7 } else { (128 - value as usize) / 16 };
        let bucket = (self.filling + offset) % 8;
        if bucket == self.emptying && self.filling != self.emptying {
            (bucket + 7) % 8
        } else {
            bucket
        }
    }

    /// "Realtime and idle have eight buckets by value / 16, a User thread in bucket 7"
    pub fn priority_bucket(priority: Priority) -> usize {
        if priority.class == USER {
            7
        } else {
            priority.value as usize / 16
        }
    }

    /// "Class Realtime goes to realtime; User too if its deadline is not past the tick, else to timeshare; Background and
    /// Idle go to idle."
    pub fn put(&mut self, thread: u16, threads: &mut Threads, tick: u64, current: bool) {
        let record = threads[thread as usize].as_mut().unwrap();
        let priority = record.effective();
        self.advertised = self.advertised.max(priority);
        if priority.class == REALTIME || (priority.class == USER && record.deadline <= tick) {
            self.realtime[Self::priority_bucket(priority)].push_back(thread);
        } else if priority.class == USER {
            record.stable = priority;
            let other = |t: &u16| threads[*t as usize].as_ref().unwrap().stable.value != 0;
            if priority.value == 0 && !current && self.timeshare.iter().flatten().any(other) {
                self.zero_puts.push((self.filling, self.emptying));
            }
            self.timeshare[self.timeshare_bucket(priority.value, current)].push_back(thread);
        } else {
            self.idle[Self::priority_bucket(priority)].push_back(thread);
        }
    }

    /// "Realtime, timeshare, idle, served in that order." A stealing take asks only the movable count.
    pub fn take(&mut self, threads: &Threads, stealing: bool) -> Option<u16> {
        if stealing && self.movable(threads) == 0 {
            return None;
        }
        if let Some(thread) = take_first(&mut self.realtime) {
            if self.advertised.class == REALTIME {
                self.advertised = match highest(&self.realtime) {
                    Some(value) => Priority::new(REALTIME, value),
                    None => Priority::new(USER, 127),
                };
            }
            return Some(thread);
        }
        if let Some(thread) = self.take_timeshare() {
            if self.advertised.class == USER {
                let counts = self.counts(threads);
                self.advertised = match (0..8).rev().find(|c| counts[*c] > 0) {
                    Some(class) => Priority::new(USER, class as u8 * 16),
                    None => Priority::new(IDLE, highest(&self.idle).unwrap_or(0)),
                };
            }
            return Some(thread);
        }
        let thread = take_first(&mut self.idle)?;
        self.advertised = Priority::new(IDLE, highest(&self.idle).unwrap_or(0));
        Some(thread)
    }

    /// "A take scans from the emptying index for the first bucket holding a thread, hands out its oldest and moves the
    /// index there, and one further if that bucket is now empty and the indexes differ."
    fn take_timeshare(&mut self) -> Option<u16> {
        let bucket = (0..8)
            .map(|step| (self.emptying + step) % 8)
            .find(|bucket| !self.timeshare[*bucket].is_empty())?;
        let thread = self.timeshare[bucket].pop_front();
        self.emptying = bucket;
        if self.timeshare[bucket].is_empty() && self.emptying != self.filling {
            self.emptying = (self.emptying + 1) % 8;
        }
        thread
    }

    /// "`advance_insert_index` does nothing on an empty queue."
    pub fn clock(&mut self) {
        if self.timeshare_load() > 0 {
            self.filling = (self.filling + 1) % 8;
        }
    }

    /// "User timeslice: 100 at timeshare load 0, else 32 / load rounded down, at least 2; others 100." 2026-07: at least the
    /// shortest one that is set. "Timeslices at timeshare load 0 are still 100."
    pub fn timeslice(&self, class: u8, shortest: u64) -> u64 {
        match self.timeshare_load() {
            load if class == USER && load > 0 => (32 / load as u64).max(shortest),
            _ => 100,
        }
    }

    /// "Deadline distance = timeslice × queue load."
    pub fn deadline(&self, class: u8, shortest: u64) -> u64 {
        self.timeslice(class, shortest) * self.load() as u64
    }
}
