//! A trace of the original run queue alone: queue SEED COUNT OPERATIONS ANSWERS
//!
//! Puts COUNT operations, drawn from SEED, to four queues of the original rq.rs and timeshare.rs and writes the
//! operations to one file and what the queues answered to the other. vectors/README.md has the format.

use std::sync::{Arc, atomic::Ordering};

use kernel::{
    clock::set_current_ticks,
    processor::{PROBE_NR_QUEUES, ProbeRunQueue},
    shortest::set_shortest_timeslice,
    thread::{
        Thread, ThreadRef,
        priority::{Priority, PriorityClass},
    },
};

const QUEUES: usize = 4;
const THREADS: usize = 96;
const CLASSES: [PriorityClass; 4] = [
    PriorityClass::Idle,
    PriorityClass::Background,
    PriorityClass::User,
    PriorityClass::Realtime,
];
const NONE: u64 = u64::MAX;

/// Splitmix64.
struct Random(u64);

impl Random {
    fn next(&mut self) -> u64 {
        self.0 = self.0.wrapping_add(0x9e3779b97f4a7c15);
        let mut z = self.0;
        z = (z ^ (z >> 30)).wrapping_mul(0xbf58476d1ce4e5b9);
        z = (z ^ (z >> 27)).wrapping_mul(0x94d049bb133111eb);
        z ^ (z >> 31)
    }

    fn below(&mut self, n: u64) -> u64 {
        self.next() % n
    }

    fn of<T: Copy>(&mut self, choices: &[T]) -> T {
        choices[self.below(choices.len() as u64) as usize]
    }
}

#[derive(Clone, Copy, Default)]
struct Operation {
    kind: u8,
    queue: u8,
    thread: u16,
    class: u8,
    value: u8,
    pinned: u8,
    current: u8,
    number: u64,
}

impl Operation {
    fn bytes(&self) -> [u8; 16] {
        let mut bytes = [0; 16];
        bytes[0] = self.kind;
        bytes[1] = self.queue;
        bytes[2..4].copy_from_slice(&self.thread.to_le_bytes());
        bytes[4] = self.class;
        bytes[5] = self.value;
        bytes[6] = self.pinned;
        bytes[7] = self.current;
        bytes[8..16].copy_from_slice(&self.number.to_le_bytes());
        bytes
    }
}

struct Bench {
    queues: Vec<ProbeRunQueue<PROBE_NR_QUEUES>>,
    threads: Vec<ThreadRef>,
    tick: u64,
}

impl Bench {
    /// Part and bucket where the thread waits.
    fn place(&self, queue: usize, thread: usize) -> (u8, u8) {
        let id = self.threads[thread].id();
        let mut found = (0xff, 0xff);
        for part in 0..3 {
            for bucket in 0..8 {
                self.queues[queue].probe_bucket(part, bucket, &mut |other| {
                    if other == id {
                        found = (part as u8, bucket as u8);
                    }
                });
            }
        }
        found
    }

    fn perform(&mut self, op: &Operation) -> [u8; 48] {
        let queue = &self.queues[op.queue as usize];
        if matches!(op.kind, 7 | 8) {
            set_shortest_timeslice(op.number as u32);
        }
        let class = CLASSES[op.class as usize];
        let mut place = (0xff, 0xff);
        let taken = |thread: Option<ThreadRef>| {
            thread.map_or(NONE, |t| self.threads.iter().position(|u| *u == t).unwrap() as u64)
        };
        let answer = match op.kind {
            1 => {
                let thread = &self.threads[op.thread as usize];
                let priority = Priority {
                    class,
                    value: op.value as u16,
                };
                thread.priority.store(priority.raw(), Ordering::SeqCst);
                if op.pinned == 1 {
                    thread.sched.pin_cpu(0);
                } else {
                    thread.sched.unpin_cpu();
                }
                thread.sched.set_deadline(op.number);
                let answer = queue.insert(thread.clone(), op.current == 1) as u64;
                place = self.place(op.queue as usize, op.thread as usize);
                answer
            }
            2 => taken(queue.take(false)),
            3 => taken(queue.take(true)),
            4 => {
                queue.clock();
                0
            }
            5 => {
                set_current_ticks(op.number);
                self.tick = op.number;
                0
            }
            6 => queue.hardtick().1,
            7 => queue.timeslice(class),
            _ => queue.deadline(class),
        };
        let (insert_idx, take_idx, counts) = queue.probe_timeshare();
        let mut bytes = [0; 48];
        bytes[0..8].copy_from_slice(&answer.to_le_bytes());
        bytes[8..12].copy_from_slice(&(queue.current_load() as u32).to_le_bytes());
        bytes[12..16].copy_from_slice(&(queue.current_timeshare_load() as u32).to_le_bytes());
        bytes[16..20].copy_from_slice(&queue.movable().to_le_bytes());
        bytes[20..24].copy_from_slice(&queue.current_priority().raw().to_le_bytes());
        bytes[24] = insert_idx as u8;
        bytes[25] = take_idx as u8;
        bytes[26] = place.0;
        bytes[27] = place.1;
        bytes[28] = queue.is_empty() as u8;
        for (i, count) in counts.iter().enumerate() {
            bytes[32 + i] = *count as u8;
        }
        bytes[40..48].copy_from_slice(&queue.last_tick().to_le_bytes());
        bytes
    }
}

/// The next operation. The mix changes every 128 operations: queues fill, empty, are mostly stolen from, or stay short.
fn draw(random: &mut Random, number: u64, bench: &Bench, waiting: &[bool]) -> Operation {
    let queue = random.below(QUEUES as u64) as u8;
    let phase = (number / 128) % 6;
    let [insert, take, steal, clock, tick, hardtick] = match phase {
        0 => [50, 10, 5, 15, 10, 5],
        1 => [25, 20, 10, 25, 10, 5],
        2 => [15, 45, 15, 10, 5, 5],
        3 => [25, 5, 35, 15, 10, 5],
        4 => [30, 30, 10, 5, 15, 5],
        _ => [35, 25, 5, 5, 5, 20],
    };
    let mut op = Operation {
        queue,
        ..Default::default()
    };
    let roll = random.below(100);
    let bounds = [insert, take, steal, clock, tick, hardtick];
    let mut sum = 0;
    let mut kind = 6;
    for (i, bound) in bounds.iter().enumerate() {
        sum += bound;
        if roll < sum {
            kind = i;
            break;
        }
    }
    op.class = match phase {
        0 => random.of(&[2, 2, 2, 2, 3, 1, 0]),
        4 => random.of(&[0, 1, 2, 3]),
        5 => random.of(&[2, 2, 3, 3, 0]),
        _ => random.of(&[2, 2, 2, 3, 1]),
    };
    match kind {
        0 => {
            let free: Vec<u16> = (0..THREADS as u16).filter(|t| !waiting[*t as usize]).collect();
            if free.is_empty() {
                op.kind = 2;
                op.class = 0;
                return op;
            }
            op.kind = 1;
            op.thread = random.of(&free);
            op.value = match random.below(4) {
                0 => 0,
                1 => random.of(&[1, 15, 16, 17, 31, 32, 63, 64, 95, 96, 111, 112, 113, 126, 127]),
                _ => random.below(128) as u8,
            };
            op.pinned = (random.below(4) == 0) as u8;
            op.current = (random.below(6) == 0) as u8;
            // At, before or past the tick.
            op.number = match random.below(8) {
                0 => bench.tick,
                1 => bench.tick.saturating_sub(1 + random.below(50)),
                _ => bench.tick + 1 + random.below(200),
            };
        }
        1 => op.kind = 2,
        2 => op.kind = 3,
        3 => op.kind = 4,
        4 => {
            op.kind = 5;
            op.number = bench.tick + random.of(&[0, 1, 2, 31, 32, 33, 100, 1 << 32]);
        }
        5 => op.kind = 6,
        _ => op.kind = random.of(&[7, 8]),
    }
    if !matches!(op.kind, 1 | 7 | 8) {
        op.class = 0;
    }
    op
}

fn main() {
    let arguments: Vec<String> = std::env::args().collect();
    let [_, seed, count, operations, answers] = &arguments[..] else {
        eprintln!("usage: queue SEED COUNT OPERATIONS ANSWERS");
        std::process::exit(2);
    };
    let mut random = Random(seed.parse().unwrap());
    // The shortest timeslices have a source of their own.
    let mut figures = Random(!random.0);
    let mut bench = Bench {
        queues: (0..QUEUES).map(|_| ProbeRunQueue::new()).collect(),
        threads: (0..THREADS)
            .map(|_| {
                let priority = Priority {
                    class: PriorityClass::Idle,
                    value: 0,
                };
                Arc::new(Thread::new(None, None, priority))
            })
            .collect(),
        tick: 0,
    };
    let mut waiting = vec![false; THREADS];
    let (mut written, mut answered) = (Vec::new(), Vec::new());
    for number in 0..count.parse().unwrap() {
        let mut op = draw(&mut random, number, &bench, &waiting);
        if matches!(op.kind, 7 | 8) {
            op.number = match figures.below(3) {
                0 => 2,
                1 => figures.of(&[3, 31, 32]),
                _ => 2 + figures.below(31),
            };
        }
        let answer = bench.perform(&op);
        match op.kind {
            1 => waiting[op.thread as usize] = true,
            2 | 3 => {
                let thread = u64::from_le_bytes(answer[0..8].try_into().unwrap());
                if thread != NONE {
                    waiting[thread as usize] = false;
                }
            }
            _ => {}
        }
        written.extend_from_slice(&op.bytes());
        answered.extend_from_slice(&answer);
    }
    std::fs::write(operations, written).unwrap();
    std::fs::write(answers, answered).unwrap();
    std::process::exit(0);
}
