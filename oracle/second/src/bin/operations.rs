//! operations <OPERATIONS >ANSWERS: the run queue of the second reading on stored operations, in the form of
//! vectors/README.md.

use std::io::{Read, Write};

use second::{Place, Priority, Queue, Thread, USER, queue::Buckets};

const QUEUES: usize = 4;
const THREADS: usize = 96;
const NONE: u64 = u64::MAX;

struct Bench {
    queues: Vec<Queue>,
    threads: Vec<Option<Thread>>,
    tick: u64,
}

fn bucket_of(buckets: &Buckets, thread: u16) -> Option<u8> {
    buckets.iter().position(|bucket| bucket.contains(&thread)).map(|bucket| bucket as u8)
}

/// Part and bucket where the thread waits.
fn place(queue: &Queue, thread: u16) -> (u8, u8) {
    let parts = [&queue.realtime, &queue.timeshare, &queue.idle];
    let found = parts.into_iter().enumerate().find_map(|(part, buckets)| Some((part as u8, bucket_of(buckets, thread)?)));
    found.unwrap_or((0xff, 0xff))
}

impl Bench {
    fn perform(&mut self, operation: &[u8]) -> [u8; 48] {
        let [kind, number, low, high, class, value, pinned, current] = operation[..8] else { unreachable!() };
        let thread = u16::from_le_bytes([low, high]);
        let argument = u64::from_le_bytes(operation[8..].try_into().unwrap());
        let queue = &mut self.queues[number as usize];
        let mut found = (0xff, 0xff);
        let answer = match kind {
            1 => {
                let own = Priority::new(class, value);
                self.threads[thread as usize] = Some(Thread {
                    own,
                    donated: None,
                    stable: own,
                    critical: false,
                    pin: if pinned == 1 { Some(0) } else { None },
                    last_cpu: None,
                    queue_cpu: None,
                    deadline: argument,
                    paid: 0,
                    place: Place::Queued,
                });
                queue.put(thread, &mut self.threads, self.tick, current == 1);
                found = place(queue, thread);
                (class >= USER) as u64
            }
            2 | 3 => queue.take(&self.threads, kind == 3).map_or(NONE, |thread| thread as u64),
            4 => {
                queue.clock();
                0
            }
            5 => {
                self.tick = argument;
                0
            }
            6 => self.tick - std::mem::replace(&mut queue.last_tick, self.tick),
            7 => queue.timeslice(class, argument),
            _ => queue.deadline(class, argument),
        };
        let mut bytes = [0; 48];
        bytes[0..8].copy_from_slice(&answer.to_le_bytes());
        let movable = queue.movable(&self.threads);
        for (at, count) in [queue.load(), queue.timeshare_load(), movable].into_iter().enumerate() {
            bytes[8 + 4 * at..12 + 4 * at].copy_from_slice(&(count as u32).to_le_bytes());
        }
        bytes[20..24].copy_from_slice(&queue.advertised.raw().to_le_bytes());
        bytes[24] = queue.filling as u8;
        bytes[25] = queue.emptying as u8;
        (bytes[26], bytes[27]) = found;
        bytes[28] = (queue.load() == 0) as u8;
        for (i, count) in queue.counts(&self.threads).into_iter().enumerate() {
            bytes[32 + i] = count as u8;
        }
        bytes[40..48].copy_from_slice(&queue.last_tick.to_le_bytes());
        bytes
    }
}

fn main() {
    let mut operations = Vec::new();
    std::io::stdin().read_to_end(&mut operations).unwrap();
    let mut bench = Bench {
        queues: vec![Queue::new(); QUEUES],
        threads: vec![None; THREADS],
        tick: 0,
    };
    let answers: Vec<u8> = operations.chunks_exact(16).flat_map(|operation| bench.perform(operation)).collect();
    std::io::stdout().write_all(&answers).unwrap();
}
