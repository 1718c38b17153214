//! A second reading of document 01, written from its text: queues are lists of thread numbers, and every count is
//! counted when it is asked for. It shares nothing with the original Rust.

pub mod notes;
pub mod queue;
pub mod render;
pub mod schedule;
pub mod topology;

pub use notes::Notes;
pub use queue::{Priority, Queue};
pub use topology::Topology;

pub const CPUS: usize = 64;
pub const THREADS: usize = 1024;
pub const LAST_TICK: u64 = 1 << 62;
/// "sets the shortest User timeslice to 2 to 32; unset it is 2"
pub const SHORTEST: std::ops::RangeInclusive<u8> = 2..=32;
pub const UNSET: u8 = 2;

pub const IDLE: u8 = 0;
pub const USER: u8 = 2;
pub const REALTIME: u8 = 3;

#[derive(Clone, Copy, PartialEq, Eq, Debug)]
pub enum Place {
    Blocked,
    Running,
    Queued,
}

#[derive(Clone, Debug)]
pub struct Thread {
    pub own: Priority,
    pub donated: Option<Priority>,
    pub stable: Priority,
    pub critical: bool,
    pub pin: Option<u8>,
    pub last_cpu: Option<u8>,
    pub queue_cpu: Option<u8>,
    pub deadline: u64,
    pub paid: u32,
    pub place: Place,
}

impl Thread {
    /// "The effective priority is the greater of own and donated."
    pub fn effective(&self) -> Priority {
        self.donated.map_or(self.own, |donated| donated.max(self.own))
    }
}

#[derive(Clone, Debug)]
pub struct Cpu {
    pub declared: bool,
    pub running: Option<u16>,
    pub queue: Queue,
    /// The priority of the thread it last switched to; (Idle, 0) for the idle thread.
    pub own_priority: Priority,
    pub idle: bool,
    pub must_rebalance: bool,
    pub preempt: bool,
    pub seed: u32,
    pub balance_time: u64,
    pub idle_paid: u32,
}

pub struct State {
    pub cpus: Vec<Cpu>,
    pub topology: Topology,
    pub sealed: bool,
    /// The shortest User timeslice.
    pub shortest: u8,
    pub threads: Vec<Option<Thread>>,
    pub tick: u64,
    pub accepted: u64,
    /// Wake-ups of other CPUs by the last command obeyed, and its calls of its own CPU, which no line shows.
    pub wakeups: u64,
    pub own_calls: u64,
    pub notes: Notes,
}

#[derive(Clone, Copy, PartialEq, Eq, Debug)]
pub enum Answer {
    Refused(u8),
    /// An obeyed command whose line shows no CPU.
    Obeyed,
    /// An obeyed command whose line shows this CPU.
    On(u8),
}

/// "Is the command byte in the table?", and how many bytes its operands have.
pub fn operands(command: u8) -> Option<usize> {
    match command {
        0x04 => Some(0),
        0x01 | 0x05 | 0x14 | 0x16 | 0x17 => Some(1),
        0x02 | 0x03 | 0x13 | 0x19 => Some(2),
        0x12 | 0x1A => Some(3),
        0x10 | 0x15 | 0x18 => Some(5),
        0x11 => Some(8),
        _ => None,
    }
}

/// A decoded command: every operand under its name, those it has not are 0.
#[derive(Clone, Copy, Default)]
struct Request {
    cpu: u8,
    node: u8,
    kind: u8,
    thread: u16,
    class: u8,
    value: u8,
    pin: u8,
    number: u64,
    flags: u8,
    mark: u8,
    figure: u8,
}

fn little(bytes: &[u8]) -> u64 {
    bytes.iter().rev().fold(0, |n, byte| n << 8 | *byte as u64)
}

fn read(command: u8, o: &[u8]) -> Request {
    let thread = |at: usize| little(&o[at..at + 2]) as u16;
    let none = Request::default();
    match command {
        0x01 | 0x14 | 0x16 | 0x17 => Request { cpu: o[0], ..none },
        0x02 => Request { node: o[0], kind: o[1], ..none },
        0x03 => Request { node: o[0], cpu: o[1], ..none },
        0x05 => Request { figure: o[0], ..none },
        0x10 => Request { thread: thread(0), class: o[2], value: o[3], pin: o[4], ..none },
        0x11 => Request { number: little(o), ..none },
        0x12 => Request { cpu: o[0], thread: thread(1), ..none },
        0x13 => Request { cpu: o[0], flags: o[1], ..none },
        0x15 => Request { cpu: o[0], number: little(&o[1..5]), ..none },
        0x18 => Request { cpu: o[0], thread: thread(1), class: o[3], value: o[4], ..none },
        0x19 => Request { thread: thread(0), ..none },
        0x1A => Request { thread: thread(0), mark: o[2], ..none },
        _ => none,
    }
}

impl State {
    pub fn new() -> Self {
        let cpu = Cpu {
            declared: false,
            running: None,
            queue: Queue::new(),
            own_priority: Priority::LEAST,
            idle: false,
            must_rebalance: false,
            preempt: false,
            seed: 0,
            balance_time: 0,
            idle_paid: 0,
        };
        State {
            cpus: vec![cpu; CPUS],
            topology: Topology::new(),
            sealed: false,
            shortest: UNSET,
            threads: vec![None; THREADS],
            tick: 0,
            accepted: 0,
            wakeups: 0,
            own_calls: 0,
            notes: Notes::default(),
        }
    }

    pub fn declared(&self, cpu: u8) -> bool {
        (cpu as usize) < CPUS && self.cpus[cpu as usize].declared
    }

    /// "is CPU 0 declared and every declared CPU placed?"
    pub fn may_seal(&self) -> bool {
        let placed = |cpu: u8| !self.declared(cpu) || self.topology.placed(cpu);
        self.declared(0) && (0..CPUS as u8).all(placed)
    }

    pub fn thread(&self, thread: u16) -> Option<&Thread> {
        self.threads.get(thread as usize).and_then(|t| t.as_ref())
    }

    pub fn th(&self, thread: u16) -> &Thread {
        self.threads[thread as usize].as_ref().unwrap()
    }

    pub fn th_mut(&mut self, thread: u16) -> &mut Thread {
        self.threads[thread as usize].as_mut().unwrap()
    }

    /// The numbers of the questions answered no, in their order. Those that ask about bytes that are not there are not
    /// put; the one about a blocked thread is put only to a declared one.
    pub fn failing(&self, bytes: &[u8]) -> Vec<u8> {
        let command = *bytes.first().unwrap_or(&0);
        let Some(length) = operands(command) else {
            return vec![1];
        };
        if bytes.len() < 1 + length {
            return vec![2];
        }
        let r = read(command, &bytes[1..1 + length]);
        let mut failing = Vec::new();
        let mut question = |number: u8, yes: bool| {
            if !yes {
                failing.push(number)
            }
        };
        question(3, (command <= 0x05) != self.sealed);
        question(4, match command {
            0x01 => (r.cpu as usize) < CPUS && !self.declared(r.cpu),
            0x03 => self.declared(r.cpu) && !self.topology.placed(r.cpu),
            0x10 => r.pin == 0xFF || self.declared(r.pin),
            0x12..=0x18 => self.declared(r.cpu),
            _ => true,
        });
        question(5, match command {
            0x10 => (r.thread as usize) < THREADS && self.thread(r.thread).is_none(),
            0x12 | 0x18 | 0x19 | 0x1A => self.thread(r.thread).is_some(),
            _ => true,
        });
        question(6, match command {
            0x02 => self.topology.may_have_child(r.node) && r.kind <= 3,
            0x03 => self.topology.is_leaf(r.node),
            0x05 => SHORTEST.contains(&r.figure),
            0x10 | 0x18 => r.class <= 3 && r.value <= 127,
            0x13 => r.flags <= 7,
            0x1A => r.mark <= 1,
            _ => true,
        });
        let blocked = |thread: u16| self.thread(thread).is_none_or(|t| t.place == Place::Blocked);
        question(7, command != 0x12 || blocked(r.thread));
        question(8, command != 0x11 || (self.tick <= r.number && r.number <= LAST_TICK));
        question(9, command != 0x04 || self.may_seal());
        question(10, self.accepted < 4_294_967_295);
        failing
    }

    /// One command at the front of the bytes.
    pub fn command(&mut self, bytes: &[u8]) -> Answer {
        // "A no gives the number, changes nothing, and no later question is put."
        if let Some(number) = self.failing(bytes).first() {
            return Answer::Refused(*number);
        }
        self.accepted += 1;
        self.wakeups = 0;
        self.own_calls = 0;
        let r = read(bytes[0], &bytes[1..1 + operands(bytes[0]).unwrap()]);
        self.obey(bytes[0], r)
    }

    fn obey(&mut self, command: u8, r: Request) -> Answer {
        match command {
            0x01 => self.cpus[r.cpu as usize].declared = true,
            0x02 => self.topology.add(r.node),
            0x03 => self.topology.place(r.node, r.cpu),
            0x04 => {
                // "each CPU runs its idle thread (Idle, 0), marked idle"
                self.sealed = true;
                for cpu in self.cpus.iter_mut().filter(|cpu| cpu.declared) {
                    cpu.idle = true;
                }
            }
            // "the last one given holds"
            0x05 => self.shortest = r.figure,
            0x10 => {
                let own = Priority::new(r.class, r.value);
                self.threads[r.thread as usize] = Some(Thread {
                    own,
                    donated: None,
                    stable: own,
                    critical: false,
                    pin: if r.pin == 0xFF { None } else { Some(r.pin) },
                    last_cpu: None,
                    queue_cpu: None,
                    deadline: 0,
                    paid: 0,
                    place: Place::Blocked,
                });
            }
            0x11 => self.tick = r.number,
            0x12 => return Answer::On(self.schedule_thread(r.cpu, r.thread)),
            0x13 => self.schedule(r.cpu, r.flags & 1 != 0, r.flags & 2 != 0, r.flags & 4 != 0),
            0x14 => self.hardtick(r.cpu),
            0x15 => self.stattick(r.cpu, r.number),
            0x16 => self.resched(r.cpu),
            0x17 => self.maybe_preempt(r.cpu),
            0x18 => self.donate(r.cpu, r.thread, Priority::new(r.class, r.value)),
            0x19 => self.th_mut(r.thread).donated = None,
            0x1A => self.th_mut(r.thread).critical = r.mark == 1,
            _ => unreachable!(),
        }
        if (0x13..=0x18).contains(&command) {
            Answer::On(r.cpu)
        } else {
            Answer::Obeyed
        }
    }
}
