//! Streams of commands from a seed. The generator runs the second reading beside what it writes, so that it knows who is
//! blocked, running and waiting, and most of what it writes is obeyed.

pub mod bad;
pub mod draws;
pub mod figures;
pub mod mangled;
pub mod plan;
pub mod random;

use figures::{Figures, Said};
use plan::Plan;
use random::Random;
use second::{Answer, Place, State, operands};

pub use plan::PROFILES;

pub struct Generator {
    pub random: Random,
    pub plan: Plan,
    pub state: State,
    pub stream: Vec<u8>,
    written: usize,
    count: usize,
    wanted: Wanted,
    said: Said,
    /// The CPUs and threads declared.
    cpus: Vec<u8>,
    threads: Vec<u16>,
}

/// The first bytes of a command, None for any.
pub type Pattern = Vec<Option<u8>>;

/// Two digits to a byte, or two dots for any.
pub fn pattern(hex: &str) -> Option<Pattern> {
    let byte = |two: &[u8]| match two {
        b".." => Some(None),
        _ => Some(Some(u8::from_str_radix(str::from_utf8(two).ok()?, 16).ok()?)),
    };
    hex.as_bytes().chunks(2).map(byte).collect()
}

fn left_out(command: &[u8], without: &[Pattern]) -> bool {
    let fits = |(wanted, byte): (&Option<u8>, &u8)| wanted.is_none_or(|wanted| wanted == *byte);
    without.iter().any(|pattern| pattern.len() <= command.len() && pattern.iter().zip(command).all(fits))
}

/// What the streams may have in them.
#[derive(Clone, Default)]
pub struct Wanted {
    /// Commands that begin as one of these are left out.
    pub without: Vec<Pattern>,
    pub figures: Figures,
}

impl Wanted {
    fn leaves_out(&self, command: &[u8], state: &State) -> bool {
        left_out(command, &self.without) || self.figures.leave_out(command, state)
    }
}

/// A stream of at most `count` commands.
pub fn generate(seed: u64, profile: &str, count: usize, wanted: &Wanted) -> Option<Vec<u8>> {
    if profile == draws::PROFILE {
        return Some(draws::generate(count));
    }
    if profile == mangled::PROFILE {
        return Some(mangled::generate(seed, count, wanted));
    }
    if let Some(plan) = Plan::steady(profile) {
        return Some(follow(plan, Random::new(seed, 1001), Said::nothing(), count, wanted));
    }
    let number = PROFILES.iter().position(|name| *name == profile)?;
    let mut random = Random::new(seed, number as u64);
    // Endings are tried on streams of every length, the empty one too.
    let count = match profile {
        "endings" if random.chance(50) => random.below(12) as usize,
        "endings" => random.below(count as u64 + 1) as usize,
        _ => count,
    };
    let plan = Plan::draw(profile, seed, &mut random, count);
    let said = Said::draw(profile, Random::new(seed, 2000 + number as u64), wanted.figures);
    Some(follow(plan, random, said, count, wanted))
}

fn follow(plan: Plan, random: Random, said: Said, count: usize, wanted: &Wanted) -> Vec<u8> {
    let mut generator = Generator {
        random,
        plan,
        state: State::new(),
        stream: Vec::new(),
        written: 0,
        count,
        wanted: wanted.clone(),
        said,
        cpus: Vec::new(),
        threads: Vec::new(),
    };
    generator.run();
    generator.stream
}

/// The commands of a stream, the one that ends the run included; what comes after it is left out.
pub fn split(stream: &[u8]) -> Vec<&[u8]> {
    let mut commands = Vec::new();
    let mut rest = stream;
    while let Some(byte) = rest.first() {
        let length = operands(*byte).map_or(rest.len(), |n| (n + 1).min(rest.len()));
        let (command, after) = rest.split_at(length);
        commands.push(command);
        rest = after;
    }
    commands
}

impl Generator {
    fn full(&self) -> bool {
        self.written >= self.count
    }

    /// Write a command and let the second reading obey it.
    fn write(&mut self, command: &[u8]) -> Option<Answer> {
        if self.full() || self.wanted.leaves_out(command, &self.state) {
            return None;
        }
        self.written += 1;
        self.stream.extend_from_slice(command);
        let answer = self.state.command(command);
        if command[0] == 0x10 && answer == Answer::Obeyed {
            self.threads.push(u16::from_le_bytes([command[1], command[2]]));
        }
        Some(answer)
    }

    fn run(&mut self) {
        self.set_up();
        while !self.full() {
            let before = self.written;
            if self.random.chance(self.plan.bad) {
                self.write_bad();
            } else if self.state.sealed {
                self.say_late();
                self.step();
            } else {
                // Never sealed: only refusals are left.
                self.write_bad();
            }
            if self.written == before && !self.state.sealed && left_out(&[0x04], &self.wanted.without) {
                break;
            }
        }
        self.finish();
    }

    /// CPUs, nodes, places, seal, and some of the threads.
    fn set_up(&mut self) {
        let mut cpus: Vec<u8> = vec![0];
        if self.plan.early && self.plan.cpus > 1 {
            cpus.push(63);
        }
        while cpus.len() < self.plan.cpus {
            let cpu = if self.plan.dense {
                cpus.len() as u8
            } else {
                self.random.below(64) as u8
            };
            if !cpus.contains(&cpu) {
                cpus.push(cpu);
            }
        }
        self.random.shuffle(&mut cpus);
        self.seal_early();
        for cpu in &cpus {
            self.sprinkle();
            self.write(&[0x01, *cpu]);
            self.seal_early();
        }
        self.random.shuffle(&mut cpus);
        // Sometimes the tree goes on growing after the first CPUs have their places.
        let early = if self.plan.grows { cpus.len() / 2 } else { 0 };
        self.make_nodes(if early > 0 { self.plan.nodes / 2 } else { self.plan.nodes });
        self.place(&cpus[..early]);
        self.make_nodes(self.plan.nodes);
        self.place(&cpus[early..]);
        self.sprinkle();
        self.say_all();
        self.write(&[0x04]);
        cpus.sort();
        self.cpus = cpus;
        for _ in 0..self.plan.threads {
            self.declare();
        }
    }

    /// Nodes until there are so many.
    fn make_nodes(&mut self, wanted: usize) {
        while self.state.topology.nodes() < wanted && !self.full() {
            self.sprinkle();
            let nodes = self.state.topology.nodes();
            let parent = match self.plan.shape {
                plan::Shape::Flat => 0,
                plan::Shape::Deep => nodes - 1 - self.random.below(2.min(nodes as u64)) as usize,
                plan::Shape::Uneven => self.random.below(nodes as u64) as usize,
                plan::Shape::Binary => (nodes - 1) / 2,
            };
            let kind = self.random.below(4) as u8;
            if self.write(&[0x02, parent as u8, kind]) != Some(Answer::Obeyed) {
                let free: Vec<u8> =
                    (0..nodes as u8).filter(|n| self.state.topology.may_have_child(*n)).collect();
                if free.is_empty() {
                    return;
                }
                let parent = self.random.of(&free);
                if self.write(&[0x02, parent, kind]).is_none() {
                    return;
                }
            }
        }
    }

    fn place(&mut self, cpus: &[u8]) {
        for cpu in cpus {
            self.sprinkle();
            let nodes = self.state.topology.nodes() as u8;
            let leaves: Vec<u8> = (0..nodes).filter(|n| self.state.topology.is_leaf(*n)).collect();
            let leaf = match self.plan.crowd {
                true => leaves[self.random.below(leaves.len().min(2) as u64) as usize],
                false => self.random.of(&leaves),
            };
            self.write(&[0x03, leaf, *cpu]);
            self.seal_early();
        }
    }

    /// A seal that question 9 refuses.
    fn seal_early(&mut self) {
        if self.plan.early && !self.state.may_seal() {
            self.write(&[0x04]);
        }
    }

    /// A refused command now and then, also before the seal, and what is said of the shortest timeslice.
    fn sprinkle(&mut self) {
        self.say_some();
        while self.random.chance(self.plan.bad) {
            self.write_bad();
        }
    }

    fn write_bad(&mut self) {
        self.say_bad();
        let command = self.bad_command();
        self.write(&command);
    }

    fn declare(&mut self) {
        let thread = if self.plan.dense {
            self.threads.len() as u16
        } else {
            self.random.below(1024) as u16
        };
        if thread as usize >= 1024 || self.state.thread(thread).is_some() {
            return;
        }
        let class = self.class();
        let value = self.value();
        let pin = if self.random.chance(self.plan.pins) {
            self.random.of(&self.cpus)
        } else {
            0xff
        };
        let [low, high] = thread.to_le_bytes();
        self.write(&[0x10, low, high, class, value, pin]);
    }

    fn class(&mut self) -> u8 {
        let classes = self.plan.classes;
        self.random.of(classes)
    }

    fn value(&mut self) -> u8 {
        const EDGES: [u8; 20] =
            [0, 1, 14, 15, 16, 17, 31, 32, 33, 63, 64, 65, 95, 96, 97, 111, 112, 113, 126, 127];
        match self.plan.values {
            plan::Values::Few(value) => {
                let near = self.random.below(3) as u8;
                (value + near).min(127)
            }
            plan::Values::Zeros if self.random.chance(30) => 0,
            _ if self.random.chance(50) => self.random.of(&EDGES),
            _ => self.random.below(128) as u8,
        }
    }

    fn cpu(&mut self) -> u8 {
        if self.random.chance(self.plan.favour) {
            let first = self.cpus.len().min(2);
            self.cpus[self.random.below(first as u64) as usize]
        } else {
            self.random.of(&self.cpus)
        }
    }

    fn with_place(&mut self, place: Place) -> Option<u16> {
        let fits = |t: &u16| self.state.th(*t).place == place;
        let found: Vec<u16> = self.threads.iter().copied().filter(fits).collect();
        if found.is_empty() { None } else { Some(self.random.of(&found)) }
    }

    fn any_thread(&mut self) -> Option<u16> {
        if self.threads.is_empty() {
            None
        } else {
            Some(self.random.of(&self.threads))
        }
    }

    /// One command after the seal.
    fn step(&mut self) {
        let waits: usize = self.cpus.iter().map(|c| self.state.cpus[*c as usize].queue.load()).sum();
        // Now and then the target changes, so that queues fill and run dry.
        if self.random.chance(1) {
            self.plan.target = self.random.of(self.plan.targets);
        }
        if self.plan.near > 0 && self.random.chance(self.plan.near) {
            return self.near_expiry();
        }
        let many = waits > self.plan.target * self.cpus.len();
        let roll = self.random.weighted(&self.plan.weights);
        match roll {
            0 => match self.with_place(Place::Blocked) {
                Some(thread) if !many => {
                    let cpu = self.cpu();
                    let [low, high] = thread.to_le_bytes();
                    self.write(&[0x12, cpu, low, high]);
                }
                _ => self.block(),
            },
            1 => {
                let cpu = self.cpu();
                let flags = self.random.of(self.plan.flags);
                self.write(&[0x13, cpu, flags]);
            }
            2 => self.block(),
            3 => {
                let tick = self.tick();
                let mut command = vec![0x11];
                command.extend_from_slice(&tick.to_le_bytes());
                self.write(&command);
            }
            4 => {
                let cpu = self.cpu();
                self.write(&[0x14, cpu]);
                if self.random.chance(self.plan.follow) {
                    self.write(&[0x17, cpu]);
                }
            }
            5 => self.stattick(),
            6 => {
                let cpu = self.cpu();
                self.write(&[0x16, cpu]);
                if self.random.chance(self.plan.follow) {
                    self.write(&[0x17, cpu]);
                }
            }
            7 => {
                let cpu = self.cpu();
                self.write(&[0x17, cpu]);
            }
            8 => self.donate(),
            9 => {
                if let Some(thread) = self.any_thread() {
                    let [low, high] = thread.to_le_bytes();
                    self.write(&[0x19, low, high]);
                }
            }
            10 => {
                let running = if self.random.chance(70) {
                    self.with_place(Place::Running)
                } else {
                    self.any_thread()
                };
                if let Some(thread) = running {
                    let [low, high] = thread.to_le_bytes();
                    let mark = if self.state.th(thread).critical {
                        self.random.chance(20) as u8
                    } else {
                        self.random.chance(60) as u8
                    };
                    self.write(&[0x1a, low, high, mark]);
                }
            }
            _ => self.declare(),
        }
    }

    /// A CPU that runs a thread blocks it; mostly one whose own queue is empty, so that it steals or idles.
    fn block(&mut self) {
        let runs = |c: &u8| self.state.cpus[*c as usize].running.is_some();
        let busy: Vec<u8> = self.cpus.iter().copied().filter(runs).collect();
        let cpu = if busy.is_empty() || self.random.chance(20) {
            self.cpu()
        } else {
            self.random.of(&busy)
        };
        let flags = self.random.below(4) as u8;
        self.write(&[0x13, cpu, flags]);
    }

    fn stattick(&mut self) {
        let cpu = if self.random.chance(self.plan.boot) { 0 } else { self.cpu() };
        let left = self.state.cpus[0].balance_time;
        let dt = match self.random.below(8) {
            0 => 0,
            1 => left,
            2 => left + 1,
            3 => left.saturating_sub(1),
            4 => 1_000_000,
            5 => u32::MAX as u64,
            6 => self.random.below(1 << 32),
            _ if self.random.chance(self.plan.often) => left + 1,
            _ => 10_000_000,
        };
        let mut command = vec![0x15, cpu];
        command.extend_from_slice(&(dt.min(u32::MAX as u64) as u32).to_le_bytes());
        self.write(&command);
    }

    fn tick(&mut self) -> u64 {
        let now = self.state.tick;
        let jump = match self.random.below(100) {
            0 if self.plan.far => return now.max(1 << 32),
            1 if self.plan.far => (1 << 32) - 1 + self.random.below(3),
            2 if self.plan.far => (1 << 32) * (1 + self.random.below(5)) + self.random.below(120),
            3 if self.plan.far => self.random.next() >> (2 + self.random.below(40)),
            4 if self.plan.farthest => (1 << 62) - now.min(1 << 62),
            5 if self.plan.farthest => (1u64 << 62).saturating_sub(now + self.random.below(200)),
            _ => self.random.of(&[0, 1, 1, 2, 2, 3, 5, 8, 16, 31, 32, 33, 99, 100, 101]),
        };
        now.saturating_add(jump).min(1 << 62)
    }

    fn donate(&mut self) {
        let place = self.random.of(&[Place::Queued, Place::Queued, Place::Running, Place::Blocked]);
        let Some(thread) = self.with_place(place).or_else(|| self.any_thread()) else {
            return;
        };
        let cpu = match self.state.th(thread).queue_cpu {
            Some(cpu) if self.random.chance(30) => cpu,
            _ => self.cpu(),
        };
        let record = self.state.th(thread);
        let near = record.donated.unwrap_or(record.own);
        let (class, value) = match self.random.below(4) {
            0 => (near.class, near.value),
            1 => (near.class, (near.value + 1).min(127)),
            2 => (near.class, near.value.saturating_sub(1)),
            _ => (self.class(), self.value()),
        };
        let [low, high] = thread.to_le_bytes();
        self.write(&[0x18, cpu, low, high, class, value]);
    }

    /// The ending: clean, by refusal 1, or by refusal 2 with the last command cut short.
    fn finish(&mut self) {
        match self.plan.ending {
            plan::Ending::Clean => {}
            plan::Ending::Unknown => {
                let mut byte = self.random.below(256) as u8;
                while operands(byte).is_some() {
                    byte = self.random.below(256) as u8;
                }
                self.stream.push(byte);
                for _ in 0..self.random.below(12) {
                    let more = self.random.below(256) as u8;
                    self.stream.push(more);
                }
            }
            plan::Ending::Cut(number) => {
                let lengths = |byte: u8| (0..operands(byte).unwrap_or(0)).map(move |kept| (byte, kept));
                let cuts: Vec<(u8, usize)> = (0..=255).flat_map(lengths).collect();
                let (command, kept) = cuts[number as usize % cuts.len()];
                self.stream.push(command);
                for _ in 0..kept {
                    let more = self.random.below(4) as u8;
                    self.stream.push(more);
                }
            }
        }
    }
}
