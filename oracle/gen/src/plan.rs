//! What a stream is like: a profile, varied by the seed.

use crate::random::Random;

pub const PROFILES: [&str; 19] = [
    "solo", "leaf", "flat", "deep", "uneven", "nodes", "wide", "queues", "pins", "classes", "ticks", "balance",
    "steal", "donate", "refuse", "endings", "mixed", "mangled", "shortest",
];

#[derive(Clone, Copy)]
pub enum Shape {
    Flat,
    Deep,
    Uneven,
    Binary,
}

#[derive(Clone, Copy)]
pub enum Values {
    Any,
    /// Three neighbouring values.
    Few(u8),
    /// Any, and often 0.
    Zeros,
}

#[derive(Clone, Copy)]
pub enum Ending {
    Clean,
    Unknown,
    /// One of the 42 places in which a command can be cut.
    Cut(u64),
}

pub struct Plan {
    pub cpus: usize,
    /// Numbers from 0 on, or any.
    pub dense: bool,
    pub nodes: usize,
    pub shape: Shape,
    /// All CPUs on the first two leaves, the others empty.
    pub crowd: bool,
    /// Nodes and places take turns.
    pub grows: bool,
    /// A seal is tried before the first CPU and after each CPU and place, and CPU 63 is among them if there are two.
    pub early: bool,
    pub threads: usize,
    /// Chances in a hundred.
    pub pins: u64,
    pub bad: u64,
    pub favour: u64,
    pub follow: u64,
    pub boot: u64,
    pub often: u64,
    pub near: u64,
    pub classes: &'static [u8],
    pub values: Values,
    pub flags: &'static [u8],
    pub far: bool,
    pub farthest: bool,
    /// Waiting threads to a CPU, about: now, and what it changes to.
    pub target: usize,
    pub targets: &'static [usize],
    /// wake, schedule, block, tick, hardtick, stattick, resched, preempt, donate, remove, critical, declare
    pub weights: [u64; 12],
    pub ending: Ending,
}

const USER: &[u8] = &[2, 2, 2, 2, 2, 2, 3, 1, 0];
const ALL_FLAGS: &[u8] = &[0, 1, 2, 3, 4, 4, 5, 5, 6, 6, 7, 7];

impl Plan {
    /// Nothing varies but the commands: the profile `steady:CPUS:THREADS`, for measurements.
    pub fn steady(profile: &str) -> Option<Plan> {
        let (cpus, threads) = profile.strip_prefix("steady:")?.split_once(':')?;
        let cpus = cpus.parse().ok().filter(|cpus| (1..=64).contains(cpus))?;
        let threads = threads.parse().ok().filter(|threads| *threads <= 1024)?;
        Some(Plan {
            cpus,
            dense: true,
            nodes: 1 + cpus.div_ceil(4),
            shape: Shape::Flat,
            crowd: false,
            grows: false,
            early: false,
            threads,
            pins: 0,
            bad: 0,
            favour: 0,
            follow: 60,
            boot: 20,
            often: 30,
            near: 0,
            classes: USER,
            values: Values::Any,
            flags: ALL_FLAGS,
            far: false,
            farthest: false,
            target: 1,
            targets: &[1],
            weights: [20, 14, 8, 8, 9, 9, 5, 6, 6, 2, 2, 0],
            ending: Ending::Clean,
        })
    }

    pub fn draw(profile: &str, seed: u64, r: &mut Random, count: usize) -> Plan {
        let cpus = r.of(&[1, 2, 2, 3, 4, 4, 5, 6, 8, 8, 12, 16]);
        let mixes: [&[u8]; 6] = [USER, &[0, 1, 2, 3], &[2], &[2, 2, 3], &[0, 1, 2], &[3, 3, 2, 0]];
        let mut plan = Plan {
            cpus,
            dense: r.chance(60),
            nodes: 1 + r.below(2 * cpus as u64 + 2) as usize,
            shape: r.of(&[Shape::Flat, Shape::Deep, Shape::Uneven, Shape::Binary]),
            crowd: r.chance(20),
            grows: r.chance(30),
            early: false,
            threads: r.between(1, 5 * cpus as u64 + 3) as usize,
            pins: r.of(&[0, 0, 10, 30]),
            bad: r.of(&[0, 0, 1, 3]),
            favour: r.of(&[0, 20, 50]),
            follow: r.of(&[20, 60, 90]),
            boot: r.of(&[20, 60]),
            often: r.of(&[0, 30, 80]),
            near: 0,
            classes: r.of(&mixes),
            values: if r.chance(70) { Values::Any } else { Values::Few(r.below(126) as u8) },
            flags: ALL_FLAGS,
            far: r.chance(40),
            farthest: r.chance(5),
            target: 2,
            targets: &[0, 1, 1, 2, 2, 3, 4, 6, 10, 20],
            weights: [20, 14, 8, 8, 9, 9, 5, 6, 6, 2, 2, 1],
            ending: Ending::Clean,
        };
        match profile {
            "solo" => {
                plan.cpus = 1;
                plan.nodes = r.of(&[1, 1, 2, 4]);
                plan.threads = r.between(1, 24) as usize;
            }
            "leaf" => plan.nodes = 1,
            "flat" => {
                plan.shape = Shape::Flat;
                plan.nodes = 1 + r.between(1, plan.cpus as u64 + 1) as usize;
            }
            "deep" => {
                plan.shape = r.of(&[Shape::Deep, Shape::Binary]);
                plan.nodes = r.of(&[3, 5, 9, 17, 33]);
            }
            "uneven" => {
                plan.shape = Shape::Uneven;
                plan.nodes = r.between(4, 24) as usize;
                plan.crowd = r.chance(50);
            }
            "nodes" => {
                plan.nodes = r.of(&[100, 127, 128, 128, 129, 140]);
                plan.cpus = r.of(&[2, 8, 24, 40]);
                plan.threads = r.between(4, 60) as usize;
                plan.bad = 3;
            }
            "wide" => {
                plan.cpus = r.of(&[32, 48, 63, 64, 64]);
                plan.nodes = r.of(&[1, 9, 17, 65, 90]);
                plan.threads = r.of(&[64, 200, 500, 1024, 1024]).min(count / 2).max(8);
                plan.dense = true;
            }
            "queues" => {
                plan.cpus = r.of(&[1, 1, 2, 3]);
                plan.threads = r.of(&[20, 40, 70, 140]).min(count / 4);
                plan.classes = r.of(&[&[2], &[2, 2, 2, 3], &[2, 2, 1]]);
                plan.values = r.of(&[plan.values, Values::Zeros]);
                plan.target = 18;
                plan.targets = &[14, 15, 16, 17, 18, 30, 33, 60, 100];
                plan.weights = [34, 12, 2, 10, 14, 8, 2, 8, 4, 2, 1, 1];
            }
            "pins" => {
                plan.pins = r.of(&[50, 80, 100]);
                plan.cpus = plan.cpus.max(2);
            }
            "classes" => {
                plan.classes = r.of(&mixes[1..]);
                plan.weights = [24, 20, 10, 6, 8, 8, 6, 8, 8, 4, 2, 2];
            }
            "ticks" => {
                plan.far = true;
                plan.farthest = r.chance(30);
                plan.weights = [14, 10, 6, 22, 26, 8, 3, 6, 2, 1, 3, 1];
                plan.cpus = plan.cpus.min(4);
                plan.threads = r.between(1, 40) as usize;
            }
            "balance" => {
                plan.cpus = plan.cpus.max(2);
                plan.boot = 95;
                plan.often = 95;
                plan.weights = [18, 12, 8, 3, 4, 36, 2, 4, 3, 1, 2, 1];
            }
            "steal" => {
                plan.cpus = plan.cpus.max(3);
                plan.favour = 70;
                plan.weights = [26, 16, 26, 3, 3, 5, 8, 10, 2, 1, 1, 1];
                plan.pins = r.of(&[0, 20, 60]);
            }
            "donate" => {
                plan.weights = [16, 12, 8, 4, 4, 4, 4, 4, 28, 10, 6, 1];
                plan.classes = &[0, 1, 2, 2, 3];
            }
            "refuse" => {
                plan.bad = r.of(&[30, 60]);
                plan.early = true;
                plan.cpus = plan.cpus.min(8);
                plan.nodes = plan.nodes.min(12);
            }
            "endings" => {
                // The seeds 1 to 125 have every cut.
                plan.ending = [Ending::Clean, Ending::Unknown, Ending::Cut(seed / 3)][seed as usize % 3];
                plan.bad = r.of(&[0, 20]);
                plan.cpus = plan.cpus.min(4);
                plan.nodes = plan.nodes.min(6);
                plan.threads = plan.threads.min(6);
            }
            "shortest" => {
                // Up to 40 threads wait in timeshare, so that 32 / load is below, at and above every figure.
                plan.cpus = r.of(&[1, 1, 1, 2, 3]);
                plan.nodes = plan.nodes.min(6);
                plan.threads = (plan.cpus * r.between(1, 42) as usize).min(count / 4);
                plan.classes = r.of(&[&[2], &[2], &[2, 2, 2, 2, 3], &[2, 2, 2, 1]]);
                plan.near = r.of(&[15, 30]);
                plan.target = r.between(0, 40) as usize;
                plan.targets = &[0, 1, 2, 3, 4, 5, 6, 8, 9, 10, 11, 14, 16, 17, 20, 31, 32, 33, 36, 40];
                plan.weights = [34, 14, 4, 8, 12, 6, 2, 6, 4, 2, 2, 1];
            }
            _ => {}
        }
        plan
    }
}
