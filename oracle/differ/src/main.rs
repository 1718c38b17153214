//! differ FIRST LAST [PROFILE] [--left SIDE] [--right SIDE] [--count N] [--without HEX]... [--figure 2|other|any] [--lines]
//!     [--as-found]
//! differ --stream FILE [--left SIDE] [--right SIDE] [--lines] [--as-found]
//!
//! Runs two sides over streams and stops at the first byte that differs, with the shortest stream it can find, or with
//! `--as-found` at once. `--lines` leaves the state out of the comparison. Run from the top of the repository;
//! oracle/sides lists the sides; the first two are compared unless others are named.

use std::{
    collections::BTreeMap,
    fs,
    io::Write,
    process::{Command, Stdio, exit},
};

use r#gen::{PROFILES, Wanted, draws::PROFILE, figures::Figures, generate, pattern, split};
use second::{Answer, Place, State, UNSET, notes::{Noted, Slices}};

const SHRUNK: &str = "oracle/build/difference.stream";

/// Where the sides read the stream from, a file of this process.
fn stream_file() -> String {
    format!("oracle/build/compared.{}", std::process::id())
}

#[derive(Clone, Copy, PartialEq, Eq, PartialOrd, Ord)]
enum Mode {
    Lines,
    Dump,
    Digest,
}

struct Side {
    name: String,
    most: Mode,
    command: Vec<String>,
}

fn stop(message: &str) -> ! {
    eprintln!("{message}");
    exit(2)
}

fn sides() -> Vec<Side> {
    let text = fs::read_to_string("oracle/sides").unwrap_or_else(|_| stop("no oracle/sides here"));
    let lines = text.lines().filter(|line| !line.starts_with('#') && !line.trim().is_empty());
    lines
        .map(|line| {
            let words: Vec<String> = line.split_whitespace().map(str::to_string).collect();
            let most = match words[1].as_str() {
                "lines" => Mode::Lines,
                "dump" => Mode::Dump,
                "digest" => Mode::Digest,
                _ => stop("oracle/sides: lines, dump or digest"),
            };
            Side {
                name: words[0].clone(),
                most,
                command: words[2..].to_vec(),
            }
        })
        .collect()
}

impl Side {
    /// All that the side prints for the stream; a side that fails says so at the end.
    fn run(&self, stream: &[u8], mode: Mode) -> Vec<u8> {
        let file = stream_file();
        fs::write(&file, stream).unwrap();
        let mut command = Command::new("timeout");
        command.arg("600").args(&self.command);
        match mode {
            Mode::Lines => {}
            Mode::Dump => {
                command.arg("--dump");
            }
            Mode::Digest => {
                command.arg("--digest");
            }
        }
        let result = command
            .stdin(fs::File::open(&file).unwrap())
            .stderr(Stdio::piped())
            .output()
            .unwrap_or_else(|error| stop(&format!("{}: {error}", self.name)));
        fs::remove_file(&file).unwrap();
        let mut text = result.stdout;
        if !result.status.success() {
            text.extend_from_slice(format!("failed: {}\n", result.status).as_bytes());
            text.extend_from_slice(&result.stderr);
        }
        text
    }
}

struct Pair<'a> {
    left: &'a Side,
    right: &'a Side,
    mode: Mode,
    as_found: bool,
}

impl Pair<'_> {
    fn differ(&self, stream: &[u8]) -> bool {
        self.left.run(stream, self.mode) != self.right.run(stream, self.mode)
    }

    /// Leaves out ever smaller runs of commands as long as the two still differ.
    fn shrink(&self, stream: &[u8]) -> Vec<u8> {
        let mut commands: Vec<Vec<u8>> = split(stream).iter().map(|c| c.to_vec()).collect();
        // First what comes after the first difference.
        let (mut low, mut high) = (0, commands.len());
        while low + 1 < high {
            let middle = (low + high) / 2;
            if self.differ(&commands[..middle].concat()) { high = middle } else { low = middle }
        }
        if self.differ(&commands[..high].concat()) {
            commands.truncate(high);
        }
        let mut run = (commands.len() / 2).max(1);
        loop {
            let (mut at, mut shorter) = (0, false);
            while at < commands.len() {
                let mut fewer = commands.clone();
                fewer.drain(at..(at + run).min(commands.len()));
                if self.differ(&fewer.concat()) {
                    commands = fewer;
                    shorter = true;
                } else {
                    at += run;
                }
            }
            if run > 1 {
                run = run.div_ceil(2);
            } else if !shorter {
                return commands.concat();
            }
        }
    }

    fn report(&self, stream: &[u8]) {
        let show = if self.mode == Mode::Lines { Mode::Lines } else { Mode::Dump };
        let (left, right) = (self.left.run(stream, show), self.right.run(stream, show));
        let (left, right) = (String::from_utf8_lossy(&left), String::from_utf8_lossy(&right));
        let (mut lefts, mut rights) = (left.lines(), right.lines());
        let mut last = "";
        loop {
            let (l, r) = (lefts.next(), rights.next());
            if l != r || l.is_none() {
                println!("after line: {last}");
                println!("{}: {}", self.left.name, l.unwrap_or("(nothing)"));
                println!("{}: {}", self.right.name, r.unwrap_or("(nothing)"));
                return;
            }
            let line = l.unwrap();
            if !["s ", "c ", "t "].iter().any(|state| line.starts_with(state)) {
                last = line;
            }
        }
    }

    fn check(&self, stream: &[u8], label: &str) -> u64 {
        let left = self.left.run(stream, self.mode);
        let right = self.right.run(stream, self.mode);
        if left == right {
            let text = String::from_utf8_lossy(&left);
            let end = text.lines().last().unwrap_or("");
            let mut words = end.split(' ');
            if words.next() != Some("end") {
                stop(&format!("{label}: both fail: {end}"));
            }
            return words.next().unwrap().parse().unwrap();
        }
        println!("{label}: {} and {} differ", self.left.name, self.right.name);
        std::io::stdout().flush().unwrap();
        if self.as_found {
            exit(1)
        }
        let shrunk = self.shrink(stream);
        fs::write(SHRUNK, &shrunk).unwrap();
        println!("{} commands, in {SHRUNK}:", split(&shrunk).len());
        for command in split(&shrunk) {
            let hex: Vec<String> = command.iter().map(|byte| format!("{byte:02X}")).collect();
            println!("  {}", hex.join(" "));
        }
        self.report(&shrunk);
        exit(1)
    }
}

/// What the streams reach of four rules that ordinary commands seldom touch.
#[derive(Default)]
struct Reached {
    /// Calls of `wakeup` by donations to a thread that waits: of the CPU that runs the command, and of another.
    own: u64,
    other: u64,
    seals: Seals,
    /// Puts of a User thread of value 0 into timeshare beside another value, by filling and emptying index.
    zero_puts: [[u64; 8]; 8],
    figures: Reaching,
}

/// The shortest timeslice: commands read while it was 2 and while it was another, what became of 05, and what timeslices were.
#[derive(Default)]
struct Reaching {
    at_two: u64,
    at_others: u64,
    /// Obeyed, by operand.
    set: BTreeMap<u8, u64>,
    cut_short: u64,
    late: u64,
    /// Refused with 6, by operand.
    outside: BTreeMap<u8, u64>,
    noted: [Noted; 2],
}

/// Question 9, asked before the seal: yes, or why not.
#[derive(Default)]
struct Seals {
    yes: u64,
    no_cpu: u64,
    without_cpu_0: u64,
    one_unplaced: u64,
    last_unplaced: u64,
    cpu_63_unplaced: u64,
    several_unplaced: u64,
}

impl Reached {
    fn add(&mut self, stream: &[u8]) {
        let mut state = State::new();
        for command in split(stream) {
            if command[0] == 0x04 && !state.sealed {
                self.seals.add(&state);
            }
            let answer = state.command(command);
            self.figures.add(command, answer, &state);
            if matches!(answer, Answer::Refused(_)) || command[0] != 0x18 {
                continue;
            }
            let thread = u16::from_le_bytes([command[2], command[3]]);
            if state.th(thread).place == Place::Queued {
                self.own += state.own_calls;
                self.other += state.wakeups;
            }
        }
        for (filling, emptying) in state.cpus.iter().flat_map(|cpu| &cpu.queue.zero_puts) {
            self.zero_puts[*filling][*emptying] += 1;
        }
        self.figures.noted[0].add(&state.notes.at_two);
        self.figures.noted[1].add(&state.notes.at_others);
    }
}

impl Reaching {
    fn add(&mut self, command: &[u8], answer: Answer, state: &State) {
        *(if state.shortest == UNSET { &mut self.at_two } else { &mut self.at_others }) += 1;
        if command[0] == 0x05 {
            match answer {
                Answer::Refused(2) => self.cut_short += 1,
                Answer::Refused(3) => self.late += 1,
                Answer::Refused(_) => *self.outside.entry(command[1]).or_default() += 1,
                _ => *self.set.entry(command[1]).or_default() += 1,
            }
        }
    }

    fn show(&self) {
        let Reaching { cut_short, late, .. } = self;
        let set = |first, last| self.set.range(first..=last).map(|(_, times)| times).sum::<u64>();
        let outside = |first, last| self.outside.range(first..=last).map(|(_, times)| times).sum::<u64>();
        println!(
            "command 05: 2 set {} times, 3 {}, 4 to 30 {}, 31 {}, 32 {}; refused: cut short {cut_short}, after the seal {late}, \
             0 {}, 1 {}, 33 {}, 34 to 255 {}",
            set(2, 2),
            set(3, 3),
            set(4, 30),
            set(31, 31),
            set(32, 32),
            outside(0, 0),
            outside(1, 1),
            outside(33, 33),
            outside(34, 255)
        );
        for (noted, figure) in self.noted.iter().zip(["2", "others"]) {
            if *noted == Noted::default() {
                continue;
            }
            let slices = |of: &Slices| format!("below it {}, equal {}, above {}", of.below, of.equal, of.above);
            println!(
                "User timeslices at shortest {figure}: load 0 {}; 32 / load at deadlines {}, at hard ticks {}; paid there, \
                 where the shortest is allowed: one tick less {}, as many {}, one more {}",
                noted.load_0,
                slices(&noted.deadlines),
                slices(&noted.hard_ticks),
                noted.one_before,
                noted.expiring,
                noted.one_after
            );
        }
        println!("{} commands at shortest timeslice 2, {} at others", self.at_two, self.at_others);
    }
}

impl Seals {
    fn add(&mut self, state: &State) {
        let declared: Vec<u8> = (0..64).filter(|cpu| state.declared(*cpu)).collect();
        let unplaced: Vec<u8> = declared.iter().copied().filter(|cpu| !state.topology.placed(*cpu)).collect();
        let last = declared.last().copied();
        let count = match unplaced[..] {
            _ if declared.is_empty() => &mut self.no_cpu,
            _ if declared[0] != 0 => &mut self.without_cpu_0,
            [] => &mut self.yes,
            [63] => &mut self.cpu_63_unplaced,
            [cpu] if Some(cpu) == last => &mut self.last_unplaced,
            [_] => &mut self.one_unplaced,
            _ => &mut self.several_unplaced,
        };
        *count += 1;
    }
}

fn main() {
    let sides = sides();
    let (mut left, mut right) = (sides[0].name.clone(), sides[1].name.clone());
    let (mut count, mut wanted, mut file) = (1000, Wanted::default(), None);
    let (mut lines, mut as_found) = (false, false);
    let mut plain = Vec::new();
    let mut arguments = std::env::args().skip(1);
    while let Some(argument) = arguments.next() {
        let mut value = || arguments.next().unwrap_or_else(|| stop("an option without its value"));
        match argument.as_str() {
            "--left" => left = value(),
            "--right" => right = value(),
            "--count" => count = value().parse().unwrap_or_else(|_| stop("--count N")),
            "--without" => {
                wanted.without.push(pattern(&value()).unwrap_or_else(|| stop("--without HEX")))
            }
            "--figure" => {
                wanted.figures = Figures::named(&value()).unwrap_or_else(|| stop("--figure 2, other or any"))
            }
            "--lines" => lines = true,
            "--as-found" => as_found = true,
            "--stream" => file = Some(value()),
            _ => plain.push(argument),
        }
    }
    let side = |name: &str| {
        sides.iter().find(|s| s.name == name).unwrap_or_else(|| stop(&format!("no side {name}")))
    };
    let (left, right) = (side(&left), side(&right));
    let pair = Pair {
        left,
        right,
        mode: if lines { Mode::Lines } else { left.most.min(right.most) },
        as_found,
    };
    fs::create_dir_all("oracle/build").unwrap();
    if let Some(file) = file {
        let commands = pair.check(&fs::read(&file).unwrap(), &file);
        println!("{commands} commands, no difference");
        return;
    }
    if plain.len() < 2 {
        stop("usage: compare FIRST LAST [PROFILE] [--left SIDE] [--right SIDE] [--count N] [--without HEX]... \
              [--figure 2|other|any]");
    }
    let seed = |text: &str| text.parse::<u64>().unwrap_or_else(|_| stop("a seed is a number"));
    let (first, last) = (seed(&plain[0]), seed(&plain[1]));
    let profiles = match plain.get(2) {
        Some(name) if PROFILES.contains(&name.as_str()) || name == PROFILE => vec![name.as_str()],
        Some(name) => stop(&format!("no profile {name}; there are {}", PROFILES.join(", "))),
        None => PROFILES.to_vec(),
    };
    let (mut streams, mut commands) = (0, 0);
    let mut reached = Reached::default();
    for seed in first..=last {
        for profile in &profiles {
            let stream = generate(seed, profile, count, &wanted).unwrap();
            commands += pair.check(&stream, &format!("seed {seed} profile {profile} count {count}"));
            reached.add(&stream);
            streams += 1;
        }
    }
    println!(
        "donations to a waiting thread that call `wakeup`: {} of the CPU that runs the command, {} of another",
        reached.own, reached.other
    );
    let seals = &reached.seals;
    println!(
        "question 9: {} yes; no: {} without a CPU, {} without CPU 0, unplaced: {} CPU 63 alone, {} another last CPU alone, \
         {} one that is not the last, {} several",
        seals.yes,
        seals.no_cpu,
        seals.without_cpu_0,
        seals.cpu_63_unplaced,
        seals.last_unplaced,
        seals.one_unplaced,
        seals.several_unplaced
    );
    let puts = &reached.zero_puts;
    let ahead = |steps: usize| (0..8).map(|filling| puts[filling][(filling + steps) % 8]).sum::<u64>();
    println!(
        "value 0 put beside other values at {} of 64 pairs of indexes: {} puts, {} with equal indexes, {} stepped back",
        puts.as_flattened().iter().filter(|n| **n > 0).count(),
        puts.as_flattened().iter().sum::<u64>(),
        ahead(0),
        ahead(7)
    );
    reached.figures.show();
    println!(
        "{} and {}: seeds {first} to {last}, {} profiles, {streams} streams, {commands} commands, no difference",
        pair.left.name,
        pair.right.name,
        profiles.len()
    );
}
