//! asked LAST COUNT: over the seeds 1 to LAST of every profile, how often each command failed which questions at once.
//!
//! A line is the command, `obeyed` or the questions answered no, and how often. `2/N` is a command cut after N operand
//! bytes; bytes that are no command stand together under FF.

use std::collections::BTreeMap;

use r#gen::{PROFILES, Wanted, generate, split};
use second::State;

fn main() {
    let numbers: Vec<u64> = std::env::args().skip(1).map(|a| a.parse().unwrap()).collect();
    let [last, count] = numbers[..] else {
        eprintln!("usage: asked LAST COUNT");
        std::process::exit(2);
    };
    let mut seen: BTreeMap<(u8, String), u64> = BTreeMap::new();
    for seed in 1..=last {
        for profile in PROFILES {
            let stream = generate(seed, profile, count as usize, &Wanted::default()).unwrap();
            let mut state = State::new();
            for command in split(&stream) {
                let failing: Vec<String> = state.failing(command).iter().map(|n| n.to_string()).collect();
                let what = match failing.join(",") {
                    none if none.is_empty() => "obeyed".to_string(),
                    cut if cut == "2" => format!("2/{}", command.len() - 1),
                    numbers => numbers,
                };
                let byte = if what == "1" { 0xff } else { command[0] };
                *seen.entry((byte, what)).or_default() += 1;
                state.command(command);
            }
        }
    }
    for ((command, what), times) in seen {
        println!("{command:02X} {what} {times}");
    }
}
