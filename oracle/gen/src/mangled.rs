//! Streams that are none: a prefix of one, one with a few bytes changed, left out or put in, or bytes without any plan.

use crate::{PROFILES, Wanted, generate as whole, random::Random, split};
use second::State;

pub const PROFILE: &str = "mangled";

/// The stream ends where a command would come that is to be left out.
pub fn generate(seed: u64, count: usize, wanted: &Wanted) -> Vec<u8> {
    let stream = mangle(seed, count, wanted);
    let mut state = State::new();
    let kept = |command: &&[u8]| {
        let kept = !wanted.leaves_out(command, &state);
        state.command(command);
        kept
    };
    split(&stream).into_iter().take_while(kept).collect::<Vec<_>>().concat()
}

fn mangle(seed: u64, count: usize, wanted: &Wanted) -> Vec<u8> {
    let mut random = Random::new(seed, 1000);
    if random.chance(10) {
        // Bytes of the table are likely, so that some are obeyed.
        let length = random.below(4 * count as u64 + 1);
        return (0..length).map(|_| if random.chance(60) { random.below(32) } else { random.below(256) } as u8).collect();
    }
    let plans: Vec<&str> = PROFILES.into_iter().filter(|name| *name != PROFILE).collect();
    let mut stream = whole(random.next(), random.of(&plans), count, wanted).unwrap();
    if random.chance(30) {
        stream.truncate(random.below(stream.len() as u64 + 1) as usize);
        return stream;
    }
    for _ in 0..random.between(1, 4) {
        // Mostly late, so that much of the stream is obeyed before.
        let length = stream.len() as u64;
        let at = if random.chance(50) { length / 2 + random.below(length / 2 + 1) } else { random.below(length + 1) } as usize;
        let byte = if random.chance(50) { random.below(32) } else { random.below(256) } as u8;
        match random.below(3) {
            0 if at < stream.len() => stream[at] = byte,
            1 if at < stream.len() => {
                stream.remove(at);
            }
            _ => stream.insert(at, byte),
        }
    }
    stream
}
