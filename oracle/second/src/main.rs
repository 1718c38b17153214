//! second [--dump | --digest]: the second reading as document 01's replay program.

use std::{
    fmt::Write as _,
    io::{Read, Write},
};

use second::{Answer, State, operands};

fn digest(text: &str) -> u64 {
    text.bytes().fold(0xcbf29ce484222325, |hash, byte| {
        (hash ^ byte as u64).wrapping_mul(0x100000001b3)
    })
}

fn main() {
    let option = std::env::args().nth(1).unwrap_or_default();
    let mut stream = Vec::new();
    std::io::stdin().read_to_end(&mut stream).unwrap();
    let mut stdout = std::io::stdout().lock();
    let mut state = State::new();
    let mut out = String::from("sched 1\n");
    let (mut at, mut number, mut refused) = (0, 0, 0);
    while at < stream.len() {
        let answer = state.command(&stream[at..]);
        state.line(&mut out, number, answer);
        if state.sealed && option == "--dump" {
            state.dump(&mut out);
        }
        if state.sealed && option == "--digest" {
            let mut dump = String::new();
            state.dump(&mut dump);
            writeln!(out, "d {:016x}", digest(&dump)).unwrap();
        }
        number += 1;
        if let Answer::Refused(refusal) = answer {
            refused += 1;
            if refusal <= 2 {
                break;
            }
        }
        if number == 4_294_967_295 {
            break;
        }
        at += 1 + operands(stream[at]).unwrap();
        if out.len() > 1 << 15 {
            stdout.write_all(out.as_bytes()).unwrap();
            out.clear();
        }
    }
    writeln!(out, "end {number} {refused}").unwrap();
    stdout.write_all(out.as_bytes()).unwrap();
}
