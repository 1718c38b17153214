//! gen SEED PROFILE COUNT [--without HEX]... [--figure 2|other|any]
//!
//! Writes a stream of COUNT commands to standard output. `gen --profiles` lists the profiles; two more are `draws` and
//! `steady:CPUS:THREADS`, in which nothing varies but the commands. With `--figure 2` no stream sets another shortest
//! timeslice, with `--figure other` each does.

use std::io::Write;

fn usage() -> ! {
    eprintln!("usage: gen SEED PROFILE COUNT [--without HEX]... [--figure 2|other|any]\n       gen --profiles");
    std::process::exit(2);
}

fn main() {
    let arguments: Vec<String> = std::env::args().skip(1).collect();
    if arguments.first().is_some_and(|a| a == "--profiles") {
        println!("{}", r#gen::PROFILES.join("\n"));
        return;
    }
    let mut plain = Vec::new();
    let mut wanted = r#gen::Wanted::default();
    let mut list = arguments.iter();
    while let Some(argument) = list.next() {
        if argument == "--without" {
            let pattern = list.next().and_then(|hex| r#gen::pattern(hex));
            wanted.without.push(pattern.unwrap_or_else(|| usage()));
        } else if argument == "--figure" {
            let figures = list.next().and_then(|name| r#gen::figures::Figures::named(name));
            wanted.figures = figures.unwrap_or_else(|| usage());
        } else {
            plain.push(argument);
        }
    }
    let [seed, profile, count] = plain[..] else { usage() };
    let (Ok(seed), Ok(count)) = (seed.parse(), count.parse()) else { usage() };
    let Some(stream) = r#gen::generate(seed, profile, count, &wanted) else { usage() };
    std::io::stdout().write_all(&stream).unwrap();
}
