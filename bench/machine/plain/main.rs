//! A plain Rust program that replays schedules and sends loads as swcheck does, and that writes schedules of random possible steps.
//! It is no part of the product.
mod machine;
mod network;
mod rmap;
mod runner;
mod schedule;
mod texts;
mod toml;

use machine::{Machine, Refusal, Step};
use network::{read_load, Network, Packets, Place};
use runner::Stop;
use std::process::exit;

fn file(name: &str) -> String {
    std::fs::read_to_string(name).expect("a file")
}

fn made(machine: &mut Machine, entries: &[(u32, Step)]) -> Result<usize, (usize, Refusal)> {
    let mut made = 0;
    for (count, step) in entries {
        for _ in 0..*count {
            machine.step(step).map_err(|refusal| (made + 1, refusal))?;
            made += 1;
        }
    }
    Ok(made)
}

fn replay(network: &Network, text: &str) -> i32 {
    let entries = match schedule::read(network, text) {
        Ok(entries) => entries,
        Err(line) => {
            println!("fault S1 BadLine {line}");
            return 3;
        }
    };
    let mut machine = Machine::new(network);
    let made = made(&mut machine, &entries);
    let state = texts::replayed(network, &machine);
    match made {
        Ok(count) => print!("replayed {count}\n{state}"),
        Err((number, Refusal::NotEnabled)) => print!("refused {number} N1 NotEnabled\n{state}"),
        Err((number, Refusal::NotInFlow)) => print!("refused {number} N2 NotInFlow\n{state}"),
    }
    if made.is_err() { 1 } else if state.contains("stuck yes") { 4 } else { 0 }
}

fn run(network: &Network, load: &[Packets], words: &[String]) -> i32 {
    let option = |name: &str, otherwise: usize| match words.iter().position(|word| word == name) {
        Some(at) => words[at + 1].parse().expect("a number"),
        None => otherwise,
    };
    let outcome = runner::run(network, load, option("--workers", 4), option("--limit", 1_000_000));
    let (stop, status) = match outcome.stop {
        Stop::Drained => ("drained", 0),
        Stop::Stuck => ("stuck", 4),
        Stop::JournalFull => ("journal-full", 5),
    };
    eprintln!("{} steps", outcome.steps);
    print!("{stop}\n{}", texts::ran(network, &outcome.machine));
    status
}

/// Random numbers (xorshift).
struct Random(u64);

impl Random {
    fn below(&mut self, count: usize) -> usize {
        self.0 ^= self.0 << 13;
        self.0 ^= self.0 >> 7;
        self.0 ^= self.0 << 17;
        (self.0 >> 11) as usize % count
    }
}

/// A possible step of the link end, its node's beginnings of the load's packets included.
fn step_at(network: &Network, load: &[Packets], machine: &Machine, e: u16, random: &mut Random) -> Option<Step> {
    let mut steps = machine.steps_at(e);
    if let Place::Node(n) = network.starts[e as usize] {
        if machine.can_begin(n) {
            let here = load.iter().filter(|packets| network.flows[packets.flow as usize].from == n);
            steps.extend(here.map(|packets| Step::Begin(packets.flow, packets.cargo.clone(), packets.end)));
        }
    }
    if steps.is_empty() {
        return None;
    }
    Some(steps.swap_remove(random.below(steps.len())))
}

/// Writes a schedule of so many random steps, each possible after those before it.
fn walk(network: &Network, load: &[Packets], count: usize, seed: u64) {
    let mut random = Random(seed);
    let mut machine = Machine::new(network);
    let mut text = String::new();
    let mut made = 0;
    while made < count {
        let e = random.below(network.starts.len()) as u16;
        let Some(step) = step_at(network, load, &machine, e, &mut random) else { continue };
        assert!(machine.step(&step).is_ok(), "a step of the walk is not possible");
        schedule::write(network, &step, &mut text);
        made += 1;
    }
    print!("{text}");
}

fn main() {
    let words: Vec<String> = std::env::args().collect();
    let network = Network::read(&file(&words[2]));
    let status = match words[1].as_str() {
        "replay" => replay(&network, &file(&words[3])),
        "run" => run(&network, &read_load(&network, &file(&words[3])), &words[4..]),
        "walk" => {
            let number = |at: usize| words[at].parse().expect("a number");
            walk(&network, &read_load(&network, &file(&words[3])), number(4), number(5) as u64);
            0
        }
        _ => 2,
    };
    exit(status);
}
