//! The text of a schedule.
use crate::machine::Step;
use crate::network::{cargo_of, End, Network};
use std::fmt::Write;

fn number(word: &str) -> Option<u32> {
    if word.len() > 1 && word.starts_with('0') || word.starts_with('+') {
        return None;
    }
    word.parse().ok()
}

fn channel(network: &Network, word: &str) -> Option<u16> {
    let c = number(word)?;
    ((c as usize) < network.starts.len()).then_some(c as u16)
}

fn begin(network: &Network, words: &str) -> Option<Step> {
    let (flow, words) = words.split_once(' ')?;
    let (end, cargo) = words.split_once(' ')?;
    let end = match end {
        "EOP" => End::Eop,
        "EEP" => End::Eep,
        _ => return None,
    };
    Some(Step::Begin(*network.flow_numbers.get(flow)?, cargo_of(cargo)?, end))
}

fn step(network: &Network, line: &str) -> Option<Step> {
    let (verb, words) = line.split_once(' ')?;
    let channel = |word| channel(network, word);
    let node = |word| network.node_numbers.get(word).copied();
    match verb {
        "fct" => channel(words).map(Step::Fct),
        "fctin" => channel(words).map(Step::FctIn),
        "arrive" => channel(words).map(Step::Arrive),
        "drop" => channel(words).map(Step::Drop),
        "forward" => channel(words).map(Step::Forward),
        "spill" => channel(words).map(Step::Spill),
        "emit" => node(words).map(Step::Emit),
        "accept" => node(words).map(Step::Accept),
        "reply" => node(words).map(Step::Reply),
        "begin" => begin(network, words),
        "grant" => {
            let (d, c) = words.split_once(' ')?;
            Some(Step::Grant(channel(d)?, channel(c)?))
        }
        _ => None,
    }
}

/// The step of a line, and how many times it is made.
fn entry(network: &Network, line: &str) -> Option<(u32, Step)> {
    if !line.starts_with(|c: char| c.is_ascii_digit()) {
        return Some((1, step(network, line)?));
    }
    let (count, line) = line.split_once(' ')?;
    let count = number(count).filter(|count| (1..=100_000).contains(count))?;
    Some((count, step(network, line)?))
}

/// Steps, and how many times each is made; or the number of the first wrong line.
pub fn read(network: &Network, text: &str) -> Result<Vec<(u32, Step)>, usize> {
    let mut entries = Vec::new();
    let mut total = 0;
    for (number, line) in text.strip_suffix('\n').unwrap_or(text).split('\n').enumerate() {
        if line.is_empty() || line.starts_with('#') {
            continue;
        }
        let (count, step) = entry(network, line).ok_or(number + 1)?;
        total += count;
        if total > 1_000_000 {
            return Err(number + 1);
        }
        entries.push((count, step));
    }
    Ok(entries)
}

pub fn write(network: &Network, step: &Step, text: &mut String) {
    let node = |n: &u16| &network.nodes[*n as usize].name;
    match step {
        Step::Fct(c) => writeln!(text, "fct {c}"),
        Step::FctIn(c) => writeln!(text, "fctin {c}"),
        Step::Arrive(c) => writeln!(text, "arrive {c}"),
        Step::Grant(d, c) => writeln!(text, "grant {d} {c}"),
        Step::Drop(c) => writeln!(text, "drop {c}"),
        Step::Forward(c) => writeln!(text, "forward {c}"),
        Step::Spill(c) => writeln!(text, "spill {c}"),
        Step::Begin(flow, cargo, end) => {
            let name = network.flow_numbers.iter().find(|(_, number)| *number == flow).unwrap().0;
            let bytes: String = cargo.iter().map(|byte| format!("{byte:02X}")).collect();
            writeln!(text, "begin {name} {} {bytes}", if *end == End::Eop { "EOP" } else { "EEP" })
        }
        Step::Emit(n) => writeln!(text, "emit {}", node(n)),
        Step::Accept(n) => writeln!(text, "accept {}", node(n)),
        Step::Reply(n) => writeln!(text, "reply {}", node(n)),
    }
    .unwrap();
}
