mod certificate;
mod network;
mod order;
mod places;

use network::{End, Network};
use order::{order, Graph, Order};
use places::{fault_of, followers, places, Lists};
use rayon::prelude::*;
use std::collections::HashSet;
use std::fmt::Write;

fn dependencies(network: &Network, lists: &Lists) -> Graph {
    let pairs = network.flows.par_iter().zip(lists.par_iter())
        .fold(HashSet::new, |mut pairs, (flow, list)| {
            for place in list {
                for next in followers(network, flow, *place) {
                    pairs.insert((place.0, next.0));
                }
            }
            pairs
        })
        .reduce(HashSet::new, |mut all, some| { all.extend(some); all });
    let mut graph = Graph::new();
    for channel in 0..network.ends.len() as u16 {
        graph.add_node(channel);
    }
    for (c, e) in pairs {
        graph.add_edge(c, e, ());
    }
    for flow in network.flows.iter().filter(|flow| flow.answers) {
        let out = network.out[flow.to as usize];
        graph.add_edge(out ^ 1, out, ());
    }
    graph
}

/// The first place with a fault of the first flow that has one.
fn misrouted(network: &Network, lists: &Lists) -> Option<String> {
    network.flows.par_iter().zip(lists.par_iter()).find_map_first(|(flow, list)| {
        list.iter().find_map(|place| {
            let fault = fault_of(network, flow, *place)?;
            Some(format!("misrouted {} {} {} {fault}", flow.name, place.0, place.1))
        })
    })
}

/// For each channel of the cycle and the next one the first flow that goes on so.
fn first_flows(network: &Network, lists: &Lists, cycle: &[u16]) -> Vec<Option<usize>> {
    let mut at = vec![None; network.ends.len()];
    for (i, channel) in cycle.iter().enumerate() {
        at[*channel as usize] = Some(i);
    }
    let mut flows = vec![None; cycle.len()];
    for (number, (flow, list)) in network.flows.iter().zip(lists).enumerate() {
        for place in list {
            let Some(i) = at[place.0 as usize] else { continue };
            let next = cycle[(i + 1) % cycle.len()];
            if flows[i].is_none() && followers(network, flow, *place).any(|follower| follower.0 == next) {
                flows[i] = Some(number);
            }
        }
    }
    flows
}

fn cyclic(network: &Network, lists: &Lists, cycle: &[u16]) -> String {
    let mut text = format!("cyclic {}\n", cycle.len());
    for (channel, flow) in cycle.iter().zip(first_flows(network, lists, cycle)) {
        let cause = match (flow, network.end_of(*channel)) {
            (Some(flow), _) => format!("flow {}", network.flows[flow].name),
            (None, End::Node(node)) => format!("target {}", network.nodes[node as usize]),
            (None, End::Switch(..)) => unreachable!(),
        };
        writeln!(text, "channel {channel} {} by {cause}", network.channel_text(*channel)).unwrap();
    }
    text
}

fn decided(network: &Network, lists: &Lists) -> String {
    if let Some(fault) = misrouted(network, lists) {
        return fault + "\n";
    }
    match order(&dependencies(network, lists)) {
        Order::Levels(levels) => certificate::spelled(&levels, lists),
        Order::Cycle(cycle) => cyclic(network, lists, &cycle),
    }
}

fn reported(network: &Network, lists: &Lists) -> String {
    let graph = dependencies(network, lists);
    let verdict = misrouted(network, lists).unwrap_or_else(|| match order(&graph) {
        Order::Levels(levels) => format!("free height {}", levels.iter().max().unwrap_or(&0)),
        Order::Cycle(cycle) => format!("cyclic {}", cycle.len()),
    });
    let counts = [
        ("nodes", network.nodes.len()),
        ("switches", network.switches.len()),
        ("links", network.ends.len() / 2),
        ("channels", network.ends.len()),
        ("flows", network.declared),
        ("replies", network.flows.len() - network.declared),
        ("places", lists.iter().map(Vec::len).sum()),
        ("dependencies", graph.edge_count()),
    ];
    let lines: String = counts.iter().map(|(what, count)| format!("{what} {count}\n")).collect();
    lines + "verdict " + &verdict + "\n"
}

fn main() {
    let words: Vec<String> = std::env::args().collect();
    let network = Network::read(&std::fs::read_to_string(&words[2]).expect("a file"));
    if words[1] == "check" {
        let (numbers, lists) = certificate::read(&std::fs::read_to_string(&words[3]).expect("a file"));
        println!("{}", if certificate::is_accepted(&network, &numbers, &lists) { "accepted" } else { "refused" });
        return;
    }
    let lists: Lists = network.flows.par_iter().map(|flow| places(&network, flow)).collect();
    print!("{}", if words[1] == "decide" { decided(&network, &lists) } else { reported(&network, &lists) });
}
