//! What is printed of a machine's state.
use crate::machine::{Machine, Packet};
use crate::network::{End, Network};
use std::fmt::Write;

fn write_packet(text: &mut String, packet: &Packet) {
    if packet.bytes.is_empty() {
        text.push('-');
    }
    for byte in &packet.bytes {
        write!(text, "{byte:02X}").unwrap();
    }
    text.push_str(if packet.end == End::Eop { " EOP\n" } else { " EEP\n" });
}

fn write_nodes(text: &mut String, network: &Network, machine: &Machine) {
    for (node, state) in network.nodes.iter().zip(&machine.nodes) {
        writeln!(text, "node {} packets {}", node.name, state.came_out.len()).unwrap();
    }
}

/// What `replay` prints behind how many steps were made.
pub fn replayed(network: &Network, machine: &Machine) -> String {
    let undelivered = machine.undelivered();
    let stuck = if undelivered > 0 && machine.is_quiet() { "yes" } else { "no" };
    let mut text = format!("undelivered {undelivered}\nstuck {stuck}\n");
    write_nodes(&mut text, network, machine);
    for (node, state) in network.nodes.iter().zip(&machine.nodes) {
        for packet in &state.came_out {
            write!(text, "packet {} ", node.name).unwrap();
            write_packet(&mut text, packet);
        }
    }
    text
}

/// What `run` prints behind how it ended: the different packets that came out are counted.
pub fn ran(network: &Network, machine: &Machine) -> String {
    let mut text = format!("undelivered {}\n", machine.undelivered());
    write_nodes(&mut text, network, machine);
    for (node, state) in network.nodes.iter().zip(&machine.nodes) {
        let mut packets: Vec<&Packet> = state.came_out.iter().collect();
        packets.sort_unstable_by_key(|packet| (&packet.bytes, packet.end));
        for same in packets.chunk_by(|a, b| a.bytes == b.bytes && a.end == b.end) {
            write!(text, "packet {} {} ", node.name, same.len()).unwrap();
            write_packet(&mut text, same[0]);
        }
    }
    text
}
