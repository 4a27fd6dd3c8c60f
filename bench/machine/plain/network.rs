//! A network file, and a load file for it.
use crate::rmap::reply_to;
use crate::toml::{self, Table, Value};
use std::collections::HashMap;

#[derive(Clone, Copy, PartialEq, Eq, PartialOrd, Ord)]
pub enum End {
    Eop,
    Eep,
}

#[derive(Clone, Copy, PartialEq, Eq)]
pub enum Place {
    Node(u16),
    Switch(u16, u8),
}

pub struct Target {
    pub logical: u8,
    pub key: u8,
    pub start: u64,
    pub size: usize,
    pub slots: usize,
}

pub struct Node {
    pub name: String,
    pub out: u16,
    pub target: Option<Target>,
}

#[derive(Clone, Copy, Default)]
pub struct Look {
    pub ports: u32,
    pub delete: bool,
}

#[derive(Clone, Copy)]
pub enum Arbitration {
    Fixed,
    RoundRobin,
    LeastRecent,
}

pub struct Switch {
    pub arbitration: Arbitration,
    /// By leading byte; the ports have links.
    pub looks: Vec<Look>,
    /// The channel that starts at each port.
    pub out: [Option<u16>; 32],
}

pub struct Flow {
    pub from: u16,
    pub to: u16,
    pub address: Vec<u8>,
    pub left: usize,
    pub reply: Option<Vec<u8>>,
}

pub struct Network {
    pub nodes: Vec<Node>,
    pub switches: Vec<Switch>,
    /// Where each channel starts.
    pub starts: Vec<Place>,
    pub capacities: Vec<usize>,
    pub flows: Vec<Flow>,
    pub node_numbers: HashMap<String, u16>,
    pub flow_numbers: HashMap<String, u16>,
}

fn number(table: &Table, key: &str, otherwise: u64) -> u64 {
    table.get(key).map_or(otherwise, Value::number)
}

fn tables<'t>(table: &'t Table, key: &str) -> Vec<&'t Table> {
    table.get(key).map_or(Vec::new(), |value| value.list().iter().map(Value::table).collect())
}

fn target(table: &Table) -> Target {
    Target {
        logical: table["logical"].number() as u8,
        key: number(table, "key", 0) as u8,
        start: number(table, "start", 0),
        size: table["size"].number() as usize,
        slots: number(table, "slots", 1) as usize,
    }
}

fn node(table: &Table) -> Node {
    Node { name: table["name"].text().to_string(), out: 0, target: table.get("target").map(|value| target(value.table())) }
}

fn switch(table: &Table) -> Switch {
    let mut looks = vec![Look::default(); 256];
    for port in 0..32 {
        looks[port] = Look { ports: 1 << port, delete: true };
    }
    for route in tables(table, "route") {
        let address = route["address"].number();
        let ports = route["ports"].list().iter().fold(0, |set, port| set | 1 << port.number());
        let delete = matches!(route.get("delete"), Some(Value::Truth(true)));
        for address in address..=number(route, "last", address) {
            looks[address as usize] = Look { ports, delete };
        }
    }
    let arbitration = match table.get("arbiter").map(Value::text) {
        Some("fixed") => Arbitration::Fixed,
        Some("least-recent") => Arbitration::LeastRecent,
        _ => Arbitration::RoundRobin,
    };
    Switch { arbitration, looks, out: [None; 32] }
}

fn flow(table: &Table, nodes: &HashMap<String, u16>) -> Flow {
    let reply = table.get("reply").map(|reply| {
        let mut way = reply.table().get("path").map_or(Vec::new(), Value::bytes);
        way.push(reply.table()["initiator"].number() as u8);
        way
    });
    Flow {
        from: nodes[table["from"].text()],
        to: nodes[table["to"].text()],
        address: table.get("address").map_or(Vec::new(), Value::bytes),
        left: number(table, "left", 0) as usize,
        reply,
    }
}

fn numbered(entries: &[&Table]) -> HashMap<String, u16> {
    entries.iter().enumerate().map(|(i, entry)| (entry["name"].text().to_string(), i as u16)).collect()
}

impl Network {
    pub fn read(text: &str) -> Network {
        let document = toml::read(text);
        let node_tables = tables(&document, "node");
        let switch_tables = tables(&document, "switch");
        let flow_tables = tables(&document, "flow");
        let node_numbers = numbered(&node_tables);
        let switch_numbers = numbered(&switch_tables);
        let mut network = Network {
            nodes: node_tables.iter().map(|table| node(table)).collect(),
            switches: switch_tables.iter().map(|table| switch(table)).collect(),
            starts: Vec::new(),
            capacities: Vec::new(),
            flows: flow_tables.iter().map(|table| flow(table, &node_numbers)).collect(),
            flow_numbers: numbered(&flow_tables),
            node_numbers,
        };
        for link in tables(&document, "link") {
            let buffer = number(link, "buffer", 64);
            // The channel from end a is received at end b.
            for (end, port, far) in [("a", "a_port", "buffer_b"), ("b", "b_port", "buffer_a")] {
                let name = link[end].text();
                let place = match network.node_numbers.get(name) {
                    Some(node) => Place::Node(*node),
                    None => Place::Switch(switch_numbers[name], link[port].number() as u8),
                };
                network.add_channel(place, number(link, far, buffer) as usize);
            }
        }
        for switch in &mut network.switches {
            let linked = (0..32).filter(|port| switch.out[*port].is_some()).fold(0, |set, port| set | 1 << port);
            for look in &mut switch.looks {
                look.ports &= linked;
            }
        }
        network
    }

    fn add_channel(&mut self, start: Place, capacity: usize) {
        let channel = self.starts.len() as u16;
        match start {
            Place::Node(node) => self.nodes[node as usize].out = channel,
            Place::Switch(switch, port) => self.switches[switch as usize].out[port as usize] = Some(channel),
        }
        self.starts.push(start);
        self.capacities.push(capacity);
    }

    pub fn end_of(&self, channel: u16) -> Place {
        self.starts[(channel ^ 1) as usize]
    }

    /// Whether a packet of this cargo is one that the flow declares.
    pub fn is_declared(&self, flow: u16, cargo: &[u8]) -> bool {
        let flow = &self.flows[flow as usize];
        if self.nodes[flow.to as usize].target.is_none() {
            return true;
        }
        let mut bytes = flow.address[flow.address.len() - flow.left..].to_vec();
        bytes.extend(cargo);
        match reply_to(&bytes) {
            None => true,
            way => way == flow.reply,
        }
    }
}

/// The bytes of a cargo text without spaces.
pub fn cargo_of(text: &str) -> Option<Vec<u8>> {
    let pair = |at: usize| u8::from_str_radix(text.get(at..at + 2)?, 16).ok();
    if text.as_bytes().get(2) == Some(&b'*') {
        return Some(vec![pair(0)?; text[3..].parse().ok()?]);
    }
    if text.is_empty() || text.len() % 2 != 0 {
        return None;
    }
    (0..text.len() / 2).map(|i| pair(2 * i)).collect()
}

/// So many packets of a flow.
pub struct Packets {
    pub flow: u16,
    pub cargo: Vec<u8>,
    pub end: End,
    pub count: u64,
}

pub fn read_load(network: &Network, text: &str) -> Vec<Packets> {
    let document = toml::read(text);
    tables(&document, "packet").iter()
        .map(|entry| Packets {
            flow: network.flow_numbers[entry["flow"].text()],
            cargo: cargo_of(&entry["cargo"].text().replace(' ', "")).expect("cargo"),
            end: if entry.get("end").map(Value::text) == Some("EEP") { End::Eep } else { End::Eop },
            count: number(entry, "count", 1),
        })
        .collect()
}
