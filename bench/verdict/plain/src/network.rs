//! A network file, read with serde.
use indexmap::IndexMap;
use serde::Deserialize;

#[derive(Deserialize)]
struct Named {
    name: String,
}

#[derive(Deserialize)]
struct RouteEntry {
    address: u8,
    last: Option<u8>,
    ports: Vec<u8>,
    #[serde(default)]
    delete: bool,
}

#[derive(Deserialize)]
struct SwitchEntry {
    name: String,
    #[serde(default)]
    route: Vec<RouteEntry>,
}

#[derive(Deserialize)]
struct LinkEntry {
    a: String,
    a_port: Option<u8>,
    b: String,
    b_port: Option<u8>,
}

#[derive(Deserialize)]
struct ReplyEntry {
    #[serde(default)]
    path: Vec<u8>,
    initiator: u8,
}

#[derive(Deserialize)]
struct FlowEntry {
    name: String,
    from: String,
    to: String,
    #[serde(default)]
    address: Vec<u8>,
    #[serde(default)]
    left: u8,
    reply: Option<ReplyEntry>,
}

#[derive(Deserialize)]
struct Document {
    #[serde(default)]
    node: Vec<Named>,
    #[serde(default)]
    switch: Vec<SwitchEntry>,
    #[serde(default)]
    link: Vec<LinkEntry>,
    #[serde(default)]
    flow: Vec<FlowEntry>,
}

#[derive(Clone, Copy)]
pub enum End {
    Node(u16),
    Switch(u16, u8),
}

#[derive(Clone, Copy, Default)]
pub struct Look {
    pub ports: u32,
    pub delete: bool,
}

pub struct Flow {
    pub name: String,
    pub from: u16,
    pub to: u16,
    pub address: Vec<u8>,
    pub left: u8,
    pub answers: bool,
}

pub struct Network {
    pub nodes: Vec<String>,
    pub switches: Vec<String>,
    pub ends: Vec<End>,
    pub out: Vec<u16>,
    pub ports: Vec<[Option<u16>; 32]>,
    pub tables: Vec<Vec<Look>>,
    pub flows: Vec<Flow>,
    pub declared: usize,
}

enum Part {
    Node(u16),
    Switch(u16),
}

fn table(entry: &SwitchEntry) -> Vec<Look> {
    let mut looks = vec![Look::default(); 256];
    for port in 0..32 {
        looks[port] = Look { ports: 1 << port, delete: true };
    }
    for route in &entry.route {
        let ports = route.ports.iter().fold(0, |set, port| set | 1 << port);
        for address in route.address..=route.last.unwrap_or(route.address) {
            looks[address as usize] = Look { ports, delete: route.delete };
        }
    }
    looks
}

impl Network {
    pub fn read(text: &str) -> Network {
        let document: Document = toml::from_str(text).expect("a network file");
        let mut names = IndexMap::new();
        for (i, node) in document.node.iter().enumerate() {
            names.insert(node.name.as_str(), Part::Node(i as u16));
        }
        for (i, switch) in document.switch.iter().enumerate() {
            names.insert(switch.name.as_str(), Part::Switch(i as u16));
        }
        let end = |name: &str, port: Option<u8>| match names[name] {
            Part::Node(node) => End::Node(node),
            Part::Switch(switch) => End::Switch(switch, port.expect("a port")),
        };
        let ends: Vec<End> = document.link.iter()
            .flat_map(|link| [end(&link.a, link.a_port), end(&link.b, link.b_port)])
            .collect();
        let mut out = vec![0; document.node.len()];
        let mut ports = vec![[None; 32]; document.switch.len()];
        for (channel, end) in ends.iter().enumerate() {
            match end {
                End::Node(node) => out[*node as usize] = channel as u16,
                End::Switch(switch, port) => ports[*switch as usize][*port as usize] = Some(channel as u16),
            }
        }
        let node = |name: &str| match names[name] {
            Part::Node(node) => node,
            Part::Switch(_) => panic!("a node"),
        };
        let mut flows = Vec::new();
        let mut replies = Vec::new();
        for flow in &document.flow {
            let (from, to) = (node(&flow.from), node(&flow.to));
            if let Some(reply) = &flow.reply {
                let mut address = reply.path.clone();
                address.push(reply.initiator);
                replies.push(Flow { name: format!("{}+reply", flow.name), from: to, to: from, address, left: 1, answers: false });
            }
            flows.push(Flow { name: flow.name.clone(), from, to, address: flow.address.clone(), left: flow.left, answers: flow.reply.is_some() });
        }
        let declared = flows.len();
        flows.extend(replies);
        let nodes = document.node.iter().map(|node| node.name.clone()).collect();
        let switches = document.switch.iter().map(|switch| switch.name.clone()).collect();
        Network { nodes, switches, ends, out, ports, tables: document.switch.iter().map(table).collect(), flows, declared }
    }

    pub fn end_of(&self, channel: u16) -> End {
        self.ends[(channel ^ 1) as usize]
    }

    fn end_text(&self, end: End) -> String {
        match end {
            End::Node(node) => self.nodes[node as usize].clone(),
            End::Switch(switch, port) => format!("{}:{port}", self.switches[switch as usize]),
        }
    }

    pub fn channel_text(&self, channel: u16) -> String {
        format!("{}>{}", self.end_text(self.ends[channel as usize]), self.end_text(self.end_of(channel)))
    }
}
