//! The machine: what each of its steps changes, and when it is possible.
use crate::network::{End, Network, Place};
use crate::rmap;
use std::collections::VecDeque;

#[derive(Clone, Copy, PartialEq, Eq)]
pub enum NChar {
    Data(u8),
    Marker(End),
}

#[derive(Clone, Copy, PartialEq, Eq)]
pub enum Input {
    Idle,
    Held(u16),
    Spilling,
}

#[derive(Clone)]
pub enum Step {
    Fct(u16),
    FctIn(u16),
    Arrive(u16),
    Grant(u16, u16),
    Drop(u16),
    Forward(u16),
    Spill(u16),
    Begin(u16, Vec<u8>, End),
    Emit(u16),
    Accept(u16),
    Reply(u16),
}

pub enum Refusal {
    NotEnabled,
    NotInFlow,
}

pub struct Channel {
    pub credit: usize,
    pub fcts: usize,
    pub outstanding: usize,
    pub capacity: usize,
    pub wire: VecDeque<NChar>,
    pub buffer: VecDeque<NChar>,
    pub input: Input,
    /// Whether an input holds the output to this channel.
    pub held: bool,
    end: Place,
}

pub struct Packet {
    pub bytes: Vec<u8>,
    pub end: End,
}

pub struct Node {
    pub to_send: VecDeque<NChar>,
    pub pending: VecDeque<Vec<u8>>,
    owed: usize,
    slots: usize,
    out: u16,
    pub came_out: Vec<Packet>,
    under_way: Vec<u8>,
    memory: Vec<u8>,
}

pub struct Machine<'n> {
    network: &'n Network,
    pub channels: Vec<Channel>,
    pub nodes: Vec<Node>,
}

fn enabled(possible: bool) -> Result<(), Refusal> {
    if possible { Ok(()) } else { Err(Refusal::NotEnabled) }
}

impl<'n> Machine<'n> {
    pub fn new(network: &'n Network) -> Machine<'n> {
        let channel = |c: usize| Channel {
            credit: 0,
            fcts: 0,
            outstanding: 0,
            capacity: network.capacities[c],
            wire: VecDeque::with_capacity(56),
            buffer: VecDeque::with_capacity(network.capacities[c]),
            input: Input::Idle,
            held: false,
            end: network.end_of(c as u16),
        };
        let nodes = network.nodes.iter().map(|node| Node {
            to_send: VecDeque::new(),
            pending: VecDeque::new(),
            owed: 0,
            slots: node.target.as_ref().map_or(1, |target| target.slots),
            out: node.out,
            came_out: Vec::new(),
            under_way: Vec::new(),
            memory: vec![0; node.target.as_ref().map_or(0, |target| target.size)],
        });
        Machine { network, channels: (0..network.starts.len()).map(channel).collect(), nodes: nodes.collect() }
    }

    fn switch_of(&self, c: u16) -> Option<usize> {
        match self.channels[c as usize].end {
            Place::Node(_) => None,
            Place::Switch(switch, _) => Some(switch as usize),
        }
    }

    fn can_grant(&self, d: u16, c: u16) -> bool {
        let (Some(switch), Place::Switch(starts, port)) = (self.switch_of(c), self.network.starts[d as usize]) else {
            return false;
        };
        let channel = &self.channels[c as usize];
        let Some(NChar::Data(byte)) = channel.buffer.front() else { return false };
        channel.input == Input::Idle
            && starts as usize == switch
            && self.network.switches[switch].looks[*byte as usize].ports >> port & 1 == 1
            && !self.channels[d as usize].held
    }

    fn can_drop(&self, c: u16) -> bool {
        let Some(switch) = self.switch_of(c) else { return false };
        let channel = &self.channels[c as usize];
        channel.input == Input::Idle && match channel.buffer.front() {
            None => false,
            Some(NChar::Marker(_)) => true,
            Some(NChar::Data(byte)) => self.network.switches[switch].looks[*byte as usize].ports == 0,
        }
    }

    /// Whether the step is possible, a beginning only where the packet is declared.
    pub fn can(&self, step: &Step) -> bool {
        match step {
            Step::Fct(c) => {
                let channel = &self.channels[*c as usize];
                channel.outstanding + channel.buffer.len() + 8 <= channel.capacity && channel.outstanding <= 48
            }
            Step::FctIn(c) => self.channels[*c as usize].fcts > 0,
            Step::Arrive(c) => !self.channels[*c as usize].wire.is_empty(),
            Step::Grant(d, c) => self.can_grant(*d, *c),
            Step::Drop(c) => self.can_drop(*c),
            Step::Forward(c) => {
                let channel = &self.channels[*c as usize];
                match channel.input {
                    Input::Held(d) => !channel.buffer.is_empty() && self.channels[d as usize].credit > 0,
                    _ => false,
                }
            }
            Step::Spill(c) => {
                let channel = &self.channels[*c as usize];
                channel.input == Input::Spilling && !channel.buffer.is_empty()
            }
            Step::Begin(flow, _, _) => self.can_begin(self.network.flows[*flow as usize].from),
            Step::Emit(n) => {
                let node = &self.nodes[*n as usize];
                !node.to_send.is_empty() && self.channels[node.out as usize].credit > 0
            }
            Step::Accept(n) => {
                let node = &self.nodes[*n as usize];
                node.owed < node.slots && !self.channels[(node.out ^ 1) as usize].buffer.is_empty()
            }
            Step::Reply(n) => {
                let node = &self.nodes[*n as usize];
                node.to_send.is_empty() && !node.pending.is_empty()
            }
        }
    }

    pub fn can_begin(&self, n: u16) -> bool {
        let node = &self.nodes[n as usize];
        node.to_send.is_empty() && node.pending.is_empty()
    }

    fn grant(&mut self, d: u16, c: u16) {
        let switch = self.switch_of(c).unwrap();
        let channel = &mut self.channels[c as usize];
        let Some(NChar::Data(byte)) = channel.buffer.front() else { unreachable!() };
        if self.network.switches[switch].looks[*byte as usize].delete {
            channel.buffer.pop_front();
        }
        channel.input = Input::Held(d);
        self.channels[d as usize].held = true;
    }

    fn forward(&mut self, c: u16) {
        let channel = &mut self.channels[c as usize];
        let Input::Held(d) = channel.input else { unreachable!() };
        let first = channel.buffer.pop_front().unwrap();
        let passed = matches!(first, NChar::Marker(_));
        if passed {
            channel.input = Input::Idle;
        }
        let output = &mut self.channels[d as usize];
        output.wire.push_back(first);
        output.credit -= 1;
        if passed {
            output.held = false;
        }
    }

    fn accept(&mut self, n: u16) {
        let node = &mut self.nodes[n as usize];
        match self.channels[(node.out ^ 1) as usize].buffer.pop_front().unwrap() {
            NChar::Data(byte) => node.under_way.push(byte),
            NChar::Marker(end) => {
                let bytes = std::mem::take(&mut node.under_way);
                if let Some(target) = &self.network.nodes[n as usize].target {
                    if let Some(reply) = rmap::answer(target, &mut node.memory, &bytes, end) {
                        node.pending.push_back(reply);
                        node.owed += 1;
                    }
                }
                node.came_out.push(Packet { bytes, end });
            }
        }
    }

    fn emit(&mut self, n: u16) {
        let node = &mut self.nodes[n as usize];
        let first = node.to_send.pop_front().unwrap();
        if node.to_send.is_empty() {
            node.owed = node.pending.len();
        }
        let channel = &mut self.channels[node.out as usize];
        channel.wire.push_back(first);
        channel.credit -= 1;
    }

    /// Makes a step that is possible.
    fn make(&mut self, step: &Step) {
        match step {
            Step::Fct(c) => {
                let channel = &mut self.channels[*c as usize];
                channel.outstanding += 8;
                channel.fcts += 1;
            }
            Step::FctIn(c) => {
                let channel = &mut self.channels[*c as usize];
                channel.fcts -= 1;
                channel.credit += 8;
            }
            Step::Arrive(c) => {
                let channel = &mut self.channels[*c as usize];
                let first = channel.wire.pop_front().unwrap();
                channel.buffer.push_back(first);
                channel.outstanding -= 1;
            }
            Step::Grant(d, c) => self.grant(*d, *c),
            Step::Drop(c) => {
                let channel = &mut self.channels[*c as usize];
                match channel.buffer.front() {
                    Some(NChar::Data(_)) => channel.input = Input::Spilling,
                    _ => drop(channel.buffer.pop_front()),
                }
            }
            Step::Forward(c) => self.forward(*c),
            Step::Spill(c) => {
                let channel = &mut self.channels[*c as usize];
                if let Some(NChar::Marker(_)) = channel.buffer.pop_front() {
                    channel.input = Input::Idle;
                }
            }
            Step::Begin(flow, cargo, end) => {
                let flow = &self.network.flows[*flow as usize];
                let to_send = &mut self.nodes[flow.from as usize].to_send;
                to_send.extend(flow.address.iter().chain(cargo).map(|byte| NChar::Data(*byte)));
                to_send.push_back(NChar::Marker(*end));
            }
            Step::Emit(n) => self.emit(*n),
            Step::Accept(n) => self.accept(*n),
            Step::Reply(n) => {
                let node = &mut self.nodes[*n as usize];
                let reply = node.pending.pop_front().unwrap();
                node.to_send.extend(reply.into_iter().map(NChar::Data));
                node.to_send.push_back(NChar::Marker(End::Eop));
            }
        }
    }

    /// Makes the step, or tells why it is refused.
    pub fn step(&mut self, step: &Step) -> Result<(), Refusal> {
        if let Step::Begin(flow, cargo, _) = step {
            if !self.network.is_declared(*flow, cargo) {
                return Err(Refusal::NotInFlow);
            }
        }
        enabled(self.can(step))?;
        self.make(step);
        Ok(())
    }

    pub fn undelivered(&self) -> usize {
        let channels: usize = self.channels.iter().map(|channel| channel.wire.len() + channel.buffer.len()).sum();
        let nodes: usize = self.nodes.iter()
            .map(|node| node.to_send.len() + node.pending.iter().map(|reply| reply.len() + 1).sum::<usize>())
            .sum();
        channels + nodes
    }

    /// The possible steps that belong to the link end, which is named by the channel that starts there; no beginnings.
    pub fn steps_at(&self, e: u16) -> Vec<Step> {
        let into = e ^ 1;
        let mut steps = vec![Step::FctIn(e), Step::Arrive(into), Step::Fct(into)];
        match self.network.starts[e as usize] {
            Place::Node(n) => steps.extend([Step::Emit(n), Step::Accept(n), Step::Reply(n)]),
            Place::Switch(switch, _) => {
                steps.extend([Step::Forward(into), Step::Spill(into), Step::Drop(into)]);
                let outs = self.network.switches[switch as usize].out.iter().flatten();
                steps.extend(outs.map(|out| Step::Grant(e, out ^ 1)));
            }
        }
        steps.retain(|step| self.can(step));
        steps
    }

    pub fn is_quiet(&self) -> bool {
        (0..self.channels.len() as u16).all(|e| self.steps_at(e).is_empty())
    }
}
