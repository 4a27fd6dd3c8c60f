//! Threads that send a load: a lock for each node and each switch, and one for the journal, which has the history and the machine.
use crate::machine::{Input, Machine, NChar, Step};
use crate::network::{Arbitration, Network, Packets, Place};
use std::sync::Mutex;
use std::thread;

#[derive(Clone, Copy, PartialEq, Eq)]
pub enum Stop {
    Drained,
    Stuck,
    JournalFull,
}

/// Of a link end: how much of the channel received there is outstanding, and for how much more there is room.
#[derive(Clone, Copy)]
struct Numbers {
    outstanding: usize,
    room: usize,
}

/// A node or a switch: its link ends, each with its numbers.
struct Cell {
    ends: Vec<(u16, Numbers)>,
}

/// Chooses among the inputs that ask for an output.
struct Arbiter {
    arbitration: Arbitration,
    /// When each port was last picked; 0: never.
    picked: [u64; 32],
    picks: u64,
}

impl Arbiter {
    fn pick(&mut self, asking: u32) -> u32 {
        let asks = (0..32).filter(|port| asking >> port & 1 == 1);
        let last = (0..32).max_by_key(|port| self.picked[*port as usize]).filter(|port| self.picked[*port as usize] > 0);
        let port = match (self.arbitration, last) {
            (Arbitration::LeastRecent, _) => asks.min_by_key(|port| self.picked[*port as usize]),
            (Arbitration::RoundRobin, Some(last)) => asks.min_by_key(|port| (port + 31 - last) % 32),
            _ => asks.min(),
        }
        .expect("a port that asks");
        self.picks += 1;
        self.picked[port as usize] = self.picks;
        port
    }
}

/// The packets that a node is still to begin.
struct Queue {
    entries: Vec<usize>,
    at: usize,
    begun: u64,
}

struct Journal<'n> {
    network: &'n Network,
    load: &'n [Packets],
    limit: usize,
    machine: Machine<'n>,
    history: Vec<Step>,
    /// For each link end, the history's length when nothing was possible there.
    marks: Vec<Option<usize>>,
    /// How many of the marks are of the present length.
    idle: usize,
    arbiters: Vec<Arbiter>,
    queues: Vec<Queue>,
    stop: Option<Stop>,
}

impl<'n> Journal<'n> {
    fn new(network: &'n Network, load: &'n [Packets], limit: usize) -> Journal<'n> {
        let arbiter = |start: &Place| Arbiter {
            arbitration: match start {
                Place::Node(_) => Arbitration::Fixed,
                Place::Switch(switch, _) => network.switches[*switch as usize].arbitration,
            },
            picked: [0; 32],
            picks: 0,
        };
        let queue = |n: usize| Queue {
            entries: (0..load.len()).filter(|i| network.flows[load[*i].flow as usize].from as usize == n).collect(),
            at: 0,
            begun: 0,
        };
        Journal {
            network,
            load,
            limit,
            machine: Machine::new(network),
            history: Vec::new(),
            marks: vec![None; network.starts.len()],
            idle: 0,
            arbiters: network.starts.iter().map(arbiter).collect(),
            queues: (0..network.nodes.len()).map(queue).collect(),
            stop: None,
        }
    }

    fn next(&self, n: u16) -> Option<&'n Packets> {
        let queue = &self.queues[n as usize];
        Some(&self.load[*queue.entries.get(queue.at)?])
    }

    fn count_begun(&mut self, n: u16) {
        let load = self.load;
        let queue = &mut self.queues[n as usize];
        queue.begun += 1;
        if queue.begun == load[queue.entries[queue.at]].count {
            queue.at += 1;
            queue.begun = 0;
        }
    }

    /// The grant of the output to one of the inputs that ask for it.
    fn grant(&mut self, switch: u16, d: u16) -> Option<Step> {
        let Place::Switch(_, to) = self.network.starts[d as usize] else { unreachable!() };
        if self.machine.channels[d as usize].held {
            return None;
        }
        let switch = &self.network.switches[switch as usize];
        let mut asking: u32 = 0;
        for (port, out) in switch.out.iter().enumerate() {
            let Some(out) = out else { continue };
            let channel = &self.machine.channels[(out ^ 1) as usize];
            if let (Input::Idle, Some(NChar::Data(byte))) = (channel.input, channel.buffer.front()) {
                asking |= (switch.looks[*byte as usize].ports >> to & 1) << port;
            }
        }
        if asking == 0 {
            return None;
        }
        let port = self.arbiters[d as usize].pick(asking);
        Some(Step::Grant(d, switch.out[port as usize].unwrap() ^ 1))
    }

    fn first_of<const N: usize>(&self, steps: [Step; N]) -> Option<Step> {
        steps.into_iter().find(|step| self.machine.can(step))
    }

    /// A step of the link end that may be made now.
    fn choose(&mut self, e: u16) -> Option<Step> {
        let into = e ^ 1;
        match self.network.starts[e as usize] {
            Place::Node(n) => self
                .first_of([Step::Emit(n), Step::Accept(n), Step::Reply(n), Step::Arrive(into), Step::FctIn(e), Step::Fct(into)])
                .or_else(|| {
                    let packets = self.next(n)?;
                    self.machine.can_begin(n).then(|| Step::Begin(packets.flow, packets.cargo.clone(), packets.end))
                }),
            Place::Switch(switch, _) => self
                .first_of([Step::Forward(into), Step::Spill(into), Step::Drop(into), Step::Arrive(into), Step::FctIn(e), Step::Fct(into)])
                .or_else(|| self.grant(switch, e)),
        }
    }

    fn numbers(&self, e: u16) -> Numbers {
        let into = &self.machine.channels[(e ^ 1) as usize];
        Numbers {
            outstanding: into.outstanding,
            room: into.capacity - into.buffer.len() - into.outstanding,
        }
    }

    fn commit(&mut self, cell: &mut Cell, step: Step) {
        if self.history.len() == self.limit {
            self.stop = Some(if self.is_drained() { Stop::Drained } else { Stop::JournalFull });
            return;
        }
        assert!(self.machine.step(&step).is_ok(), "a step that was chosen is not possible");
        if let Step::Begin(flow, _, _) = &step {
            self.count_begun(self.network.flows[*flow as usize].from);
        }
        self.history.push(step);
        self.idle = 0;
        for (e, numbers) in &mut cell.ends {
            *numbers = self.numbers(*e);
        }
    }

    fn declare_idle(&mut self, e: u16) {
        let now = Some(self.history.len());
        if self.marks[e as usize] != now {
            self.marks[e as usize] = now;
            self.idle += 1;
        }
        if self.idle == self.marks.len() {
            self.stop = Some(if self.is_drained() { Stop::Drained } else { Stop::Stuck });
        }
    }

    fn is_drained(&self) -> bool {
        self.queues.iter().all(|queue| queue.at == queue.entries.len()) && self.machine.undelivered() == 0
    }
}

enum Served {
    Stepped,
    Idle,
    Stopped,
}

fn serve(cell: &Mutex<Cell>, journal: &Mutex<Journal>, e: u16) -> Served {
    let mut cell = cell.lock().unwrap();
    let numbers = cell.ends.iter().find(|(end, _)| *end == e).unwrap().1;
    let fct = (numbers.room >= 8 && numbers.outstanding <= 48).then_some(Step::Fct(e ^ 1));
    let mut journal = journal.lock().unwrap();
    if journal.stop.is_some() {
        return Served::Stopped;
    }
    match fct.or_else(|| journal.choose(e)) {
        Some(step) => {
            journal.commit(&mut cell, step);
            Served::Stepped
        }
        None => {
            journal.declare_idle(e);
            Served::Idle
        }
    }
}

/// Serves the link ends e with e mod workers = w.
fn work(network: &Network, cells: &[Mutex<Cell>], journal: &Mutex<Journal>, w: usize, workers: usize) {
    let ends = w..network.starts.len();
    if ends.is_empty() {
        return;
    }
    loop {
        let mut stepped = false;
        for e in ends.clone().step_by(workers) {
            let cell = match network.starts[e] {
                Place::Node(n) => n as usize,
                Place::Switch(switch, _) => network.nodes.len() + switch as usize,
            };
            match serve(&cells[cell], journal, e as u16) {
                Served::Stepped => stepped = true,
                Served::Idle => {}
                Served::Stopped => return,
            }
        }
        if !stepped {
            thread::yield_now();
        }
    }
}

pub struct Outcome<'n> {
    pub stop: Stop,
    pub machine: Machine<'n>,
    pub steps: usize,
}

pub fn run<'n>(network: &'n Network, load: &'n [Packets], workers: usize, limit: usize) -> Outcome<'n> {
    let journal = Journal::new(network, load, limit);
    let places = (0..network.nodes.len()).map(|n| (Some(n), None)).chain((0..network.switches.len()).map(|s| (None, Some(s))));
    let cells: Vec<Mutex<Cell>> = places
        .map(|place| {
            let is_there = |e: &usize| match network.starts[*e] {
                Place::Node(n) => place.0 == Some(n as usize),
                Place::Switch(switch, _) => place.1 == Some(switch as usize),
            };
            let ends = (0..network.starts.len()).filter(is_there).map(|e| (e as u16, journal.numbers(e as u16)));
            Mutex::new(Cell { ends: ends.collect() })
        })
        .collect();
    let journal = Mutex::new(journal);
    thread::scope(|scope| {
        for w in 0..workers {
            let (cells, journal) = (&cells, &journal);
            scope.spawn(move || work(network, cells, journal, w, workers));
        }
    });
    let journal = journal.into_inner().unwrap();
    Outcome { stop: journal.stop.expect("an end"), machine: journal.machine, steps: journal.history.len() }
}
