//! The levels of channels, or the cycle to show.
use petgraph::algo::toposort;
use petgraph::graphmap::DiGraphMap;
use petgraph::Direction::Incoming;

pub type Graph = DiGraphMap<u16, ()>;

pub enum Order {
    Levels(Vec<u16>),
    Cycle(Vec<u16>),
}

fn levels(graph: &Graph) -> Option<Vec<u16>> {
    let mut levels = vec![0; graph.node_count()];
    for c in toposort(graph, None).ok()? {
        for e in graph.neighbors(c) {
            levels[e as usize] = levels[e as usize].max(levels[c as usize] + 1);
        }
    }
    Some(levels)
}

/// The channels that are behind a cycle, or on one.
fn left(graph: &Graph) -> Vec<bool> {
    let count = graph.node_count();
    let mut waits: Vec<usize> = (0..count).map(|c| graph.neighbors_directed(c as u16, Incoming).count()).collect();
    let mut left = vec![true; count];
    let mut ready: Vec<u16> = (0..count as u16).filter(|c| waits[*c as usize] == 0).collect();
    while let Some(c) = ready.pop() {
        left[c as usize] = false;
        for e in graph.neighbors(c) {
            waits[e as usize] -= 1;
            if waits[e as usize] == 0 {
                ready.push(e);
            }
        }
    }
    left
}

/// The cycle that a walk back closes, from the least channel that is left and by the least predecessor each time; forwards, from
/// its least channel on.
fn cycle(graph: &Graph) -> Vec<u16> {
    let left = left(graph);
    let mut now = left.iter().position(|is| *is).expect("a channel that is left") as u16;
    let mut walk = Vec::new();
    let mut at = vec![None; left.len()];
    while at[now as usize].is_none() {
        at[now as usize] = Some(walk.len());
        walk.push(now);
        now = graph.neighbors_directed(now, Incoming).filter(|b| left[*b as usize]).min().expect("a predecessor");
    }
    let mut cycle = walk.split_off(at[now as usize].expect("a place"));
    cycle.reverse();
    let least = (0..cycle.len()).min_by_key(|i| cycle[*i]).expect("a channel");
    cycle.rotate_left(least);
    cycle
}

pub fn order(graph: &Graph) -> Order {
    match levels(graph) {
        Some(levels) => Order::Levels(levels),
        None => Order::Cycle(cycle(graph)),
    }
}
