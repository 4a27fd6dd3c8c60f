//! Places of flows, and what follows them.
use crate::network::{End, Flow, Look, Network};

pub type Place = (u16, u8);

/// The places of each flow.
pub type Lists = Vec<Vec<Place>>;

/// The channels that follow a place, with how many bytes are deleted there.
pub fn followers<'a>(network: &'a Network, flow: &Flow, place: Place) -> impl Iterator<Item = Place> + 'a {
    let (channel, deleted) = place;
    let (switch, look) = match (network.end_of(channel), flow.address.get(deleted as usize)) {
        (End::Switch(switch, _), Some(byte)) => (switch, network.tables[switch as usize][*byte as usize]),
        _ => (0, Look::default()),
    };
    let behind = if look.delete { deleted + 1 } else { deleted };
    let mut set = look.ports;
    std::iter::from_fn(move || {
        while set != 0 {
            let port = set.trailing_zeros() as usize;
            set &= set - 1;
            if let Some(next) = network.ports[switch as usize][port] {
                return Some((next, behind));
            }
        }
        None
    })
}

pub fn places(network: &Network, flow: &Flow) -> Vec<Place> {
    let width = flow.address.len() + 1;
    let mut seen = vec![false; network.ends.len() * width];
    let mut found = vec![(network.out[flow.from as usize], 0)];
    seen[found[0].0 as usize * width] = true;
    let mut done = 0;
    while done < found.len() {
        for next in followers(network, flow, found[done]) {
            let number = next.0 as usize * width + next.1 as usize;
            if !seen[number] {
                seen[number] = true;
                found.push(next);
            }
        }
        done += 1;
    }
    found.sort_unstable();
    found
}

/// What is wrong with the place.
pub fn fault_of(network: &Network, flow: &Flow, place: Place) -> Option<&'static str> {
    let rest = flow.address.len() - place.1 as usize;
    match network.end_of(place.0) {
        End::Node(node) if node != flow.to => Some("M3 WrongNode"),
        End::Node(_) => (rest != flow.left as usize).then_some("M4 WrongLeft"),
        End::Switch(..) if rest == 0 => Some("M1 AddressEnds"),
        End::Switch(..) => followers(network, flow, place).next().is_none().then_some("M2 NoRoute"),
    }
}
