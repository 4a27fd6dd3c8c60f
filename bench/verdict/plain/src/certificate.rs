//! Certificates: their text, and their check.
use crate::network::Network;
use crate::places::{fault_of, followers, Lists};
use std::fmt::Write;

pub fn spelled(levels: &[u16], lists: &Lists) -> String {
    let mut text = format!("swcert 1\nchannels {}\n", levels.len());
    for level in levels {
        writeln!(text, "number {level}").unwrap();
    }
    writeln!(text, "flows {}", lists.len()).unwrap();
    for list in lists {
        writeln!(text, "flow {}", list.len()).unwrap();
        for (channel, deleted) in list {
            writeln!(text, "place {channel} {deleted}").unwrap();
        }
    }
    text + "end\n"
}

pub fn read(text: &str) -> (Vec<u16>, Lists) {
    let mut lines = text.lines().skip(1);
    let mut field = |word: &str| -> usize {
        lines.next().and_then(|line| line.strip_prefix(word)).and_then(|rest| rest.trim().parse().ok()).expect("a certificate")
    };
    let channels = field("channels");
    let numbers = (0..channels).map(|_| field("number") as u16).collect();
    let flows = field("flows");
    let mut lists = Vec::with_capacity(flows);
    for _ in 0..flows {
        let count = lines.next().and_then(|line| line.strip_prefix("flow ")).and_then(|n| n.parse().ok()).expect("a certificate");
        let mut list = Vec::with_capacity(count);
        for _ in 0..count {
            let (c, k) = lines.next().and_then(|line| line.strip_prefix("place ")).and_then(|rest| rest.split_once(' ')).expect("a place");
            list.push((c.parse().unwrap(), k.parse().unwrap()));
        }
        lists.push(list);
    }
    (numbers, lists)
}

pub fn is_accepted(network: &Network, numbers: &[u16], lists: &Lists) -> bool {
    let closed = network.flows.iter().zip(lists).all(|(flow, list)| {
        list.binary_search(&(network.out[flow.from as usize], 0)).is_ok()
            && list.iter().all(|place| {
                fault_of(network, flow, *place).is_none()
                    && followers(network, flow, *place).all(|next| list.binary_search(&next).is_ok() && numbers[place.0 as usize] < numbers[next.0 as usize])
            })
    });
    closed && network.flows.iter().filter(|flow| flow.answers).all(|flow| {
        let out = network.out[flow.to as usize];
        numbers[(out ^ 1) as usize] < numbers[out as usize]
    })
}
