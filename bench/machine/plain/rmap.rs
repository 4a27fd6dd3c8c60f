//! RMAP commands and what a target answers to them.
use crate::network::{End, Target};

const fn eight_shifts() -> [u8; 256] {
    let mut table = [0; 256];
    let mut i = 0;
    while i < 256 {
        let mut byte = i as u8;
        let mut shift = 0;
        while shift < 8 {
            byte = if byte & 1 == 1 { byte >> 1 ^ 0xE0 } else { byte >> 1 };
            shift += 1;
        }
        table[i] = byte;
        i += 1;
    }
    table
}

static EIGHT_SHIFTS: [u8; 256] = eight_shifts();

fn crc(bytes: &[u8]) -> u8 {
    bytes.iter().fold(0, |crc, byte| EIGHT_SHIFTS[usize::from(crc ^ byte)])
}

struct Command<'p> {
    logical: u8,
    instruction: u8,
    key: u8,
    reply_address: &'p [u8],
    initiator: u8,
    transaction: &'p [u8],
    address: u64,
    length: u64,
    body: &'p [u8],
}

fn number(bytes: &[u8]) -> u64 {
    bytes.iter().fold(0, |number, byte| number << 8 | u64::from(*byte))
}

impl<'p> Command<'p> {
    fn read(bytes: &'p [u8]) -> Option<Command<'p>> {
        let instruction = *bytes.get(2)?;
        let path = 4 * usize::from(instruction & 3);
        if bytes.len() < 16 + path || bytes[1] != 1 || instruction >> 6 == 0 || crc(&bytes[..15 + path]) != bytes[15 + path] {
            return None;
        }
        let back = &bytes[4 + path..];
        Some(Command {
            logical: bytes[0],
            instruction,
            key: bytes[3],
            reply_address: &bytes[4..4 + path],
            initiator: back[0],
            transaction: &back[1..3],
            address: number(&back[3..8]),
            length: number(&back[8..11]),
            body: &back[12..],
        })
    }

    fn is_write(&self) -> bool {
        self.instruction & 0x20 != 0
    }

    fn is_answered(&self) -> bool {
        self.instruction & 8 != 0 && (self.reply_address.is_empty() || self.reply_address.iter().any(|byte| *byte != 0))
    }

    fn way(&self) -> Vec<u8> {
        let zeros = self.reply_address.iter().take_while(|byte| **byte == 0).count();
        let mut way = self.reply_address[zeros..].to_vec();
        way.push(self.initiator);
        way
    }

    fn status(&self, target: &Target, end: End) -> u8 {
        let code = self.instruction >> 2 & 15;
        let length = self.length as usize;
        let wanted = if self.is_write() { length + 1 } else { 0 };
        if self.instruction >> 6 != 1 || !(self.is_write() || matches!(code, 2 | 3 | 7)) {
            2
        } else if self.key != target.key {
            3
        } else if self.logical != target.logical {
            12
        } else if code == 7
            || self.length > 1 && self.instruction & 4 == 0
            || self.address < target.start
            || self.address + self.length > target.start + target.size as u64
        {
            10
        } else if end == End::Eep {
            7
        } else if self.body.len() < wanted {
            5
        } else if self.body.len() > wanted {
            6
        } else if self.is_write() && crc(&self.body[..length]) != self.body[length] {
            4
        } else {
            0
        }
    }

    fn reply(&self, status: u8, found: &[u8]) -> Vec<u8> {
        let mut reply = self.way();
        let begin = reply.len() - 1;
        reply.extend([1, self.instruction & 0x3F, status, self.logical]);
        reply.extend(self.transaction);
        if !self.is_write() {
            reply.push(0);
            reply.extend(&(found.len() as u32).to_be_bytes()[1..]);
        }
        reply.push(crc(&reply[begin..]));
        if !self.is_write() {
            reply.extend(found);
            reply.push(crc(found));
        }
        reply
    }
}

/// The address to which a packet of these bytes is answered.
pub fn reply_to(bytes: &[u8]) -> Option<Vec<u8>> {
    let command = Command::read(bytes)?;
    command.is_answered().then(|| command.way())
}

/// Does what the packet commands. The whole reply, if there is one.
pub fn answer(target: &Target, memory: &mut [u8], bytes: &[u8], end: End) -> Option<Vec<u8>> {
    let command = Command::read(bytes)?;
    let status = command.status(target, end);
    let length = command.length as usize;
    let at = if status == 0 { (command.address - target.start) as usize } else { 0 };
    let found = if status == 0 && !command.is_write() { &memory[at..at + length] } else { &[] };
    let reply = command.is_answered().then(|| command.reply(status, found));
    if status == 0 && command.is_write() {
        memory[at..at + length].copy_from_slice(&command.body[..length]);
    }
    reply
}
