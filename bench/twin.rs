//! The work of `mailquota replay` on usage frames and reserves, in plain Rust: hexadecimal, frames, maps of totals.
//! It is the yardstick of bench/replay.py, and no part of mailquota.
use std::collections::HashMap;
use std::io::{Read, Write};

#[derive(Default, Clone)]
struct Totals {
    settled: u32,
    reserved: u32,
}

#[derive(Default)]
struct Ledger {
    totals: HashMap<(Vec<u8>, u32), Totals>,
    replies: HashMap<(Vec<u8>, u64, u32), (Vec<u8>, Vec<u8>)>,
}

struct Fields<'a>(&'a [u8]);

impl<'a> Fields<'a> {
    fn take(&mut self, count: usize) -> Option<&'a [u8]> {
        if self.0.len() < count {
            return None;
        }
        let (front, rest) = self.0.split_at(count);
        self.0 = rest;
        Some(front)
    }

    fn u32(&mut self, low: u32, high: u32) -> Option<u32> {
        let number = u32::from_be_bytes(self.take(4)?.try_into().unwrap());
        (low <= number && number <= high).then_some(number)
    }

    fn u64(&mut self, low: u64, high: u64) -> Option<u64> {
        let number = u64::from_be_bytes(self.take(8)?.try_into().unwrap());
        (low <= number && number <= high).then_some(number)
    }

    fn text(&mut self, low: usize, high: usize) -> Option<&'a [u8]> {
        let length = self.take(1)?[0] as usize;
        if length < low || high < length {
            return None;
        }
        self.take(length)
    }
}

fn usage(ledger: &Ledger, body: &[u8], default: u32) -> Option<Vec<u8>> {
    let mut fields = Fields(&body[1..]);
    let login = fields.text(1, 255)?.to_vec();
    let day = fields.u32(0, 376_200)?;
    if !fields.0.is_empty() {
        return None;
    }
    let totals = ledger.totals.get(&(login.clone(), day)).cloned().unwrap_or_default();
    let mut reply = vec![0x8b, login.len() as u8];
    reply.extend_from_slice(&login);
    for number in [day, totals.settled, totals.reserved, default] {
        reply.extend_from_slice(&number.to_be_bytes());
    }
    Some(reply)
}

fn reserve(ledger: &mut Ledger, body: &[u8], default: u32) -> Option<Vec<u8>> {
    let mut fields = Fields(&body[1..]);
    let host = fields.text(1, 64)?;
    if !host.iter().all(|b| b.is_ascii_alphanumeric() || *b == b'.' || *b == b'-') {
        return None;
    }
    let run = fields.u64(1, 281_474_976_710_655)?;
    let seq = fields.u32(1, u32::MAX)?;
    let id_length = 1 + host.len() + 12;
    fields.u32(1, u32::MAX)?;
    let at = fields.u64(86_400, 32_503_680_000)?;
    let login = fields.text(1, 255)?.to_vec();
    let count = fields.u32(1, 1000)?;
    if !fields.0.is_empty() {
        return None;
    }
    let id = (host.to_vec(), run, seq);
    if let Some((request, reply)) = ledger.replies.get(&id) {
        return (request == body).then(|| reply.clone());
    }
    let totals = ledger.totals.entry((login, (at / 86_400) as u32)).or_default();
    let used = totals.settled + totals.reserved;
    let full = default < used + count;
    let mut reply = vec![if full { 0x82 } else { 0x81 }];
    reply.extend_from_slice(&body[1..1 + id_length]);
    if full {
        reply.extend_from_slice(&used.to_be_bytes());
        reply.extend_from_slice(&default.to_be_bytes());
    } else {
        totals.reserved += count;
        reply.extend_from_slice(&(used + count).to_be_bytes());
    }
    ledger.replies.insert(id, (body.to_vec(), reply.clone()));
    Some(reply)
}

fn serve(ledger: &mut Ledger, stream: &[u8], default: u32) -> Vec<u8> {
    let mut written = Vec::new();
    let mut rest = stream;
    for _ in 0..10_000 {
        let Some((head, after)) = rest.split_at_checked(2) else { break };
        let length = u16::from_be_bytes([head[0], head[1]]) as usize;
        if length == 0 || 512 < length || after.len() < length {
            break;
        }
        let (body, next) = after.split_at(length);
        let reply = match body[0] {
            1 => reserve(ledger, body, default),
            5 => usage(ledger, body, default),
            _ => None,
        };
        let Some(reply) = reply else { break };
        written.extend_from_slice(&(reply.len() as u16).to_be_bytes());
        written.extend_from_slice(&reply);
        rest = next;
    }
    written
}

fn digit(byte: u8) -> u8 {
    match byte {
        b'0'..=b'9' => byte - b'0',
        b'a'..=b'f' => byte - b'a' + 10,
        b'A'..=b'F' => byte - b'A' + 10,
        _ => std::process::exit(1),
    }
}

fn main() {
    let mut text = Vec::new();
    std::io::stdin().take(1_048_577).read_to_end(&mut text).unwrap();
    let mut connections: Vec<Vec<u8>> = Vec::new();
    let mut current = Vec::new();
    for line in text.split(|b| *b == b'\n') {
        let digits: Vec<u8> = line.iter().filter(|b| **b != b' ').map(|b| digit(*b)).collect();
        if digits.is_empty() {
            if !current.is_empty() {
                connections.push(std::mem::take(&mut current));
            }
            continue;
        }
        current.extend(digits.chunks(2).map(|pair| 16 * pair[0] + pair[1]));
    }
    if !current.is_empty() {
        connections.push(current);
    }
    let mut ledger = Ledger::default();
    let mut shown = String::new();
    for stream in &connections {
        for byte in serve(&mut ledger, stream, 100) {
            shown.push(char::from_digit((byte >> 4).into(), 16).unwrap());
            shown.push(char::from_digit((byte & 15).into(), 16).unwrap());
        }
        shown.push('\n');
    }
    std::io::stdout().write_all(shown.as_bytes()).unwrap();
}
