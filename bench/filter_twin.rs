//! The work of bench/filter_bench in plain Rust: smtpd's lines, sessions, numbered reserves, settles and releases, over
//! a link that grants at once. It is the yardstick of bench/filter.py, and no part of mailquota.
use std::collections::{HashMap, VecDeque};
use std::io::{Read, Write};

const REGISTRATION: &str = "register|report|smtp-in|link-auth
register|report|smtp-in|link-disconnect
register|report|smtp-in|tx-begin
register|report|smtp-in|tx-commit
register|report|smtp-in|tx-rollback
register|report|smtp-in|tx-reset
register|filter|smtp-in|rcpt-to
register|ready
";

struct Open {
    txn: u32,
    message: Vec<u8>,
    at: u64,
}

#[derive(Default)]
struct Session {
    login: Option<Vec<u8>>,
    open: Option<Open>,
}

struct Held {
    login: Vec<u8>,
    at: u64,
    granted: u32,
}

/// Answers each request as a server with no limit would.
struct Link {
    exchanges: u64,
}

impl Link {
    fn exchange(&mut self, frame: &[u8], reply: &mut Vec<u8>) -> bool {
        self.exchanges += 1;
        reply.clear();
        let Some(body) = frame.get(2..) else { return false };
        let host = body[1] as usize;
        let id = &body[1..2 + host + 12];
        reply.push(match body[0] {
            1 => 0x81,
            2 => 0x83,
            _ => 0x84,
        });
        reply.extend_from_slice(id);
        reply.extend_from_slice(&1u32.to_be_bytes());
        true
    }
}

struct Client {
    host: Vec<u8>,
    run: u64,
    held: HashMap<u32, Held>,
    numbers: u32,
    outbox: VecDeque<(u32, Vec<u8>)>,
    link: Link,
}

impl Client {
    fn frame(&self, kind: u8, seq: u32, txn: u32, at: u64, login: &[u8], count: Option<u32>) -> Vec<u8> {
        let mut frame = Vec::with_capacity(40 + self.host.len() + login.len());
        frame.extend_from_slice(&[0, 0, kind, self.host.len() as u8]);
        frame.extend_from_slice(&self.host);
        frame.extend_from_slice(&self.run.to_be_bytes());
        frame.extend_from_slice(&seq.to_be_bytes());
        frame.extend_from_slice(&txn.to_be_bytes());
        frame.extend_from_slice(&at.to_be_bytes());
        frame.push(login.len() as u8);
        frame.extend_from_slice(login);
        if let Some(count) = count {
            frame.extend_from_slice(&count.to_be_bytes());
        }
        let length = (frame.len() - 2) as u16;
        frame[..2].copy_from_slice(&length.to_be_bytes());
        frame
    }

    fn decides(&self, kinds: &[u8], seq: u32, reply: &[u8]) -> bool {
        let Some(kind) = reply.first() else { return false };
        let host = self.host.len();
        reply.len() >= 14 + host
            && kinds.contains(kind)
            && reply[1] as usize == host
            && reply[2..2 + host] == self.host[..]
            && reply[2 + host..10 + host] == self.run.to_be_bytes()
            && reply[10 + host..14 + host] == seq.to_be_bytes()
    }

    fn reserve(&mut self, txn: u32, at: u64, login: &[u8]) -> u8 {
        match self.held.get(&txn) {
            Some(held) if held.login != login || held.at != at || held.granted >= 1000 => return 2,
            None if self.held.len() + self.outbox.len() >= 4096 => return 2,
            _ => {}
        }
        self.numbers += 1;
        let seq = self.numbers;
        let frame = self.frame(1, seq, txn, at, login, Some(1));
        self.held.entry(txn).or_insert_with(|| Held { login: login.to_vec(), at, granted: 0 });
        let mut reply = Vec::new();
        for _ in 0..3 {
            if self.link.exchange(&frame, &mut reply) && self.decides(&[0x81, 0x82, 0x87, 0x88, 0x8a], seq, &reply) {
                return match reply[0] {
                    0x81 => {
                        self.held.get_mut(&txn).unwrap().granted += 1;
                        0
                    }
                    0x82 => 1,
                    _ => 2,
                };
            }
        }
        2
    }

    fn close(&mut self, txn: u32, commit: bool) {
        let Some(held) = self.held.remove(&txn) else { return };
        self.numbers += 1;
        let seq = self.numbers;
        let frame = if commit && held.granted > 0 {
            self.frame(2, seq, txn, held.at, &held.login, Some(held.granted))
        } else {
            self.frame(3, seq, txn, held.at, &held.login, None)
        };
        self.outbox.push_back((seq, frame));
        self.drain();
    }

    fn drain(&mut self) {
        let mut reply = Vec::new();
        while let Some((seq, frame)) = self.outbox.front() {
            let mut decided = false;
            for _ in 0..3 {
                if self.link.exchange(frame, &mut reply)
                    && self.decides(&[0x83, 0x84, 0x87, 0x88, 0x89, 0x8a], *seq, &reply)
                {
                    decided = true;
                    break;
                }
            }
            if !decided {
                return;
            }
            self.outbox.pop_front();
        }
    }
}

fn seconds(time: &[u8]) -> Option<u64> {
    let point = time.iter().position(|b| *b == b'.')?;
    let (whole, fraction) = (&time[..point], &time[point + 1..]);
    let digits = |text: &[u8], most| (1..=most).contains(&text.len()) && text.iter().all(u8::is_ascii_digit);
    if !digits(whole, 18) || !digits(fraction, 9) {
        return None;
    }
    Some(whole.iter().fold(0, |n, b| 10 * n + u64::from(b - b'0')))
}

fn main() {
    let mut text = Vec::new();
    std::io::stdin().read_to_end(&mut text).unwrap();
    let mut sessions: HashMap<Vec<u8>, Session> = HashMap::new();
    let mut begins = 0u32;
    let mut client = Client {
        host: b"mx1".to_vec(),
        run: 1,
        held: HashMap::new(),
        numbers: 0,
        outbox: VecDeque::new(),
        link: Link { exchanges: 0 },
    };
    let mut out = Vec::new();
    let mut answers = 0u64;
    for line in text.split(|b| *b == b'\n') {
        let mut places: [&[u8]; 8] = [&[]; 8];
        let mut count = 0;
        for field in line.splitn(8, |b| *b == b'|') {
            places[count] = field;
            count += 1;
        }
        let fields = &places[..count];
        match fields[0] {
            b"config" if fields.get(1) == Some(&b"ready".as_slice()) => out.extend_from_slice(REGISTRATION.as_bytes()),
            b"report" => {
                assert!(fields.len() >= 6 && fields[1] == b"0.7");
                let at = seconds(fields[2]).unwrap();
                let (event, name) = (fields[4], fields[5]);
                if fields[3] != b"smtp-in" {
                    continue;
                }
                let message = fields.get(6).copied().unwrap_or(b"");
                match event {
                    b"link-auth" => {
                        if message == b"pass" {
                            sessions.entry(name.to_vec()).or_default().login = Some(fields[7].to_vec());
                        }
                    }
                    b"link-disconnect" => {
                        if let Some(Session { open: Some(open), .. }) = sessions.remove(name) {
                            client.close(open.txn, false);
                        }
                    }
                    b"tx-begin" => {
                        begins += 1;
                        if !sessions.contains_key(name) {
                            sessions.insert(name.to_vec(), Session::default());
                        }
                        let session = sessions.get_mut(name).unwrap();
                        let before = session.open.replace(Open { txn: begins, message: message.to_vec(), at });
                        if let Some(open) = before {
                            client.close(open.txn, false);
                        }
                    }
                    b"tx-commit" | b"tx-rollback" | b"tx-reset" => {
                        if let Some(session) = sessions.get_mut(name) {
                            let any = event == b"tx-reset" && message.is_empty();
                            if session.open.as_ref().is_some_and(|open| any || open.message == message) {
                                let open = session.open.take().unwrap();
                                client.close(open.txn, event == b"tx-commit");
                            }
                        }
                    }
                    _ => {}
                }
            }
            b"filter" => {
                assert!(fields.len() >= 7 && fields[1] == b"0.7");
                seconds(fields[2]).unwrap();
                let answer = if fields[3] != b"smtp-in" || fields[4] != b"rcpt-to" {
                    0
                } else {
                    match sessions.get(fields[5]) {
                        Some(Session { login: Some(login), open: Some(open) }) => {
                            client.reserve(open.txn, open.at, login)
                        }
                        Some(Session { login: Some(_), open: None }) => 2,
                        _ => 0,
                    }
                };
                out.extend_from_slice(b"filter-result|");
                out.extend_from_slice(fields[5]);
                out.push(b'|');
                out.extend_from_slice(fields[6]);
                out.extend_from_slice(match answer {
                    0 => b"|proceed\n".as_slice(),
                    1 => b"|reject|550 daily recipient limit reached\n",
                    _ => b"|reject|451 quota service unavailable\n",
                });
                answers += 1;
            }
            _ => {}
        }
    }
    client.drain();
    let mut stdout = std::io::stdout();
    stdout.write_all(&out).unwrap();
    writeln!(stdout, "answers {answers} exchanges {} left {}", client.link.exchanges, client.outbox.len()).unwrap();
}
