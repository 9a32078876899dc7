//! Asks as filters do: one reserve on each connection, or all of a client on one that is kept, of 50 logins, each in a
//! transaction of its own; or a server of Postfix's policies, which counts by login too. Prints the seconds from the first
//! connection to the last reply. No part of mailquota.
//!
//! usage: asker PORT CLIENTS REQUESTS quota|policy new|kept
use std::io::{Read, Write};
use std::net::{Shutdown, TcpStream};
use std::time::Instant;

/// A server of mailquota ends a connection after 10,000 frames.
const ON_A_CONNECTION: usize = 9_999;

fn login(number: u32) -> [u8; 3] {
    [b'u', b'0' + (number % 50 / 10) as u8, b'0' + (number % 10) as u8]
}

fn frame(number: u32) -> Vec<u8> {
    let mut body = vec![1, 1, b'a'];
    body.extend(1u64.to_be_bytes());
    body.extend(number.to_be_bytes());
    body.extend(number.to_be_bytes());
    body.extend(86_400u64.to_be_bytes());
    body.push(3);
    body.extend(login(number));
    body.extend(1u32.to_be_bytes());
    let mut whole = (body.len() as u16).to_be_bytes().to_vec();
    whole.extend(body);
    whole
}

fn policy(number: u32) -> Vec<u8> {
    let name = String::from_utf8(login(number).to_vec()).unwrap();
    let text = format!(
        "request=smtpd_access_policy\nprotocol_state=RCPT\nprotocol_name=ESMTP\nclient_address=192.0.2.1\nclient_name=a.example.org\n\
         sasl_username={name}\nsender={name}@example.org\nrecipient=r{number}@example.net\ninstance=i{number}\n\n"
    );
    text.into_bytes()
}

/// Any reply of at least 21 bytes will do: a granted reserve has so many, and the echo of one has more.
fn read_reply(stream: &mut TcpStream) {
    let mut reply = [0u8; 21];
    stream.read_exact(&mut reply).unwrap();
    assert!(reply[2] == 0x81 || reply[2] == 0x01, "the reserve wasn't granted");
    // (an echo goes on)
    let length = 2 + u16::from_be_bytes([reply[0], reply[1]]) as usize;
    std::io::copy(&mut stream.take(length as u64 - 21), &mut std::io::sink()).unwrap();
}

fn read_action(stream: &mut TcpStream) {
    let (mut text, mut piece) = (Vec::new(), [0u8; 512]);
    while !text.ends_with(b"\n\n") {
        let count = stream.read(&mut piece).unwrap();
        assert!(count > 0, "the connection ended");
        text.extend(&piece[..count]);
    }
    let text = text.to_ascii_lowercase();
    assert!(text.starts_with(b"action=dunno"), "it was refused");
}

struct Asking {
    port: u16,
    is_policy: bool,
    is_kept: bool,
}

impl Asking {
    fn ask_all(&self, numbers: impl Iterator<Item = u32>) {
        let mut kept: Option<(TcpStream, usize)> = None;
        for number in numbers {
            let (mut stream, asked) = match kept.take() {
                Some((stream, asked)) if asked < ON_A_CONNECTION => (stream, asked),
                _ => (TcpStream::connect(("127.0.0.1", self.port)).unwrap(), 0),
            };
            stream.set_nodelay(true).unwrap();
            stream.write_all(&if self.is_policy { policy(number) } else { frame(number) }).unwrap();
            if !self.is_kept && !self.is_policy {
                stream.shutdown(Shutdown::Write).unwrap();
            }
            if self.is_policy {
                read_action(&mut stream);
            } else {
                read_reply(&mut stream);
            }
            if self.is_kept {
                kept = Some((stream, asked + 1));
            }
        }
    }
}

fn main() {
    let words: Vec<String> = std::env::args().skip(1).collect();
    let number = |at: usize| words[at].parse::<u32>().unwrap();
    let (port, clients, requests) = (number(0) as u16, number(1), number(2));
    let asking = Asking { port, is_policy: words[3] == "policy", is_kept: words[4] == "kept" };
    let start = Instant::now();
    std::thread::scope(|scope| {
        for client in 0..clients {
            let asking = &asking;
            scope.spawn(move || asking.ask_all((1..=requests).filter(|n| n % clients == client)));
        }
    });
    println!("{}", start.elapsed().as_secs_f64());
}
