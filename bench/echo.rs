//! The floor of bench/link.py: accepts connections one after the other, and on each reads and writes back until the
//! peer has ended, as the quota server does, with no work between. No part of mailquota.
//!
//! usage: echo PORT CONNECTIONS
use std::io::{Read, Write};
use std::net::TcpListener;

fn main() {
    let mut words = std::env::args().skip(1);
    let port: u16 = words.next().unwrap().parse().unwrap();
    let connections: usize = words.next().unwrap().parse().unwrap();
    let listener = TcpListener::bind(("127.0.0.1", port)).unwrap();
    let mut piece = [0u8; 4096];
    for stream in listener.incoming().take(connections) {
        let mut stream = stream.unwrap();
        loop {
            let count = stream.read(&mut piece).unwrap();
            if count == 0 {
                break;
            }
            stream.write_all(&piece[..count]).unwrap();
        }
    }
}
