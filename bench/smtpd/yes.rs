//! A filter that says yes to every recipient: the yardstick of bench/smtpd, and no part of mailquota.
use std::io::{BufRead, Write};

fn main() {
    let mut output = std::io::stdout().lock();
    for line in std::io::stdin().lock().lines() {
        let line = line.unwrap();
        if line == "config|ready" {
            output.write_all(b"register|filter|smtp-in|rcpt-to\nregister|ready\n").unwrap();
        } else if line.starts_with("filter|") {
            let fields: Vec<&str> = line.split('|').collect();
            writeln!(output, "filter-result|{}|{}|proceed", fields[5], fields[6]).unwrap();
        }
        output.flush().unwrap();
    }
}
