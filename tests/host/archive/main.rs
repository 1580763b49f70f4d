//! A trace (docs/TRACES.md) answered by the archive: the call of each record is made through its published function, on a lent state, and its line written as
//! `replay` writes it.
//!
//!     archive < trace > answers
//!
//! On standard error each function that was called, with how often.

mod answers;
mod calls;
mod digest;
#[path = "../../../rust/src/ffi.rs"]
mod ffi;
#[path = "../../../oracle/src/mix.rs"]
mod mix;
#[path = "../plain.rs"]
mod plain;
#[path = "../../../oracle/src/record.rs"]
#[allow(dead_code)]
mod record;

use record::{Record, RECORD};
use std::io::{self, Read, Write};
use std::process::exit;

/// An ID as records have it; longer input is cut, which the archive leaves to its hosts.
pub struct ConnectionId {
    pub len: u8,
    pub data: [u8; 20],
}

impl ConnectionId {
    pub fn new(bytes: &[u8]) -> Self {
        let len = bytes.len().min(20);
        let mut data = [0; 20];
        data[..len].copy_from_slice(&bytes[..len]);
        ConnectionId { len: len as u8, data }
    }
}

fn main() {
    if let Err(why) = run() {
        eprintln!("archive: {why}");
        exit(1)
    }
}

fn run() -> io::Result<()> {
    let mut trace = Vec::new();
    io::stdin().lock().read_to_end(&mut trace)?;
    let mut out = io::BufWriter::new(io::stdout().lock());
    let mut states = calls::States::new();
    let records = trace.chunks_exact(RECORD);
    let (whole, rest) = (records.len(), records.remainder().len());
    for (count, bytes) in records.enumerate() {
        let Some(record) = Record::from_bytes(bytes.try_into().unwrap()) else {
            writeln!(out, "record {count:016x} malformed")?;
            return out.flush();
        };
        match record::find(record.call) {
            Some(call) => writeln!(out, "{}", states.line(call, &record))?,
            None => writeln!(out, "{:02x} unknown call", record.call)?,
        }
    }
    match rest {
        0 => writeln!(out, "end {whole:016x}")?,
        _ => writeln!(out, "record {whole:016x} truncated")?,
    }
    for (name, count) in &states.made {
        eprintln!("called {name} {count}");
    }
    out.flush()
}
