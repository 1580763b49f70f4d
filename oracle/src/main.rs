//! The oracle: answers traces (docs/TRACES.md) with the behaviour of the unchanged cid.rs, path.rs and timer.rs of tquic
//! 1.6.0, writes traces, and compares answers. The Rust is read from a folder at build time: see build.rs.

// error.rs names libc for one type.
extern crate self as libc;

mod branches;
mod connection;
mod differences;
mod digest;
mod generate;
mod mix;
mod prologue;
mod record;
mod run;
mod shims;
mod trials;

use std::cell::Cell;
use std::sync::OnceLock;

// What the Rust's files expect at the crate's root.
use shims::{frame, multipath_scheduler, rand, token, PathStats, RecoveryConfig};
use std::net::SocketAddr;
use std::time::{Duration, Instant};
use std::{cmp, fmt};

use error::Error;

include!(concat!(env!("OUT_DIR"), "/error_module.rs"));
include!(concat!(env!("OUT_DIR"), "/lib_parts.rs"));

#[allow(non_camel_case_types)]
pub type ssize_t = isize;

thread_local! {
    /// The moment that the clock shows, in microseconds.
    static NOW: Cell<u64> = const { Cell::new(0) };
}

#[repr(C)]
pub struct Timespec {
    seconds: i64,
    nanoseconds: i64,
}

/// Takes the place of the C library's, so that `Instant::now` shows the moment that a record gives.
///
/// # Safety
/// `time` is a valid place, as the C function asks.
#[no_mangle]
pub unsafe extern "C" fn clock_gettime(_clock: i32, time: *mut Timespec) -> i32 {
    let now = NOW.get();
    let (seconds, nanoseconds) = ((now / 1_000_000) as i64, (now % 1_000_000 * 1000) as i64);
    time.write(Timespec { seconds, nanoseconds });
    0
}

pub fn set_now(moment: u64) {
    NOW.set(moment);
}

fn origin() -> Instant {
    static ORIGIN: OnceLock<Instant> = OnceLock::new();
    *ORIGIN.get_or_init(|| {
        let now = NOW.replace(0);
        let origin = Instant::now();
        NOW.set(now);
        origin
    })
}

/// The Instant of a moment, and back.
pub fn instant(moment: u64) -> Instant {
    origin() + Duration::from_micros(moment)
}

pub fn moment(instant: Instant) -> u64 {
    instant.duration_since(origin()).as_micros() as u64
}

/// The number of the Rust's refusal.
pub fn refusal_of(error: &Error) -> u8 {
    match error {
        Error::InternalError => 2,
        Error::ConnectionIdLimitError => 3,
        Error::ProtocolViolation => 4,
        Error::Done => 5,
        other => unreachable!("the Rust gives {other}"),
    }
}

const USAGE: &str = "usage: oracle gen AREAS CALLS SEED > trace      AREAS: a comma list of values, timers, ids, paths
       oracle prologue > trace                    what the stored sample begins with
       oracle answer [--branches FILE] < trace > answers
       oracle compare TRACE A B
       oracle trials
       oracle differences";

fn main() {
    let arguments: Vec<String> = std::env::args().skip(1).collect();
    let words: Vec<&str> = arguments.iter().map(String::as_str).collect();
    let done = match words[..] {
        ["gen", areas, calls, seed] => run::generate(areas, calls, seed),
        ["prologue"] => run::write_all(prologue::records()),
        ["answer"] => run::answer(None),
        ["answer", "--branches", file] => run::answer(Some(file)),
        ["compare", trace, a, b] => run::compare(trace, a, b),
        ["trials"] => Ok(trials::run()),
        ["differences"] => Ok(differences::run()),
        _ => Err(USAGE.into()),
    };
    match done {
        Ok(true) => {}
        Ok(false) => std::process::exit(1),
        Err(why) => {
            eprintln!("oracle: {why}");
            std::process::exit(2)
        }
    }
}

#[cfg(test)]
mod tests {
    use super::*;

    #[test]
    fn the_clock_shows_every_moment() {
        for now in [0, 1, 999_999, 1_000_000, record::MAX_MOMENT] {
            set_now(now);
            assert_eq!(Instant::now(), instant(now));
            assert_eq!(moment(Instant::now()), now);
        }
        set_now(4);
        assert_eq!(Instant::now().duration_since(instant(7)), Duration::ZERO);
        assert_eq!(Instant::now().duration_since(instant(1)), Duration::from_micros(3));
    }
}
