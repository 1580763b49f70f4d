//! The glue of the timers. No record puts the table out of its form, so refusal 1 comes from arguments alone.

use strum::IntoEnumIterator;

use super::timer::Timer;
pub(crate) use super::timer::TimerTable as Timers;
use crate::branches::Tally;
use crate::record::{Call, Field, Outcome, Record};
use crate::{instant, moment};

/// Timer k of the Rust's order, k at most 8.
pub fn timer(k: u64) -> Timer {
    Timer::iter().nth(k as usize).expect("a timer")
}

pub fn answer(table: &mut Timers, call: &Call, record: &Record, tally: &mut Tally) -> Outcome {
    if let Some(cause) = record.malformed(call) {
        tally.hit(call.number, cause);
        return Outcome::refused(call, 1);
    }
    let n = record.n;
    let way = match call.name {
        "next_timeout" => next_way(table),
        "is_expired" => expired_way(table, n[0], n[1]),
        "fresh" => "accepted",
        "clear" => match (0..9).any(|k| table.get(timer(k)).is_some()) {
            true => "some-set",
            false => "none-set",
        },
        name => match (name, table.get(timer(n[0])).is_some()) {
            ("set", true) => "set-again",
            ("stop", true) => "was-set",
            ("stop", false) => "was-not-set",
            ("get", false) => "not-set",
            _ => "set",
        },
    };
    tally.hit(call.number, way);

    let fields = match call.name {
        // The Rust has no clear: what it must give is the table of a new connection.
        "fresh" | "clear" => {
            *table = Timers::default();
            vec![]
        }
        "set" => {
            table.set(timer(n[0]), instant(n[1]));
            vec![]
        }
        "stop" => {
            table.stop(timer(n[0]));
            vec![]
        }
        "get" => Field::maybe(table.get(timer(n[0])).map(moment)).to_vec(),
        "next_timeout" => Field::maybe(table.next_timeout().map(moment)).to_vec(),
        "is_expired" => vec![Field::Flag(table.is_expired(timer(n[0]), instant(n[1])))],
        name => unreachable!("{name}"),
    };
    Outcome::accepted(call, fields)
}

fn next_way(table: &Timers) -> &'static str {
    let mut set: Vec<u64> = (0..9).filter_map(|k| table.get(timer(k)).map(moment)).collect();
    set.sort_unstable();
    match set[..] {
        [] => "none",
        [_] => "one",
        [least, next, ..] if least == next => "equal-least",
        _ => "least-of-several",
    }
}

fn expired_way(table: &Timers, k: u64, now: u64) -> &'static str {
    match table.get(timer(k)).map(|deadline| moment(deadline).cmp(&now)) {
        None => "not-set",
        Some(std::cmp::Ordering::Less) => "deadline-before-now",
        Some(std::cmp::Ordering::Equal) => "deadline-at-now",
        Some(std::cmp::Ordering::Greater) => "deadline-after-now",
    }
}
