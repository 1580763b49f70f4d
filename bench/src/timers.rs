//! The rows of the timers.

use std::mem::size_of;

use super::timer::{Timer, TimerTable as Rust};
use crate::by_value::*;
use crate::ffi::*;
use crate::{gives, instant, Answer, Area, Call, Given, Gives, Instant, Row};

impl TimerTable {
    fn formed(&self) -> bool {
        self.expires.iter().all(Deadline::formed)
    }

    fn tuned(&self) -> bool {
        let formed = |d: &Deadline| (d.at.us == 0) | (d.set & d.at.formed());
        self.expires.iter().fold(true, |all, deadline| all & formed(deadline))
    }
}

gives!(TimerTable in timers: TimersOut Done);

/// A fresh table.
impl Gives<TimerTable, ()> for TimerTable {
    fn store(self, table: &mut TimerTable) {
        *table = self;
    }
}

/// What is set at first, and the moment that the calls are given, in microseconds. The calls are given the second timer.
const SET: [(Timer, u64); 3] = [(Timer::LossDetection, 250_000), (Timer::Idle, 30_000_000), (Timer::KeepAlive, 15_000_000)];
const TIMER: Timer = SET[1].0;
const AT: u64 = 40_000_000;

/// What is set besides where the table is full, so that the earliest comes last.
const BESIDES: [(Timer, u64); 6] = [
    (Timer::Ack, 240_000),
    (Timer::Pacer, 230_000),
    (Timer::Handshake, 220_000),
    (Timer::Draining, 210_000),
    (Timer::KeyDiscard, 205_000),
    (Timer::PathChallenge, 200_000),
];

fn set(full: bool) -> Vec<(Timer, u64)> {
    SET.into_iter().chain(BESIDES.into_iter().filter(|_| full)).collect()
}

fn ours(full: bool) -> TimerTable {
    let mut table = vig_timers_fresh();
    for (timer, us) in set(full) {
        vig_timers_set(&mut table, timer as u64, Moment { us });
    }
    table
}

fn rust(full: bool) -> Rust {
    let mut table = Rust::default();
    for (timer, us) in set(full) {
        table.set(timer, instant(us));
    }
    table
}

fn seen(table: &Rust) -> TimerTable {
    let deadline = |timer| match table.get(timer) {
        Some(at) => Deadline { at: Moment { us: (at - instant(0)).as_micros() as u64 }, set: true },
        None => Deadline { at: Moment { us: 0 }, set: false },
    };
    use Timer::*;
    let all = [LossDetection, Ack, Pacer, Idle, Handshake, Draining, KeyDiscard, KeepAlive, PathChallenge];
    TimerTable { expires: all.map(deadline) }
}

pub fn area<const FULL: bool>() -> Area {
    let (ours, rust) = (size_of::<TimerTable>(), size_of::<Rust>());
    let count = set(FULL).len();
    Area {
        name: if FULL { "timers full" } else { "timers" },
        state: format!("{ours} bytes of state, the Rust's own {rust}; {count} of 9 timers set"),
        rows: rows(FULL),
    }
}

/// The row of a call that is given a timer and a moment, of which `form` tests those that ours is given.
fn row<Out: Answer, Back: Gives<TimerTable, Out>, RustOut>(
    full: bool,
    name: &'static str,
    form: impl Fn(u64, Moment) -> bool + Copy + 'static,
    lent: impl Fn(&mut TimerTable, (u64, Moment)) -> Out + Copy + 'static,
    by_value: impl Fn(&TimerTable, (u64, Moment)) -> Back + Copy + 'static,
    rust: impl Fn(&mut Rust, (Timer, Instant)) -> RustOut + Copy + 'static,
) -> Row {
    let test = move |t: &TimerTable, &(timer, at): &(u64, Moment)| form(timer, at) && t.formed();
    let tuned = move |t: &TimerTable, &(timer, at): &(u64, Moment)| form(timer, at) & t.tuned();
    Call { name, test, tuned, lent, by_value, rust }.row(
        Given { state: ours(full), arguments: (TIMER as u64, Moment { us: AT }) },
        move || Given { state: self::rust(full), arguments: (TIMER, instant(AT)) },
        seen,
    )
}

fn rows(full: bool) -> Vec<Row> {
    let fresh = Call {
        name: "fresh",
        test: |_: &TimerTable, _: &()| true,
        tuned: |_: &TimerTable, _: &()| true,
        lent: |t: &mut TimerTable, _| *t = vig_timers_fresh(),
        by_value: |_: &TimerTable, _| val_timers_fresh(),
        rust: |t: &mut Rust, _: ()| *t = Rust::default(),
    };
    vec![
        fresh.row(Given { state: ours(full), arguments: () }, move || Given { state: rust(full), arguments: () }, seen),
        row(
            full,
            "set",
            |timer, at| timer < 9 && at.formed(),
            |t, (timer, at)| vig_timers_set(t, timer, at),
            |t, (timer, at)| val_timers_set(*t, timer, at),
            |t, (timer, at)| t.set(timer, at),
        ),
        row(
            full,
            "stop",
            |timer, _| timer < 9,
            |t, (timer, _)| vig_timers_stop(t, timer),
            |t, (timer, _)| val_timers_stop(*t, timer),
            |t, (timer, _)| t.stop(timer),
        ),
        row(
            full,
            "get",
            |timer, _| timer < 9,
            |t, (timer, _)| vig_timers_get(t, timer),
            |t, (timer, _)| val_timers_get(*t, timer),
            |t, (timer, _)| t.get(timer),
        ),
        row(
            full,
            "next_timeout",
            |_, _| true,
            |t, _| vig_timers_next_timeout(t),
            |t, _| val_timers_next_timeout(*t),
            |t, _| t.next_timeout(),
        ),
        row(
            full,
            "is_expired",
            |timer, now| timer < 9 && now.formed(),
            |t, (timer, now)| vig_timers_is_expired(t, timer, now),
            |t, (timer, now)| val_timers_is_expired(*t, timer, now),
            |t, (timer, now)| t.is_expired(timer, now),
        ),
        row(full, "clear", |_, _| true, |t, _| vig_timers_clear(t), |t, _| val_timers_clear(*t), |t, _| *t = Rust::default()),
    ]
}
