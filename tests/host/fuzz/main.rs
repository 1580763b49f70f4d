//! A host's mistakes: states grown by calls, then damaged, and lent to every published call with arguments in and out of form.
//!
//!     fuzz [DAMAGED] [SEED]
//!
//! DAMAGED states are damaged, 100000 if nothing is said, and half as many are not.
//!
//! Of each call it is asked that it ends; that it answers refusal 1 exactly where form.rs says that the state or an argument isn't of its form; that a
//! refusal answers nothing else; that refusals 1 and 5 to 8, and calls that only read, leave every byte of the state; and that a well-formed state
//! stays well formed. Prints what was tried, and fails where a conjunct was never broken alone.

mod area;
mod arguments;
#[path = "../../../rust/src/ffi.rs"]
mod ffi;
mod form;
mod ids;
mod lent;
mod parts;
mod paths;
#[path = "../plain.rs"]
mod plain;
mod random;
mod timers;

use area::{Area, Made};
use random::Random;
use std::process::exit;

fn main() {
    let mut words = std::env::args().skip(1).map(|word| word.parse().unwrap_or_else(|_| fail("usage: fuzz [DAMAGED] [SEED]")));
    let damaged = words.next().unwrap_or(100_000);
    let seed = words.next().unwrap_or(1);
    run(damaged, seed).unwrap_or_else(|why| fail(&why));
}

fn fail(why: &str) -> ! {
    eprintln!("fuzz: {why}");
    exit(1)
}

fn run(damaged: u64, seed: u64) -> Result<(), String> {
    let mut random = Random::new(seed);
    let mut areas = Areas {
        timers: Area::new(&mut random)?,
        ids: Area::new(&mut random)?,
        paths: Area::new(&mut random)?,
        wire_code: Made::default(),
        token_matches: Made::default(),
    };
    let states = damaged + damaged.div_ceil(2);
    for state in 0..states {
        areas.trial(state, &mut random).map_err(|why| format!("state {state} of seed {seed}: {why}"))?;
    }
    (0..=u64::from(u8::MAX)).chain([1 << 32, u64::MAX]).try_for_each(|number| areas.wire_code(number))?;
    (0..1000).try_for_each(|_| areas.tokens(&mut random))?;

    areas.print_calls();
    println!("fuzz: seed {seed}: {damaged} states damaged and {} not", states - damaged);
    areas.print_totals();
    areas.print_alone()
}

struct Areas {
    timers: Area<ffi::TimerTable>,
    ids: Area<ffi::Ids>,
    paths: Area<ffi::Paths>,
    wire_code: Made,
    token_matches: Made,
}

impl Areas {
    /// One round of states makes every call once. Every third state isn't damaged, and no call has only such: 3 doesn't divide the number of calls.
    fn trial(&mut self, state: u64, random: &mut Random) -> Result<(), String> {
        use lent::State;
        let (timers, ids, paths) = (ffi::TimerTable::CALLS.len(), ffi::Ids::CALLS.len(), ffi::Paths::CALLS.len());
        let (place, damage) = (state as usize % (timers + ids + paths), state % 3 != 2);
        if place < timers {
            self.timers.trial(place, damage, random)
        } else if place < timers + ids {
            self.ids.trial(place - timers, damage, random)
        } else {
            self.paths.trial(place - timers - ids, damage, random)
        }
    }

    /// RULES.md, "Refusals".
    fn wire_code(&mut self, number: u64) -> Result<(), String> {
        self.wire_code.calls += 1;
        let expected = match number {
            3 => 0x09,
            4 => 0x0a,
            5 => 0x00,
            _ => 0x01,
        };
        match ffi::vig_wire_code(number) {
            code if code == expected => Ok(()),
            code => Err(format!("vig_wire_code({number}) is {code}")),
        }
    }

    /// A token in or out of form beside itself, beside one in which a single bit or the flag is another, and beside one of other bytes.
    fn tokens(&mut self, random: &mut Random) -> Result<(), String> {
        let token = ffi::Token { bytes: random.bytes(), present: random.flag() };
        self.token_matches(token, token)?;
        self.token_matches(token, ffi::Token { present: !token.present, ..token })?;
        self.token_matches(token, ffi::Token { bytes: random.bytes(), ..token })?;
        (0..128).try_for_each(|bit| {
            let mut other = token;
            other.bytes[bit / 8] ^= 1 << (bit % 8);
            self.token_matches(token, other)
        })
    }

    /// RULES.md, "Values": presence and bytes.
    fn token_matches(&mut self, a: ffi::Token, b: ffi::Token) -> Result<(), String> {
        self.token_matches.calls += 1;
        let number = |token: ffi::Token| u128::from_be_bytes(token.bytes);
        let expected = (number(a), a.present) == (number(b), b.present);
        match ffi::vig_token_matches(a, b) {
            answer if answer == expected => Ok(()),
            answer => Err(format!("vig_token_matches({a:?}, {b:?}) is {answer}")),
        }
    }

    fn print_calls(&self) {
        let made = self.timers.made().chain(self.ids.made()).chain(self.paths.made());
        let stateless = [("vig_wire_code", self.wire_code), ("vig_token_matches", self.token_matches)];
        for (name, Made { calls, ones }) in made.chain(stateless) {
            println!("{name:<42} {calls:>7} calls {ones:>7} answered 1");
        }
        let answers: [u64; 9] = std::array::from_fn(|refusal| {
            self.timers.answers[refusal] + self.ids.answers[refusal] + self.paths.answers[refusal]
        });
        println!("answers by refusal, from 0 on: {answers:?}");
    }

    fn print_totals(&self) {
        let growing = self.timers.growing + self.ids.growing + self.paths.growing;
        let malformed = self.timers.malformed + self.ids.malformed + self.paths.malformed;
        let ones = self.timers.answers[1] + self.ids.answers[1] + self.paths.answers[1];
        println!("fuzz: {malformed} of the states are not well formed; {growing} calls made them");
        println!(
            "fuzz: {ones} calls answer 1, those that the definition says and no other, {} of them for an argument alone",
            ones - malformed
        );
    }

    /// An error where a conjunct was never broken alone.
    fn print_alone(&self) -> Result<(), String> {
        let areas = [("IDs", &self.ids.alone), ("paths", &self.paths.alone), ("timers", &self.timers.alone)];
        for (area, alone) in areas {
            let counts: Vec<String> = alone.iter().map(u64::to_string).collect();
            println!("fuzz: {area} with one conjunct broken alone, from 1 on: {}", counts.join(" "));
        }
        areas.into_iter().try_for_each(|(area, alone)| match alone.iter().position(|&count| count == 0) {
            Some(never) => Err(format!("{area}: conjunct {} was never broken alone", never + 1)),
            None => Ok(()),
        })
    }
}
