//! The seeded generator. It keeps the Rust's states beside the trace that it writes, so that arguments can be chosen that
//! exist, repeat, or lie on either side of a limit. Each area goes through rounds: a fresh, then calls in one mood. Now and
//! then a round is a long life: its mood changes on the way, and no fresh comes in between.

mod ids;
mod paths;

use std::collections::VecDeque;

use crate::branches::LONG_LIFE;
use crate::connection::timers;
use crate::moment;
use crate::record::{self, Area, Arg, Call, Record, AREA, CALLS, MAX_MOMENT, MAX_SEQUENCE};
use crate::run::World;

/// Sequences and sizes on the edges of the rules.
const EDGES: [u64; 7] = [0, 1, MAX_SEQUENCE - 1, MAX_SEQUENCE, MAX_SEQUENCE + 1, u64::MAX - 1, u64::MAX];

/// Splitmix64: the same numbers on any machine.
pub struct Rng(u64);

impl Rng {
    pub fn new(seed: u64) -> Self {
        Rng(seed)
    }

    pub fn next(&mut self) -> u64 {
        self.0 = self.0.wrapping_add(0x9e37_79b9_7f4a_7c15);
        let mut z = self.0;
        z = (z ^ (z >> 30)).wrapping_mul(0xbf58_476d_1ce4_e5b9);
        z = (z ^ (z >> 27)).wrapping_mul(0x94d0_49bb_1331_11eb);
        z ^ (z >> 31)
    }

    /// Below `bound`, which isn't 0.
    pub fn below(&mut self, bound: u64) -> u64 {
        self.next() % bound
    }

    pub fn percent(&mut self, chance: u64) -> bool {
        self.below(100) < chance
    }

    pub fn pick<T: Copy>(&mut self, list: &[T]) -> T {
        list[self.below(list.len() as u64) as usize]
    }

    /// One of the list, if it has any.
    pub fn some<T: Copy>(&mut self, list: &[T]) -> Option<T> {
        (!list.is_empty()).then(|| self.pick(list))
    }

    /// The number, or one of its neighbours.
    pub fn near(&mut self, number: u64) -> u64 {
        number.wrapping_add(self.below(3)).wrapping_sub(1)
    }

    fn fill(&mut self, bytes: &mut [u8]) {
        bytes.iter_mut().for_each(|byte| *byte = self.next() as u8);
    }

    /// The first place whose weight covers the throw.
    pub fn weighted(&mut self, weights: impl Iterator<Item = u64> + Clone) -> usize {
        let mut thrown = self.below(weights.clone().sum());
        for (place, weight) in weights.enumerate() {
            if thrown < weight {
                return place;
            }
            thrown -= weight;
        }
        unreachable!("a throw below the sum")
    }
}

/// How many calls a long life has at least, with room for those that are answered 1, and how long one mood lasts in it.
const LIFE: u64 = LONG_LIFE * 5 / 4;
const MOOD: u64 = 300;

/// What an area is at: calls left in its round, records planned, and its mood.
struct Round {
    left: u64,
    mood: usize,
    plan: VecDeque<Record>,
    /// The round is a long life.
    long: bool,
    /// The calls of short rounds since the last long life, and how many there are before the next. The first comes early, so
    /// that a short trace has it; in a trace of a million calls they are an eighth or so.
    short: u64,
    gap: u64,
}

impl Round {
    fn new() -> Self {
        Round { left: 0, mood: 0, plan: VecDeque::new(), long: false, short: 0, gap: 8000 }
    }

    /// A new round, of so many calls if it is a short one.
    fn begin(&mut self, calls: u64) {
        self.plan.clear();
        self.long = self.short >= self.gap;
        self.left = calls;
        if self.long {
            (self.left, self.short, self.gap) = (LIFE, 0, (2 * self.gap).min(64_000));
        }
    }

    /// One call less. Whether the mood of a long life changes.
    fn go_on(&mut self) -> bool {
        self.left -= 1;
        self.short += !self.long as u64;
        self.long && self.left % MOOD == 0
    }
}

pub struct Generator {
    rng: Rng,
    areas: Vec<Area>,
    world: World,
    ids: Round,
    paths: Round,
    /// The moment that path calls are at; it moves on by small steps.
    now: u64,
    /// How many pairs of addresses and challenge data a round of paths draws from.
    pairs: u64,
    data: u64,
}

impl Generator {
    pub fn new(areas: Vec<Area>, seed: u64) -> Self {
        let (ids, paths) = (Round::new(), Round::new());
        Generator { rng: Rng::new(seed), areas, world: World::new(), ids, paths, now: 0, pairs: 1, data: 1 }
    }

    pub fn next(&mut self) -> Record {
        let area = self.rng.pick(&self.areas);
        if self.rng.below(1000) == 0 {
            return self.unknown();
        }
        let mut record = match area {
            Area::Values => self.values(),
            Area::Timers => self.timers(),
            Area::Ids => self.ids(),
            Area::Paths => self.paths(),
        };
        let call = record::find(record.call).expect("a call");
        // Few calls of these are made, and each has many arguments.
        let often = match call.name {
            "fresh" if self.spared(area) => 0,
            "fresh" => 20,
            "mark_ping" | "get_path_id" => 10,
            _ => 3,
        };
        if self.rng.percent(often) {
            self.damage(call, &mut record);
        }
        self.world.apply(call, &record);
        record
    }

    /// Whether the round's fresh must not be refused, since more hangs on it than a few calls.
    fn spared(&self, area: Area) -> bool {
        match area {
            Area::Ids => self.ids.long,
            Area::Paths => self.paths.long || self.paths.mood == paths::ALL_FULL,
            _ => false,
        }
    }

    fn unknown(&mut self) -> Record {
        loop {
            let number = self.rng.next() as u8;
            if record::find(number).is_none() {
                return self.blank(number);
            }
        }
    }

    /// A record of that call whose arguments are yet to be written. Often what the call doesn't read holds noise.
    fn blank(&mut self, call: u8) -> Record {
        let mut record = Record::new(call);
        if self.rng.percent(25) {
            [record.a, record.b, record.c, record.d] = std::array::from_fn(|_| self.rng.percent(50));
            record.n = std::array::from_fn(|_| self.rng.next());
            self.rng.fill(&mut record.area);
        }
        record
    }

    fn values(&mut self) -> Record {
        let name = self.rng.pick(&["wire_code", "cid_new", "token_matches"]);
        let mut record = self.blank(record::number(Area::Values, name));
        if name == "token_matches" {
            self.tokens(&mut record);
            return record;
        }
        record.n[0] = match self.rng.below(10) {
            0 => self.rng.next(),
            1 => self.rng.pick(&[u64::MAX, 255, 256, 1 << 32, 1 << 63]),
            2 => self.rng.pick(&[19, 20, 21, 53, 54, 55]),
            _ if name == "wire_code" => self.rng.below(13),
            _ => self.rng.below(60),
        };
        self.rng.fill(&mut record.area);
        record
    }

    /// Two tokens that differ in one bit, in nothing, in several bytes or in all, of the same presence or not, of any form.
    fn tokens(&mut self, record: &mut Record) {
        let mut token = [0; 16];
        if self.rng.percent(80) {
            self.rng.fill(&mut token);
        }
        record.area[21..37].copy_from_slice(&token);
        for _ in 0..self.rng.pick(&[0, 0, 1, 1, 1, 1, 2, 5]) {
            token[self.rng.below(16) as usize] ^= 1 << self.rng.below(8);
        }
        if self.rng.percent(10) {
            self.rng.fill(&mut token);
        }
        record.area[37..53].copy_from_slice(&token);
        record.a = self.rng.percent(70);
        record.b = record.a ^ self.rng.percent(20);
        for (present, from) in [(record.a, 21), (record.b, 37)] {
            if !present && self.rng.percent(60) {
                record.area[from..from + 16].fill(0);
            }
        }
    }

    fn timers(&mut self) -> Record {
        let calls = area_calls(Area::Timers);
        let weights = calls.clone().map(|call| match call.name {
            "fresh" => 1,
            "clear" => 2,
            "set" => 30,
            "stop" => 25,
            _ => 20,
        });
        let call = calls.clone().nth(self.rng.weighted(weights)).expect("a call");
        let mut record = self.blank(call.number);
        record.n[0] = self.rng.below(9);
        let set: Vec<u64> = (0..9).filter_map(|k| self.world.timers.get(timers::timer(k)).map(moment)).collect();
        let own = self.world.timers.get(timers::timer(record.n[0])).map(moment);
        record.n[1] = match (self.rng.below(6), own, self.rng.some(&set)) {
            (0 | 1, Some(deadline), _) | (2, _, Some(deadline)) => self.rng.near(deadline).min(MAX_MOMENT),
            (3, ..) => self.rng.pick(&[0, 1, MAX_MOMENT - 1, MAX_MOMENT]),
            (4, ..) => self.rng.next() >> 1,
            _ => self.rng.below(10),
        };
        record
    }

    /// Puts one argument out of its form, if the call has one that can be.
    fn damage(&mut self, call: &Call, record: &mut Record) {
        let breakable = |arg: &&Arg| {
            !matches!(arg, Arg::Number(..) | Arg::FlagC(_) | Arg::FlagD(_) | Arg::Slice(_) | Arg::Token | Arg::Tokens)
        };
        let args: Vec<Arg> = call.args.iter().filter(breakable).copied().collect();
        let Some(arg) = self.rng.some(&args) else { return };
        let byte = 1 + self.rng.below(255) as u8;
        match arg {
            Arg::Timer(i) => record.n[i] = self.rng.pick(&[9, 10, 255, 1 << 32, u64::MAX]),
            Arg::Moment(_, i) => record.n[i] = self.rng.pick(&[1 << 63, (1 << 63) + 1, u64::MAX]),
            Arg::DestinationLimit(i) => record.n[i] = self.rng.pick(&[0, 0, 17, 18, 1 << 63, u64::MAX]),
            Arg::PathLimit(i) => record.n[i] = self.rng.pick(&[0, 0, 9, 10, 1 << 63, u64::MAX]),
            Arg::Maybe(_, i) => {
                record.b = false;
                record.n[i] = self.rng.pick(&[1, 2, 1 << 63, u64::MAX]);
            }
            Arg::MaybeToken => {
                record.a = false;
                record.area[21..37].fill(0);
                record.area[21 + self.rng.below(16) as usize] = byte;
            }
            Arg::Id if self.rng.percent(50) => record.area[0] = self.rng.pick(&[21, 22, 23, 128, 255]),
            Arg::Id => {
                let length = self.rng.below(20) as usize;
                record.area[0] = length as u8;
                record.area[1 + length + self.rng.below(20 - length as u64) as usize] = byte;
            }
            Arg::MaybePair if self.rng.percent(30) => {
                record.a = false;
                record.area = [0; AREA];
                record.area[self.rng.below(AREA as u64) as usize] = byte;
            }
            Arg::Pair | Arg::MaybePair => {
                record.a |= matches!(arg, Arg::MaybePair);
                let address = &mut record.area[27 * self.rng.below(2) as usize..][..27];
                if self.rng.percent(30) {
                    address[0] = self.rng.pick(&[0, 1, 2, 3, 5, 7, 255]);
                } else {
                    let (from, width) = self.rng.pick(&[(5, 12), (19, 4), (23, 4)]);
                    address[0] = 4;
                    address[5..17].fill(0);
                    address[19..].fill(0);
                    address[from + self.rng.below(width) as usize] = byte;
                }
            }
            _ => unreachable!("filtered out"),
        }
    }
}

fn area_calls(area: Area) -> impl Iterator<Item = &'static Call> + Clone {
    CALLS.iter().filter(move |call| call.area == area && !call.write)
}

#[cfg(test)]
mod tests {
    use super::*;

    #[test]
    fn a_seed_gives_one_trace_of_whole_records() {
        let (mut one, mut two) = (Generator::new(Area::ALL.to_vec(), 7), Generator::new(Area::ALL.to_vec(), 7));
        for _ in 0..20_000 {
            let record = one.next();
            assert_eq!(record, two.next());
            assert_eq!(Record::from_bytes(&record.to_bytes()), Some(record));
        }
    }

    #[test]
    fn every_way_through_every_call_is_taken() {
        for area in Area::ALL {
            let mut generator = Generator::new(vec![area], 1);
            (0..300_000).for_each(|_| drop(generator.next()));
            let report = generator.world.tally.report();
            let missed: Vec<&str> = report.lines().filter(|line| line.ends_with(" 0")).collect();
            assert!(missed.is_empty(), "{missed:?}");
            assert_eq!(generator.world.tally.disagreements, Vec::<String>::new());
        }
    }
}
