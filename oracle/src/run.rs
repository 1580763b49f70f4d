//! The three states, the answer of a record, and the subcommands over files.

use std::error::Error;
use std::fs::File;
use std::io::{self, BufRead, BufReader, BufWriter, Read, Write};

use crate::branches::{Tally, IDS_LIFE, LONG_LIFE, PATHS_LIFE};
use crate::connection::cid::ConnectionIdMgr;
use crate::connection::path::PathMap;
use crate::connection::{ids, paths, timers};
use crate::generate::Generator;
use crate::record::{self, Area, Call, Field, Outcome, Record, RECORD};
use crate::{digest, ConnectionId};

type Done = Result<bool, Box<dyn Error>>;

/// The states that a trace works on, and the ways taken so far.
pub struct World {
    pub timers: timers::Timers,
    pub ids: ConnectionIdMgr,
    pub paths: PathMap,
    pub tally: Tally,
    /// How many calls the IDs and the paths have answered, otherwise than by 1, since their fresh.
    ages: [u64; 2],
}

impl World {
    pub fn new() -> Self {
        let (timers, ids) = Default::default();
        World { timers, ids, paths: PathMap::zero(), tally: Tally::new(), ages: [0; 2] }
    }

    pub fn apply(&mut self, call: &Call, record: &Record) -> Outcome {
        let outcome = match call.area {
            Area::Values => values(call, record, &mut self.tally),
            Area::Timers => timers::answer(&mut self.timers, call, record, &mut self.tally),
            Area::Ids => ids::answer(&mut self.ids, call, record, &mut self.tally),
            Area::Paths => paths::answer(&mut self.paths, call, record, &mut self.tally),
        };
        self.grow(call, outcome.refusal);
        outcome
    }

    /// Counts the lives that reach an age.
    fn grow(&mut self, call: &Call, refusal: u8) {
        let (state, life) = match call.area {
            Area::Ids => (0, IDS_LIFE),
            Area::Paths => (1, PATHS_LIFE),
            _ => return,
        };
        let age = &mut self.ages[state];
        match (call.name, refusal) {
            ("fresh", _) => *age = 0,
            (_, 1) => return,
            _ => *age += !call.write as u64,
        }
        for (calls, way) in [(100, "calls-100"), (1000, "calls-1000"), (LONG_LIFE, "calls-10000")] {
            self.tally.hit_if(!call.write && *age == calls, life, way);
        }
    }

    pub fn digest(&self, area: Area) -> u64 {
        match area {
            Area::Values => 0,
            Area::Timers => digest::of_timers(&self.timers),
            Area::Ids => digest::of_ids(&self.ids),
            Area::Paths => digest::of_paths(&self.paths),
        }
    }

    fn line(&mut self, record: &Record) -> String {
        match record::find(record.call) {
            None => format!("{:02x} unknown call", record.call),
            Some(call) => {
                let outcome = self.apply(call, record);
                outcome.line(call.number, self.digest(call.area))
            }
        }
    }
}

/// The Rust compares tokens as `Option<u128>`, where an absent one has no bytes. What is absent and not zero is the port's own: its bytes count.
fn token_matches(call: &Call, record: &Record, tally: &mut Tally) -> Outcome {
    let (token, other) = (record.token(), record.other_token());
    let formed = (record.a || token == 0) && (record.b || other == 0);
    let same = match formed {
        true => record.a.then_some(token) == record.b.then_some(other),
        false => (record.a, token) == (record.b, other),
    };
    let bytes = (token ^ other).to_be_bytes();
    let mut differing = (0..16).filter(|&place| bytes[place] != 0);
    let single;
    let way = match (formed, record.a, record.b, differing.next(), differing.next()) {
        (false, ..) if same => "absent-not-zero-equal",
        (false, ..) => "absent-not-zero-differs",
        (_, false, false, ..) => "both-absent",
        (_, a, b, ..) if a != b => "one-absent",
        (.., None, _) => "equal",
        (.., Some(place), None) => {
            single = format!("byte-{place}");
            &single
        }
        _ => "several-bytes",
    };
    tally.hit(call.number, way);
    Outcome::accepted(call, vec![Field::Flag(same)])
}

fn values(call: &Call, record: &Record, tally: &mut Tally) -> Outcome {
    use crate::error::Error;
    let n = record.n[0];
    if call.name == "token_matches" {
        return token_matches(call, record, tally);
    }
    if call.name == "cid_new" {
        let length = n.min(record::AREA as u64) as usize;
        tally.hit(
            call.number,
            match n {
                0 => "empty",
                1..=19 => "below-20",
                20 => "exactly-20",
                21..=54 => "cut",
                _ => "above-the-area",
            },
        );
        return Outcome::accepted(call, vec![Field::of_id(&ConnectionId::new(&record.area[..length]))]);
    }
    let rust = match n {
        2 => Some(Error::InternalError),
        3 => Some(Error::ConnectionIdLimitError),
        4 => Some(Error::ProtocolViolation),
        5 => Some(Error::Done),
        _ => None,
    };
    tally.hit(call.number, &if n <= 8 { format!("number-{n}") } else { "other".to_string() });
    // The other numbers are the port's own: docs/RULES.md gives each the wire code 1.
    Outcome::accepted(call, vec![Field::Number(rust.map_or(1, |error| error.to_wire()))])
}

pub fn generate(areas: &str, calls: &str, seed: &str) -> Done {
    let named = |name: &str| Area::ALL.into_iter().find(|area| area.name() == name).ok_or(format!("no area `{name}`"));
    let areas: Vec<Area> = areas.split(',').map(named).collect::<Result<_, _>>()?;
    let (calls, seed): (u64, u64) = (calls.parse()?, seed.parse()?);
    let mut generator = Generator::new(areas, seed);
    write_all((0..calls).map(|_| generator.next()))
}

/// Writes a trace.
pub fn write_all(records: impl IntoIterator<Item = Record>) -> Done {
    let mut out = BufWriter::new(io::stdout().lock());
    for record in records {
        out.write_all(&record.to_bytes())?;
    }
    out.flush()?;
    Ok(true)
}

pub fn answer(branches: Option<&str>) -> Done {
    let mut input = BufReader::new(io::stdin().lock());
    let mut out = BufWriter::new(io::stdout().lock());
    let mut world = World::new();
    let mut count = 0u64;
    let last = loop {
        match read_record(&mut input)? {
            Read96::End => break "end ",
            Read96::Truncated => break "truncated",
            Read96::Whole(bytes) => match Record::from_bytes(&bytes) {
                None => break "malformed",
                Some(record) => writeln!(out, "{}", world.line(&record))?,
            },
        }
        count += 1;
    };
    match last {
        "end " => writeln!(out, "end {count:016x}")?,
        why => writeln!(out, "record {count:016x} {why}")?,
    }
    out.flush()?;
    if let Some(file) = branches {
        std::fs::write(file, world.tally.report())?;
    }
    for disagreement in &world.tally.disagreements {
        eprintln!("oracle: {disagreement}");
    }
    Ok(world.tally.disagreements.is_empty())
}

enum Read96 {
    Whole([u8; RECORD]),
    Truncated,
    End,
}

fn read_record(input: &mut impl Read) -> io::Result<Read96> {
    let mut bytes = [0; RECORD];
    let mut filled = 0;
    while filled < RECORD {
        match input.read(&mut bytes[filled..])? {
            0 if filled == 0 => return Ok(Read96::End),
            0 => return Ok(Read96::Truncated),
            more => filled += more,
        }
    }
    Ok(Read96::Whole(bytes))
}

pub fn compare(trace: &str, a: &str, b: &str) -> Done {
    let open = |file: &str| File::open(file).map(BufReader::new).map_err(|why| format!("{file}: {why}"));
    let mut records = open(trace)?;
    let (mut answers_a, mut answers_b) = (open(a)?, open(b)?);
    let (mut compared, mut differing, mut place) = (0u64, 0u64, 0u64);
    let mut first = None;
    loop {
        // With their line feeds, so that a missing one is a difference.
        let (mut line_a, mut line_b) = (Vec::new(), Vec::new());
        if answers_a.read_until(b'\n', &mut line_a)? + answers_b.read_until(b'\n', &mut line_b)? == 0 {
            break;
        }
        place += 1;
        let record = read_record(&mut records)?;
        let is_end = |line: &[u8]| line.is_empty() || line.starts_with(b"end ");
        if !(is_end(&line_a) && is_end(&line_b)) {
            compared += 1;
        }
        if line_a != line_b {
            differing += 1;
            first.get_or_insert((place, record, line_a, line_b));
        }
    }
    println!("calls compared {compared}");
    println!("differing lines {differing}");
    if let Some((place, record, line_a, line_b)) = first {
        let text = |line: Vec<u8>| match line.is_empty() {
            true => "(no line)".into(),
            false => String::from_utf8_lossy(&line).trim_end_matches('\n').to_string(),
        };
        let described = match record {
            Read96::Whole(bytes) => Record::from_bytes(&bytes).map_or("a malformed record".into(), |record| record.describe()),
            Read96::Truncated => "a truncated record".into(),
            Read96::End => "the trace's end".into(),
        };
        println!("first difference, line {place}: {described}");
        println!("A: {}", text(line_a));
        println!("B: {}", text(line_b));
    }
    Ok(differing == 0)
}

#[cfg(test)]
mod tests {
    use super::*;

    /// The comparison of the answers to two records with what `change` makes of them.
    fn compared(name: &str, change: impl Fn(&str) -> String) -> bool {
        let folder = std::env::temp_dir().join(format!("oracle-{}-{name}", std::process::id()));
        std::fs::create_dir(&folder).unwrap();
        let mut records = [Record::new(0x40), Record::new(0x42)];
        (records[0].area[0], records[0].area[27], records[0].n[1]) = (6, 6, 1);
        let mut world = World::new();
        let answers: String = records.iter().map(|record| world.line(record) + "\n").collect();
        let files = ["trace", "a", "b"].map(|file| folder.join(file).to_str().unwrap().to_string());
        std::fs::write(&files[0], records.map(|record| record.to_bytes()).concat()).unwrap();
        std::fs::write(&files[1], &answers).unwrap();
        std::fs::write(&files[2], change(&answers)).unwrap();
        let same = compare(&files[0], &files[1], &files[2]).unwrap();
        std::fs::remove_dir_all(folder).unwrap();
        same
    }

    #[test]
    fn one_other_digit_or_a_missing_end_is_a_difference() {
        assert!(compared("same", str::to_string));
        assert!(!compared("digit", |answers| answers.replacen("0000000000000001", "0000000000000002", 1)));
        assert!(!compared("feed", |answers| answers.trim_end().to_string()));
        assert!(!compared("line", |answers| answers.lines().next().unwrap().to_string() + "\n"));
        assert!(!compared("more", |answers| answers.to_string() + "\n"));
    }

    #[test]
    fn a_number_that_is_no_state_is_not_written() {
        let mut world = World::new();
        let mut line = |number: u8, n: [u64; 4]| {
            let mut record = Record::new(number);
            (record.area[0], record.area[27], record.n) = (6, 6, n);
            world.line(&record)
        };
        line(0x40, [0, 1, 0, 0]);
        for (written, state) in [(0, 0), (1, 1), (2, 2), (3, 3), (4, 4), (5, 4), (u64::MAX, 4)] {
            line(0xeb, [0, written, 0, 0]);
            assert!(line(0x48, [0; 4]).starts_with(&format!("48 00 {state:016x} ")));
        }
    }
}
