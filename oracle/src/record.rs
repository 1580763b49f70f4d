//! Records, the table of calls, and the forms of arguments (docs/TRACES.md).

use std::fmt::Write;
use std::sync::OnceLock;

use crate::ConnectionId;

pub const RECORD: usize = 96;
pub const AREA: usize = 54;
pub const MAX_MOMENT: u64 = (1 << 63) - 1;
pub const MAX_SEQUENCE: u64 = 1 << 62;

#[derive(Clone, Copy, PartialEq, Eq, PartialOrd, Ord, Debug)]
pub enum Area {
    Values,
    Timers,
    Ids,
    Paths,
}

impl Area {
    pub const ALL: [Area; 4] = [Area::Values, Area::Timers, Area::Ids, Area::Paths];

    pub fn name(self) -> &'static str {
        match self {
            Area::Values => "values",
            Area::Timers => "timers",
            Area::Ids => "ids",
            Area::Paths => "paths",
        }
    }
}

/// An argument: where it stands in the record, and of which form it has to be. Numbers are fields n0 to n3.
#[derive(Clone, Copy)]
pub enum Arg {
    Number(&'static str, usize),
    Timer(usize),
    Moment(&'static str, usize),
    DestinationLimit(usize),
    PathLimit(usize),
    /// Present if flag b is set, and zero otherwise.
    Maybe(&'static str, usize),
    /// Flag c.
    FlagC(&'static str),
    /// Flag d.
    FlagD(&'static str),
    Slice(usize),
    Id,
    Token,
    /// Present if flag a is set, and zero otherwise.
    MaybeToken,
    /// Two, present if flags a and b are set; of any form.
    Tokens,
    Pair,
    /// Present if flag a is set, and zero otherwise.
    MaybePair,
}

pub struct Call {
    pub number: u8,
    pub area: Area,
    pub name: &'static str,
    pub args: &'static [Arg],
    /// The answer's fields: n number, f flag, i ID, t token, a address.
    pub answer: &'static str,
    /// Whether it writes a field of the state, and is no call of the port.
    pub write: bool,
}

const fn call(number: u8, area: Area, name: &'static str, args: &'static [Arg], answer: &'static str) -> Call {
    Call { number, area, name, args, answer, write: false }
}

const fn write(number: u8, area: Area, name: &'static str, args: &'static [Arg]) -> Call {
    Call { number, area, name, args, answer: "", write: true }
}

use Area::{Ids, Paths, Timers, Values};
use Arg::*;

const ID: Arg = Number("id", 0);
const SEQUENCE: Arg = Number("sequence", 0);
const ITEM: &str = "inftfn";

pub const CALLS: &[Call] = &[
    call(0x08, Values, "wire_code", &[Number("number", 0)], "n"),
    call(0x09, Values, "cid_new", &[Slice(0)], "i"),
    call(0x0a, Values, "token_matches", &[Tokens], "f"),
    call(0x10, Timers, "fresh", &[], ""),
    call(0x11, Timers, "set", &[Timer(0), Moment("moment", 1)], ""),
    call(0x12, Timers, "stop", &[Timer(0)], ""),
    call(0x13, Timers, "get", &[Timer(0)], "fn"),
    call(0x14, Timers, "next_timeout", &[], "fn"),
    call(0x15, Timers, "is_expired", &[Timer(0), Moment("now", 1)], "f"),
    call(0x16, Timers, "clear", &[], ""),
    call(0x20, Ids, "fresh", &[DestinationLimit(0), Id, Number("path", 1), MaybeToken], ""),
    call(0x21, Ids, "set_initial_dcid", &[Id, MaybeToken, Maybe("path", 0)], ""),
    call(0x22, Ids, "set_scid_limit", &[Number("limit", 0)], ""),
    call(0x23, Ids, "get_scid", &[SEQUENCE], ITEM),
    call(0x24, Ids, "get_dcid", &[SEQUENCE], ITEM),
    call(0x25, Ids, "find_scid", &[Id], "fnfn"),
    call(0x26, Ids, "mark_scid_used", &[SEQUENCE, Number("path", 1)], ""),
    call(0x27, Ids, "mark_dcid_used", &[SEQUENCE, Number("path", 1)], ""),
    call(0x28, Ids, "unused_scids", &[], "n"),
    call(0x29, Ids, "unused_dcids", &[], "n"),
    call(0x2a, Ids, "lowest_unused_dcid_seq", &[], "fn"),
    call(0x2b, Ids, "add_scid", &[Id, MaybeToken, FlagC("advertise"), Maybe("path", 0), FlagD("retire")], "n"),
    call(0x2c, Ids, "add_dcid", &[Id, SEQUENCE, Token, Number("rpt", 1)], "nn"),
    call(0x2d, Ids, "retire_scid", &[SEQUENCE, Id], "fn"),
    call(0x2e, Ids, "mark_scid_to_advertise", &[SEQUENCE, FlagC("on")], ""),
    call(0x2f, Ids, "mark_dcid_to_retire", &[SEQUENCE, FlagC("on")], ""),
    call(0x30, Ids, "next_scid_to_advertise", &[], "fn"),
    call(0x31, Ids, "next_dcid_to_retire", &[], "fn"),
    call(0x32, Ids, "create_new_connection_id_frame", &[SEQUENCE], "nnit"),
    call(0x33, Ids, "need_send_cid_control_frames", &[], "f"),
    call(0x34, Ids, "zero_length_scid", &[], "f"),
    call(0x35, Ids, "zero_length_dcid", &[], "f"),
    call(0x36, Ids, "scid_count", &[], "n"),
    call(0x37, Ids, "scid_at", &[Number("place", 0)], "finftfn"),
    call(0x38, Ids, "dcid_count", &[], "n"),
    call(0x39, Ids, "dcid_at", &[Number("place", 0)], "finftfn"),
    call(0x40, Paths, "fresh", &[Pair, Number("mds", 0), PathLimit(1), Number("factor", 2), FlagC("server")], ""),
    call(0x41, Paths, "insert_path", &[Pair, Number("mds", 0)], "n"),
    call(0x42, Paths, "len", &[], "n"),
    call(0x43, Paths, "get", &[ID], "n"),
    call(0x44, Paths, "get_path_id", &[Pair], "fn"),
    call(0x45, Paths, "get_active", &[], "nn"),
    call(0x46, Paths, "local_addr", &[ID], "a"),
    call(0x47, Paths, "remote_addr", &[ID], "a"),
    call(0x48, Paths, "state", &[ID], "n"),
    call(0x49, Paths, "validated", &[ID], "f"),
    call(0x4a, Paths, "active", &[ID], "f"),
    call(0x4b, Paths, "path_chal_initiated", &[ID], "f"),
    call(0x4c, Paths, "need_send_validation_frames", &[ID], "f"),
    call(0x4d, Paths, "need_expand_padding_frames", &[ID], "f"),
    call(0x4e, Paths, "initiate_path_chal", &[ID], ""),
    call(0x4f, Paths, "pop_recv_chal", &[ID], "fn"),
    call(0x50, Paths, "on_path_chal_received", &[ID, Number("data", 1)], ""),
    call(0x51, Paths, "on_path_chal_sent", &[ID, Number("data", 1), Number("size", 2), Moment("sent", 3)], ""),
    call(0x52, Paths, "on_path_resp_received", &[ID, Number("data", 1), Moment("now", 2)], "fnn"),
    call(0x53, Paths, "on_path_chal_timeout", &[Moment("now", 0)], ""),
    call(0x54, Paths, "min_path_chal_timer", &[], "fn"),
    call(0x55, Paths, "inc_anti_ampl_limit", &[ID, Number("length", 1)], ""),
    call(0x56, Paths, "dec_anti_ampl_limit", &[ID, Number("length", 1)], ""),
    call(0x57, Paths, "cmp_anti_ampl_limit", &[ID, Number("wish", 1)], "n"),
    call(0x58, Paths, "mark_ping", &[MaybePair], ""),
    call(0x59, Paths, "enable_multipath", &[], ""),
    call(0x5a, Paths, "set_scid_seq", &[ID, Maybe("sequence", 1)], ""),
    call(0x5b, Paths, "set_dcid_seq", &[ID, Maybe("sequence", 1)], ""),
    call(0x5c, Paths, "set_active", &[ID, FlagC("active")], ""),
    call(0x5d, Paths, "mark_verified", &[ID], ""),
    write(0xe0, Ids, "write_next", &[Number("next", 0)]),
    write(0xe1, Ids, "write_own_rpt", &[Number("rpt", 0)]),
    write(0xe2, Ids, "write_peer_rpt", &[Number("rpt", 0)]),
    write(0xe8, Paths, "write_credit", &[ID, Number("credit", 1)]),
    write(0xe9, Paths, "write_lost", &[ID, Number("lost", 1)]),
    write(0xea, Paths, "write_largest_size", &[ID, Number("size", 1)]),
    write(0xeb, Paths, "write_state", &[ID, Number("state", 1)]),
];

/// The call of that number, if it is in the table.
pub fn find(number: u8) -> Option<&'static Call> {
    static BY_NUMBER: OnceLock<[Option<&'static Call>; 256]> = OnceLock::new();
    BY_NUMBER.get_or_init(|| std::array::from_fn(|n| CALLS.iter().find(|call| call.number as usize == n)))[number as usize]
}

/// The number of the call of that name.
pub fn number(area: Area, name: &str) -> u8 {
    CALLS.iter().find(|call| call.area == area && call.name == name).expect(name).number
}

#[derive(Clone, PartialEq, Eq, Debug)]
pub struct Record {
    pub call: u8,
    pub a: bool,
    pub b: bool,
    pub c: bool,
    pub d: bool,
    pub n: [u64; 4],
    pub area: [u8; AREA],
}

impl Record {
    pub fn new(call: u8) -> Self {
        Record { call, a: false, b: false, c: false, d: false, n: [0; 4], area: [0; AREA] }
    }

    /// Nothing if the record is malformed.
    pub fn from_bytes(bytes: &[u8; RECORD]) -> Option<Self> {
        let zeros = bytes[5..8].iter().chain(&bytes[94..]).all(|byte| *byte == 0);
        if !zeros || bytes[1..5].iter().any(|flag| *flag > 1) {
            return None;
        }
        let n = std::array::from_fn(|i| u64::from_be_bytes(bytes[8 + 8 * i..16 + 8 * i].try_into().unwrap()));
        let [a, b, c, d] = std::array::from_fn(|i| bytes[1 + i] == 1);
        Some(Record { call: bytes[0], a, b, c, d, n, area: bytes[40..94].try_into().unwrap() })
    }

    pub fn to_bytes(&self) -> [u8; RECORD] {
        let mut bytes = [0; RECORD];
        bytes[0] = self.call;
        for (i, flag) in [self.a, self.b, self.c, self.d].into_iter().enumerate() {
            bytes[1 + i] = flag as u8;
        }
        for (i, n) in self.n.iter().enumerate() {
            bytes[8 + 8 * i..16 + 8 * i].copy_from_slice(&n.to_be_bytes());
        }
        bytes[40..94].copy_from_slice(&self.area);
        bytes
    }

    /// Only for an ID of the right form.
    pub fn id(&self) -> ConnectionId {
        ConnectionId::new(&self.area[1..1 + self.area[0] as usize])
    }

    pub fn token(&self) -> u128 {
        u128::from_be_bytes(self.area[21..37].try_into().unwrap())
    }

    pub fn maybe_token(&self) -> Option<u128> {
        self.a.then(|| self.token())
    }

    pub fn other_token(&self) -> u128 {
        u128::from_be_bytes(self.area[37..53].try_into().unwrap())
    }

    /// The number of field `n[i]`, if flag b says that it is present.
    pub fn maybe(&self, i: usize) -> Option<u64> {
        self.b.then_some(self.n[i])
    }

    pub fn addresses(&self) -> ([u8; 27], [u8; 27]) {
        (self.area[..27].try_into().unwrap(), self.area[27..].try_into().unwrap())
    }

    /// How the first argument that isn't of its form breaks it.
    pub fn malformed(&self, call: &Call) -> Option<&'static str> {
        call.args.iter().find_map(|arg| self.malformed_argument(arg))
    }

    fn malformed_argument(&self, arg: &Arg) -> Option<&'static str> {
        let broken = |broken: bool, cause| broken.then_some(cause);
        match *arg {
            Number(..) | FlagC(_) | FlagD(_) | Slice(_) | Token | Tokens => None,
            Timer(i) => broken(self.n[i] > 8, "timer-above-8"),
            Moment(_, i) => broken(self.n[i] > MAX_MOMENT, "moment-too-far"),
            DestinationLimit(i) | PathLimit(i) if self.n[i] == 0 => Some("limit-0"),
            DestinationLimit(i) => broken(self.n[i] > 16, "limit-too-large"),
            PathLimit(i) => broken(self.n[i] > 8, "limit-too-large"),
            Maybe(_, i) => broken(!self.b && self.n[i] != 0, "absent-number-not-zero"),
            Id if self.area[0] > 20 => Some("id-too-long"),
            Id => broken(self.area[1 + self.area[0] as usize..21].iter().any(|byte| *byte != 0), "id-tail-not-zero"),
            MaybeToken => broken(!self.a && self.token() != 0, "absent-token-not-zero"),
            MaybePair if !self.a => broken(self.area != [0; AREA], "absent-pair-not-zero"),
            Pair | MaybePair => {
                let causes = ["local-kind", "local-v4-ip", "local-v4-flow", "local-v4-scope"];
                let causes_remote = ["remote-kind", "remote-v4-ip", "remote-v4-flow", "remote-v4-scope"];
                let (local, remote) = self.addresses();
                malformed_address(&local, causes).or(malformed_address(&remote, causes_remote))
            }
        }
    }

    /// The record in words, for a person.
    pub fn describe(&self) -> String {
        let Some(call) = find(self.call) else { return format!("unknown call {:02x}", self.call) };
        let mut text = format!("{} {}", call.area.name(), call.name);
        for arg in call.args {
            let _ = match *arg {
                Number(name, i) | Moment(name, i) => write!(text, " {name}={}", self.n[i]),
                Timer(i) => write!(text, " timer={}", self.n[i]),
                DestinationLimit(i) | PathLimit(i) => write!(text, " limit={}", self.n[i]),
                Maybe(name, i) if self.b || self.n[i] != 0 => write!(text, " {name}={}{}", self.n[i], absent(self.b)),
                Maybe(name, _) => write!(text, " {name}=none"),
                FlagC(name) => write!(text, " {name}={}", self.c),
                FlagD(name) => write!(text, " {name}={}", self.d),
                Slice(i) => write!(text, " length={} bytes={}", self.n[i], hex(&self.area)),
                Id => write!(text, " id={}:{}", self.area[0], hex(&self.area[1..21])),
                Token => write!(text, " token={}", hex(&self.area[21..37])),
                MaybeToken if self.a || self.token() != 0 => {
                    write!(text, " token={}{}", hex(&self.area[21..37]), absent(self.a))
                }
                MaybeToken => write!(text, " token=none"),
                Tokens => {
                    let (a, b) = (hex(&self.area[21..37]), hex(&self.area[37..53]));
                    write!(text, " tokens={a}{},{b}{}", absent(self.a), absent(self.b))
                }
                Pair => write!(text, " local={} remote={}", hex(&self.area[..27]), hex(&self.area[27..])),
                MaybePair => {
                    write!(text, " local={} remote={}{}", hex(&self.area[..27]), hex(&self.area[27..]), absent(self.a))
                }
            };
        }
        text
    }
}

fn absent(present: bool) -> &'static str {
    if present {
        ""
    } else {
        "(absent)"
    }
}

fn malformed_address(address: &[u8; 27], [kind, ip, flow, scope]: [&'static str; 4]) -> Option<&'static str> {
    let zero = |bytes: &[u8]| bytes.iter().all(|byte| *byte == 0);
    match address[0] {
        6 => None,
        4 if !zero(&address[5..17]) => Some(ip),
        4 if !zero(&address[19..23]) => Some(flow),
        4 if !zero(&address[23..27]) => Some(scope),
        4 => None,
        _ => Some(kind),
    }
}

pub fn hex(bytes: &[u8]) -> String {
    bytes.iter().fold(String::new(), |mut text, byte| {
        let _ = write!(text, "{byte:02x}");
        text
    })
}

/// A field of an answer.
#[derive(Clone, PartialEq, Eq, Debug)]
pub enum Field {
    Number(u64),
    Flag(bool),
    Id([u8; 21]),
    Token([u8; 16]),
    Address([u8; 27]),
}

impl Field {
    fn zero(shape: char) -> Self {
        match shape {
            'n' => Field::Number(0),
            'f' => Field::Flag(false),
            'i' => Field::Id([0; 21]),
            't' => Field::Token([0; 16]),
            'a' => Field::Address([0; 27]),
            _ => unreachable!("no such field: {shape}"),
        }
    }

    fn shape(&self) -> char {
        match self {
            Field::Number(_) => 'n',
            Field::Flag(_) => 'f',
            Field::Id(_) => 'i',
            Field::Token(_) => 't',
            Field::Address(_) => 'a',
        }
    }

    pub fn of_id(id: &ConnectionId) -> Self {
        let mut bytes = [0; 21];
        bytes[0] = id.len;
        bytes[1..].copy_from_slice(&id.data);
        Field::Id(bytes)
    }

    /// A flag and a number, zero where there is none.
    pub fn maybe(number: Option<u64>) -> [Field; 2] {
        [Field::Flag(number.is_some()), Field::Number(number.unwrap_or(0))]
    }
}

/// What a call answers: its refusal and its fields.
#[derive(Clone, PartialEq, Eq, Debug)]
pub struct Outcome {
    pub refusal: u8,
    pub fields: Vec<Field>,
}

impl Outcome {
    pub fn accepted(call: &Call, fields: Vec<Field>) -> Self {
        assert!(fields.iter().map(Field::shape).eq(call.answer.chars()), "{}: not its answer", call.name);
        Outcome { refusal: 0, fields }
    }

    pub fn refused(call: &Call, refusal: u8) -> Self {
        Outcome { refusal, fields: call.answer.chars().map(Field::zero).collect() }
    }

    /// The line of docs/TRACES.md, without its line feed.
    pub fn line(&self, call: u8, digest: u64) -> String {
        let mut line = format!("{call:02x} {:02x}", self.refusal);
        for field in &self.fields {
            let _ = match field {
                Field::Number(number) => write!(line, " {number:016x}"),
                Field::Flag(flag) => write!(line, " {}", *flag as u8),
                Field::Id(bytes) => write!(line, " {}", hex(bytes)),
                Field::Token(bytes) => write!(line, " {}", hex(bytes)),
                Field::Address(bytes) => write!(line, " {}", hex(bytes)),
            };
        }
        let _ = write!(line, " {digest:016x}");
        line
    }
}

#[cfg(test)]
mod tests {
    use super::*;
    use crate::generate::Rng;

    /// A record of 96 random bytes, but for the flags and the bytes that are zero.
    fn random(rng: &mut Rng) -> [u8; RECORD] {
        let mut bytes = [0; RECORD];
        bytes.iter_mut().for_each(|byte| *byte = rng.next() as u8);
        bytes[1..5].iter_mut().for_each(|flag| *flag &= 1);
        bytes[5..8].fill(0);
        bytes[94..].fill(0);
        bytes
    }

    #[test]
    fn bytes_are_read_and_written_alike() {
        let mut rng = Rng::new(5);
        for _ in 0..10_000 {
            let bytes = random(&mut rng);
            assert_eq!(Record::from_bytes(&bytes).map(|record| record.to_bytes()), Some(bytes));
        }
    }

    #[test]
    fn flags_above_1_and_bytes_that_are_not_zero_are_malformed() {
        let bytes = random(&mut Rng::new(6));
        for place in (1..8).chain(94..RECORD) {
            let mut damaged = bytes;
            damaged[place] = 2;
            assert_eq!(Record::from_bytes(&damaged), None, "{place}");
        }
    }

    #[test]
    fn numbers_and_names_are_those_of_one_call() {
        for (place, call) in CALLS.iter().enumerate() {
            assert_eq!(find(call.number).map(|found| found.name), Some(call.name));
            assert_eq!(number(call.area, call.name), call.number);
            assert!(CALLS[..place].iter().all(|other| other.number < call.number), "{}", call.name);
        }
    }

    #[test]
    fn a_refused_line_has_its_fields_all_zero() {
        let call = find(0x23).unwrap();
        let line = Outcome::refused(call, 2).line(call.number, 1);
        assert_eq!(line.split(' ').map(str::len).collect::<Vec<_>>(), [2, 2, 42, 16, 1, 32, 1, 16, 16]);
        assert!(line.starts_with("23 02 0") && line[6..line.len() - 1].chars().all(|digit| digit == '0' || digit == ' '));
    }
}
