//! Random arguments of calls, which know whether they have their form.

use crate::ffi::{Address, ConnectionId, FourTuple, Moment, ResetToken, Token};
use crate::form;
use crate::parts::zeros;
use crate::random::Random;

/// Values that stand in the state, so that a call finds what it looks for.
#[derive(Clone, Copy)]
pub struct Hints {
    /// Of a path.
    pub id: u64,
    pub number: u64,
    pub cid: ConnectionId,
    pub pair: FourTuple,
    pub moment: Moment,
}

const NO_ADDRESS: Address = zeros();
pub const NO_PAIR: FourTuple = zeros();
pub const NO_CID: ConnectionId = zeros();
pub const NO_HINTS: Hints = Hints { id: 0, number: 0, cid: NO_CID, pair: FIRST_PAIR, moment: Moment { us: 0 } };
const FIRST: Address = Address { kind: 4, ..NO_ADDRESS };
const FIRST_PAIR: FourTuple = FourTuple { local: FIRST, remote: FIRST };

pub struct Arguments<'a> {
    random: &'a mut Random,
    hints: Hints,
    /// None but arguments of their form are given.
    strict: bool,
    /// Every argument given so far has its form.
    pub formed: bool,
    /// The last flag of an optional value.
    present: bool,
}

impl<'a> Arguments<'a> {
    pub fn formed(random: &'a mut Random, hints: Hints) -> Arguments<'a> {
        Arguments { random, hints, strict: true, formed: true, present: false }
    }

    pub fn any(random: &'a mut Random, hints: Hints) -> Arguments<'a> {
        Arguments { strict: false, ..Arguments::formed(random, hints) }
    }

    /// Whether this argument is to be out of form.
    fn out_of_form(&mut self) -> bool {
        !self.strict && self.random.one_in(10)
    }

    fn given<T>(&mut self, value: T, formed: bool) -> T {
        self.formed &= formed;
        value
    }

    pub fn number(&mut self) -> u64 {
        if self.random.flag() {
            self.hints.number
        } else {
            self.random.number()
        }
    }

    /// Seldom one that stands in the state.
    pub fn new_number(&mut self) -> u64 {
        match self.random.below(8) {
            0 => self.hints.number,
            1 => self.random.number(),
            _ => self.random.below(1000) as u64,
        }
    }

    /// Mostly that of a path.
    pub fn id(&mut self) -> u64 {
        if self.random.one_in(8) {
            self.random.number()
        } else {
            self.hints.id
        }
    }

    /// Mostly too small to retire anything.
    pub fn retire_prior_to(&mut self) -> u64 {
        match self.random.below(16) {
            0 => self.number(),
            1 => self.random.below(100) as u64,
            _ => 0,
        }
    }

    pub fn flag(&mut self) -> bool {
        self.random.flag()
    }

    /// The flag of an optional value, which comes next.
    pub fn has(&mut self) -> bool {
        self.present = self.random.flag();
        self.present
    }

    pub fn optional(&mut self) -> u64 {
        let number = if self.present || self.out_of_form() { self.number() } else { 0 };
        self.given(number, form::optional(self.present, number))
    }

    /// Both included; out of form, just outside or any.
    fn between(&mut self, first: u64, last: u64) -> u64 {
        if self.out_of_form() {
            let any = self.random.number();
            self.random.pick(&[first.wrapping_sub(1), last + 1, any])
        } else {
            first + self.random.below((last - first) as usize + 1) as u64
        }
    }

    pub fn timer(&mut self) -> u64 {
        let timer = self.between(0, 8);
        self.given(timer, form::timer(timer))
    }

    pub fn destination_limit(&mut self) -> u64 {
        let limit = self.between(1, 16);
        self.given(limit, form::destination_limit(limit))
    }

    pub fn path_limit(&mut self) -> u64 {
        let limit = self.between(1, 8);
        self.given(limit, form::path_limit(limit))
    }

    pub fn moment(&mut self) -> Moment {
        const LAST: u64 = (1 << 63) - 1;
        let us = match self.random.below(8) {
            _ if self.out_of_form() => LAST.saturating_add(self.random.some()),
            0 => LAST - self.random.below(2) as u64,
            1 => self.random.number() & LAST,
            2..5 => self.random.below(1 << 26) as u64,
            _ => self.hints.moment.us,
        };
        let moment = Moment { us };
        self.given(moment, form::moment(&moment))
    }

    pub fn cid(&mut self) -> ConnectionId {
        let id = if self.random.flag() { self.hints.cid } else { cid(self.random) };
        self.given_cid(id)
    }

    /// Seldom one that stands in the state.
    pub fn new_cid(&mut self) -> ConnectionId {
        let id = if self.random.one_in(8) { self.hints.cid } else { cid(self.random) };
        self.given_cid(id)
    }

    fn given_cid(&mut self, mut id: ConnectionId) -> ConnectionId {
        if self.out_of_form() {
            damage_cid(&mut id, self.random);
        }
        self.given(id, form::connection_id(&id))
    }

    pub fn token(&mut self) -> Token {
        let present = !self.random.one_in(4);
        let bytes = if present || self.out_of_form() { self.random.bytes() } else { [0; 16] };
        let token = Token { bytes, present };
        self.given(token, form::token(&token))
    }

    /// Always present, so that any bytes have their form.
    pub fn reset_token(&mut self) -> ResetToken {
        ResetToken { bytes: [self.random.byte(); 16] }
    }

    pub fn pair(&mut self) -> FourTuple {
        self.present = true;
        self.optional_pair()
    }

    pub fn optional_pair(&mut self) -> FourTuple {
        let mut pair = match self.present {
            true if self.random.one_in(4) => self.hints.pair,
            true => FourTuple { local: address(self.random), remote: address(self.random) },
            false => NO_PAIR,
        };
        if self.out_of_form() {
            damage_pair(&mut pair, self.random);
        }
        self.given(pair, form::optional_pair(self.present, &pair))
    }
}

fn cid(random: &mut Random) -> ConnectionId {
    let len = if random.one_in(16) { 0 } else { 1 + random.below(20) };
    let mut id = NO_CID;
    id.len = len as u8;
    id.bytes[..len].fill_with(|| random.byte());
    id
}

/// One of few, so that pairs come again.
fn address(random: &mut Random) -> Address {
    let mut a = Address { kind: random.pick(&[4, 6]), port: random.pick(&[0, 443]), ..NO_ADDRESS };
    a.ip[random.below(4)] = random.pick(&[1, 255]);
    if a.kind == 6 {
        a.ip[15] = random.pick(&[0, 1]);
        a.flow = random.pick(&[0, 1]);
        a.scope = random.pick(&[0, u32::MAX]);
    }
    a
}

/// Mostly out of its form afterwards.
pub fn damage_cid(id: &mut ConnectionId, random: &mut Random) {
    if random.flag() {
        id.len = random.pick(&[0, 1, 19, 20, 21, 22, 255]);
    } else {
        id.bytes[19 - random.below(4)] = random.byte();
    }
}

/// Mostly out of its form afterwards.
pub fn damage_pair(pair: &mut FourTuple, random: &mut Random) {
    let a = if random.flag() { &mut pair.local } else { &mut pair.remote };
    match random.below(6) {
        0 => a.kind = random.pick(&[0, 3, 4, 5, 6, 7, 255]),
        1 => a.ip[4 + random.below(12)] = random.byte(),
        2 => a.flow = 1 << random.below(32),
        3 => a.scope = 1 << random.below(32),
        4 => a.port ^= 1 << random.below(16),
        _ => a.ip[random.below(16)] = random.byte(),
    }
}
