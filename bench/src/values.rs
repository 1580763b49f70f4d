//! The plain answers, the forms of the values, and the rows of their calls.

use crate::by_value::{val_token_matches, val_wire_code};
use crate::error::Error;
use crate::ffi::*;
use crate::{Answer, Area, Call, Given, Row};

pub const MAX_MOMENT: u64 = (1 << 63) - 1;

/// Answers that begin with the refusal's number.
#[macro_export]
macro_rules! answers {
    ($($answer:ty),*) => {
        $(impl $crate::Answer for $answer {
            fn refusal(&self) -> u8 {
                self.refusal
            }
        })*
    };
}

answers!(Done, Flagged, Counted, Numbered, Timed);

/// A wire code, which no refusal goes with.
impl Answer for u64 {
    fn refusal(&self) -> u8 {
        0
    }
}

impl Answer for bool {
    fn refusal(&self) -> u8 {
        0
    }
}

impl Answer for () {
    fn refusal(&self) -> u8 {
        0
    }
}

/// The forms, plainly written.
impl Moment {
    pub fn formed(self) -> bool {
        self.us <= MAX_MOMENT
    }
}

impl Deadline {
    /// One that isn't set is 0.
    pub fn formed(&self) -> bool {
        self.at.us == 0 || self.set && self.at.formed()
    }
}

impl ConnectionId {
    /// At most 20 bytes, and zeros past them.
    pub fn formed(&self) -> bool {
        self.len <= 20 && self.bytes[self.len as usize..].iter().all(|byte| *byte == 0)
    }
}

impl Token {
    /// One that is absent is zeros.
    pub fn formed(&self) -> bool {
        self.present || self.bytes == [0; 16]
    }
}

/// Of a token and one that is it but for a byte, or the same.
fn token_matches(name: &'static str, other: Option<usize>) -> Row {
    let held = [0xa5; 16];
    let mut received = held;
    if let Some(place) = other {
        received[place] ^= 1;
    }
    let call = Call {
        name,
        test: |_: &(), _: &[Token; 2]| true,
        tuned: |_: &(), _: &[Token; 2]| true,
        lent: |_: &mut (), [a, b]: [Token; 2]| vig_token_matches(a, b),
        by_value: |_: &(), [a, b]: [Token; 2]| val_token_matches(a, b),
        rust: |_: &mut (), [a, b]: [Option<u128>; 2]| a == b,
    };
    let ours = [held, received].map(|bytes| Token { bytes, present: true });
    let theirs = [held, received].map(|bytes| Some(u128::from_be_bytes(bytes)));
    call.row(Given { state: (), arguments: ours }, move || Given { state: (), arguments: theirs }, |_| ())
}

pub fn area() -> Area {
    let nothing = Call {
        name: "(the loop alone)",
        test: |_: &(), _: &()| true,
        tuned: |_: &(), _: &()| true,
        lent: |_: &mut (), _| (),
        by_value: |_: &(), _| (),
        rust: |_: &mut (), _: ()| (),
    };
    let wire_code = Call {
        name: "wire_code",
        test: |_: &(), _: &u64| true,
        tuned: |_: &(), _: &u64| true,
        lent: |_: &mut (), number| vig_wire_code(number),
        by_value: |_: &(), number| val_wire_code(number),
        rust: |errors: &mut [Error; 1], _: ()| errors[0].to_wire(),
    };
    let rows = vec![
        nothing.row(Given { state: (), arguments: () }, || Given { state: (), arguments: () }, |_| ()),
        wire_code.row(
            Given { state: (), arguments: 3 },
            || Given { state: [Error::ConnectionIdLimitError], arguments: () },
            |_| (),
        ),
        token_matches("token_matches, equal", None),
        token_matches("token_matches, first byte", Some(0)),
        token_matches("token_matches, last byte", Some(15)),
    ];
    Area { name: "values", state: "no state, so that nothing is tested".into(), rows }
}
