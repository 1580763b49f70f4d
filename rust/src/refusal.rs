use crate::{ffi, Moment};
use std::fmt;

/// Why a call was refused. RULES.md, "Refusals", has the exact condition of each.
///
/// ```
/// use vignorasc::Refusal;
///
/// assert_eq!(Refusal::ConnectionIdLimitError.number(), 3);
/// assert_eq!(Refusal::ConnectionIdLimitError.wire_code(), 0x09);
/// assert_eq!(Refusal::ConnectionIdLimitError.to_string(), "connection ID limit exceeded");
/// ```
#[derive(Clone, Copy, Debug, PartialEq, Eq, Hash)]
#[non_exhaustive] // a later library may have a ninth
pub enum Refusal {
    /// An argument or the state is not of its form.
    Malformed = 1,
    /// What the call names isn't there, or the call isn't possible in this state.
    InternalError = 2,
    /// More connection IDs than a limit allows.
    ConnectionIdLimitError = 3,
    /// The peer broke a rule of the protocol.
    ProtocolViolation = 4,
    /// Nothing to do: every path is in use.
    Done = 5,
    /// A queue or a list of challenges is full.
    NoSlot = 6,
    /// The sequences are used up.
    Spent = 7,
    /// The deadline of the challenge would be past every moment.
    FarDeadline = 8,
}

impl Refusal {
    const ALL: [Refusal; 8] = [
        Refusal::Malformed,
        Refusal::InternalError,
        Refusal::ConnectionIdLimitError,
        Refusal::ProtocolViolation,
        Refusal::Done,
        Refusal::NoSlot,
        Refusal::Spent,
        Refusal::FarDeadline,
    ];

    /// The refusal's number, 1 to 8.
    #[must_use]
    pub const fn number(self) -> u8 {
        self as u8
    }

    /// The transport error code (RFC 9000, 20.1) with which a connection is closed for it. [`Refusal::Done`] closes none, and has 0x00.
    #[must_use]
    pub fn wire_code(self) -> u64 {
        ffi::vig_wire_code(self.number().into())
    }
}

impl fmt::Display for Refusal {
    fn fmt(&self, f: &mut fmt::Formatter<'_>) -> fmt::Result {
        f.write_str(match self {
            Refusal::Malformed => "malformed argument or state",
            Refusal::InternalError => "internal error",
            Refusal::ConnectionIdLimitError => "connection ID limit exceeded",
            Refusal::ProtocolViolation => "protocol violation",
            Refusal::Done => "nothing to do",
            Refusal::NoSlot => "no slot left",
            Refusal::Spent => "sequences used up",
            Refusal::FarDeadline => "deadline too far",
        })
    }
}

impl std::error::Error for Refusal {}

/// The answer's value, or the refusal that its number names.
pub(crate) fn accepted<T>(number: u8, value: impl FnOnce() -> T) -> Result<T, Refusal> {
    match number {
        0 => Ok(value()),
        // The contracts give no number above 8.
        n => Err(Refusal::ALL.get(usize::from(n) - 1).copied().unwrap_or(Refusal::InternalError)),
    }
}

impl ffi::Done {
    pub(crate) fn result(self) -> Result<(), Refusal> {
        accepted(self.refusal, || ())
    }
}

impl ffi::Flagged {
    pub(crate) fn result(self) -> Result<bool, Refusal> {
        accepted(self.refusal, || self.flag)
    }
}

impl ffi::Counted {
    pub(crate) fn result(self) -> Result<u64, Refusal> {
        accepted(self.refusal, || self.number)
    }

    /// Of a count, a size or the id of a path.
    pub(crate) fn size(self) -> Result<usize, Refusal> {
        accepted(self.refusal, || self.number as usize)
    }
}

impl ffi::Numbered {
    pub(crate) fn result(self) -> Result<Option<u64>, Refusal> {
        accepted(self.refusal, || self.present.then_some(self.number))
    }

    /// Of the id of a path.
    pub(crate) fn path(self) -> Result<Option<usize>, Refusal> {
        accepted(self.refusal, || self.present.then_some(self.number as usize))
    }
}

impl ffi::Timed {
    pub(crate) fn result(self) -> Result<Option<Moment>, Refusal> {
        accepted(self.refusal, || self.deadline.set.then_some(Moment(self.deadline.at)))
    }
}

#[cfg(test)]
mod tests {
    use super::*;

    #[test]
    fn numbers_and_wire_codes() {
        let codes = [0x01, 0x01, 0x09, 0x0a, 0x00, 0x01, 0x01, 0x01];
        for (refusal, (number, code)) in Refusal::ALL.into_iter().zip((1..).zip(codes)) {
            assert_eq!((refusal.number(), refusal.wire_code()), (number, code));
            assert_eq!(accepted(number, || ()), Err(refusal));
        }
        assert_eq!(accepted(0, || 7), Ok(7));
    }
}
