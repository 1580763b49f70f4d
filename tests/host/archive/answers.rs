//! The fields of each answer, in the order of docs/TRACES.md.

use crate::record::{Field, Outcome};
use crate::{digest, ffi};

pub trait Answer {
    fn outcome(self) -> Outcome;
}

/// Answers by their type: the refusal, and of each its fields.
macro_rules! answers {
    ($($name:ident: |$answer:ident| $fields:expr;)*) => {
        $(impl Answer for ffi::$name {
            fn outcome(self) -> Outcome {
                let $answer = &self;
                Outcome { refusal: self.refusal, fields: $fields.into() }
            }
        })*
    };
}

answers! {
    Done: |_answer| [];
    Flagged: |answer| [Field::Flag(answer.flag)];
    Counted: |answer| [Field::Number(answer.number)];
    Numbered: |answer| [Field::Flag(answer.present), Field::Number(answer.number)];
    Timed: |answer| [Field::Flag(answer.deadline.set), Field::Number(answer.deadline.at.us)];
    ItemAnswer: |answer| [vec![Field::Flag(answer.present)], item(&answer.item)].concat();
    IdsFoundAnswer: |answer| [
        Field::Flag(answer.present),
        Field::Number(answer.seq),
        Field::Flag(answer.has_path),
        Field::Number(answer.path),
    ];
    FrameAnswer: |answer| [
        Field::Number(answer.seq),
        Field::Number(answer.retire_prior_to),
        id(&answer.cid),
        Field::Token(answer.token.bytes),
    ];
    RetiredAnswer: |answer| [Field::Number(answer.used.count as u64), Field::Number(digest::of_used(&answer.used))];
    PathAnswer: |answer| [Field::Number(digest::of_path(&answer.path))];
    PathsFoundAnswer: |answer| [Field::Number(answer.id), Field::Number(digest::of_path(&answer.path))];
    AddressAnswer: |answer| [address(&answer.address)];
    RespondedAnswer: |answer| [
        Field::Flag(answer.yes),
        Field::Number(answer.spans.count as u64),
        Field::Number(digest::of_spans(&answer.spans)),
    ];
}

impl ffi::ItemAnswer {
    /// For the calls whose refusal says whether there is an item.
    pub fn outcome_without_flag(self) -> Outcome {
        Outcome { refusal: self.refusal, fields: item(&self.item) }
    }
}

fn item(item: &ffi::Item) -> Vec<Field> {
    let mut fields = vec![id(&item.cid), Field::Number(item.seq)];
    fields.extend([Field::Flag(item.token.present), Field::Token(item.token.bytes)]);
    fields.extend([Field::Flag(item.has_path), Field::Number(item.path)]);
    fields
}

fn id(id: &ffi::ConnectionId) -> Field {
    let mut bytes = [0; 21];
    bytes[0] = id.len;
    bytes[1..].copy_from_slice(&id.bytes);
    Field::Id(bytes)
}

fn address(address: &ffi::Address) -> Field {
    let mut bytes = [0; 27];
    bytes[0] = address.kind;
    bytes[1..17].copy_from_slice(&address.ip);
    bytes[17..19].copy_from_slice(&address.port.to_be_bytes());
    bytes[19..23].copy_from_slice(&address.flow.to_be_bytes());
    bytes[23..].copy_from_slice(&address.scope.to_be_bytes());
    Field::Address(bytes)
}
