//! The glue of the IDs. Refusals 1, 6 and 7 lie outside the equality, and so does a frame whose sequence is below the
//! largest Retire Prior To and waits to be retired (DIFFERENCES.md, D3 and D18): their conditions are tested here, on the
//! Rust's own state, and the Rust is then not called. Of every other call the Rust gives the answer; `way` only names the
//! way taken, and the refusal that the documents give for it is held against the Rust's.

use super::cid::{ConnectionIdItem, ConnectionIdMgr, IdsPeek};
use crate::branches::{Tally, IDS_STATE};
use crate::frame::Frame;
use crate::record::{Call, Field, Outcome, Record, MAX_SEQUENCE};
use crate::{digest, refusal_of, Result};

/// The longest advertise or retire queue.
pub const QUEUE: usize = 128;
/// How the ways begin by which a late frame changes nothing, and the Rust isn't asked: D3 and D18.
const WAITS: &str = "waits-";

pub fn answer(ids: &mut ConnectionIdMgr, call: &Call, record: &Record, tally: &mut Tally) -> Outcome {
    if call.write {
        match call.name {
            "write_next" => ids.write_next(record.n[0]),
            "write_own_rpt" => ids.write_own_rpt(record.n[0]),
            _ => ids.write_peer_rpt(record.n[0]),
        }
        return Outcome::accepted(call, vec![]);
    }
    if let Some(cause) = record.malformed(call) {
        tally.hit(call.number, cause);
        if call.name == "fresh" {
            *ids = ConnectionIdMgr::default();
        }
        return Outcome::refused(call, 1);
    }
    if call.name != "fresh" {
        if let Some(cause) = malformed(&ids.peek()) {
            tally.hit(IDS_STATE, cause);
            tally.hit(call.number, "malformed-state");
            return Outcome::refused(call, 1);
        }
    }
    let (way, refusal) = way(&ids.peek(), call, record, tally);
    tally.hit(call.number, way);
    // The answer of one that waits is accepted, with no pairs: every field is zero.
    if refusal >= 6 || way.starts_with(WAITS) {
        return Outcome::refused(call, refusal);
    }
    let outcome = match perform(ids, call, record) {
        Ok(fields) => Outcome::accepted(call, fields),
        Err(error) => Outcome::refused(call, refusal_of(&error)),
    };
    tally.hold(record, way, refusal, outcome.refusal);
    outcome
}

/// The conjuncts of well-formedness, of which a state of the Rust can break those named; the others are held against it.
pub fn malformed(ids: &IdsPeek) -> Option<&'static str> {
    if ids.dcid_limit == 0 {
        return Some("all-zero");
    }
    let rising = ids.scids.iter().zip(ids.scids.iter().skip(1)).all(|(low, high)| low.seq < high.seq);
    let tokens = ids.scids.iter().chain(ids.dcids).all(|item| item.seq == 0 || item.reset_token.is_some());
    let distinct = ids
        .dcids
        .iter()
        .enumerate()
        .all(|(i, item)| ids.dcids.iter().take(i).all(|other| other.seq != item.seq && other.cid != item.cid));
    assert!(rising && tokens && distinct);
    assert!(ids.dcid_limit <= 16 && ids.dcid_capacity == 2 * ids.dcid_limit - 1);
    assert!((2..=16).contains(&ids.scid_limit) && ids.scid_capacity % 2 == 1);
    assert!((2 * ids.scid_limit - 1..=31).contains(&ids.scid_capacity));
    assert!((1..=ids.scid_capacity).contains(&ids.scids.len()) && ids.dcids.len() <= ids.dcid_capacity);
    assert!(ids.advertise.len() <= QUEUE && ids.retire.len() <= QUEUE);
    if ids.scids.back().is_some_and(|last| last.seq >= ids.next) {
        Some("last-not-below-next")
    } else if ids.next > MAX_SEQUENCE {
        Some("next-too-large")
    } else if ids.own_rpt > ids.next {
        Some("own-rpt-above-next")
    } else {
        None
    }
}

/// The Rust's answer.
fn perform(ids: &mut ConnectionIdMgr, call: &Call, record: &Record) -> Result<Vec<Field>> {
    let n = record.n;
    let maybe_path = |path: Option<u64>| path.map(|path| path as usize);
    Ok(match call.name {
        "fresh" => {
            *ids = ConnectionIdMgr::new(n[0] as usize, &record.id(), n[1] as usize, record.maybe_token());
            vec![]
        }
        "set_initial_dcid" => {
            ids.set_initial_dcid(record.id(), record.maybe_token(), maybe_path(record.maybe(0)));
            vec![]
        }
        "set_scid_limit" => {
            ids.set_scid_limit(n[0]);
            vec![]
        }
        "get_scid" => item_fields(ids.get_scid(n[0])?),
        "get_dcid" => item_fields(ids.get_dcid(n[0])?),
        "find_scid" => {
            let found = ids.find_scid(&record.id());
            let path = found.and_then(|(_, path)| path).map(|path| path as u64);
            [Field::maybe(found.map(|(seq, _)| seq)), Field::maybe(path)].concat()
        }
        "mark_scid_used" => {
            ids.mark_scid_used(n[0], n[1] as usize)?;
            vec![]
        }
        "mark_dcid_used" => {
            ids.mark_dcid_used(n[0], n[1] as usize)?;
            vec![]
        }
        "unused_scids" => vec![Field::Number(ids.unused_scids() as u64)],
        "unused_dcids" => vec![Field::Number(ids.unused_dcids() as u64)],
        "lowest_unused_dcid_seq" => Field::maybe(ids.lowest_unused_dcid_seq()).to_vec(),
        "add_scid" => {
            let path = maybe_path(record.maybe(0));
            vec![Field::Number(ids.add_scid(record.id(), record.maybe_token(), record.c, path, record.d)?)]
        }
        "add_dcid" => {
            let pairs = ids.add_dcid(record.id(), n[0], record.token(), n[1])?;
            let zeros = [0, 0].repeat(31 - pairs.len());
            let words = pairs.iter().flat_map(|(seq, path)| [*seq, *path as u64]).chain(zeros);
            vec![Field::Number(pairs.len() as u64), Field::Number(digest::of_words(words))]
        }
        "retire_scid" => Field::maybe(ids.retire_scid(n[0], &record.id())?.map(|path| path as u64)).to_vec(),
        "mark_scid_to_advertise" => {
            ids.mark_scid_to_advertise(n[0], record.c);
            vec![]
        }
        "mark_dcid_to_retire" => {
            ids.mark_dcid_to_retire(n[0], record.c);
            vec![]
        }
        "next_scid_to_advertise" => Field::maybe(ids.next_scid_to_advertise()).to_vec(),
        "next_dcid_to_retire" => Field::maybe(ids.next_dcid_to_retire()).to_vec(),
        "create_new_connection_id_frame" => {
            let Frame::NewConnectionId { seq_num, retire_prior_to, conn_id, reset_token } =
                ids.create_new_connection_id_frame(n[0])?;
            let numbers = [Field::Number(seq_num), Field::Number(retire_prior_to)];
            [&numbers[..], &[Field::of_id(&conn_id), Field::Token(reset_token.0)]].concat()
        }
        "need_send_cid_control_frames" => vec![Field::Flag(ids.need_send_cid_control_frames())],
        "zero_length_scid" => vec![Field::Flag(ids.zero_length_scid())],
        "zero_length_dcid" => vec![Field::Flag(ids.zero_length_dcid())],
        "scid_count" => vec![Field::Number(ids.scid_iter().count() as u64)],
        "dcid_count" => vec![Field::Number(ids.dcid_iter().count() as u64)],
        "scid_at" => place_fields(call, ids.scid_iter().nth(n[0] as usize)),
        "dcid_at" => place_fields(call, ids.dcid_iter().nth(n[0] as usize)),
        name => unreachable!("{name}"),
    })
}

fn item_fields(item: &ConnectionIdItem) -> Vec<Field> {
    let token = item.reset_token;
    let mut fields = vec![Field::of_id(&item.cid), Field::Number(item.seq)];
    fields.extend([Field::Flag(token.is_some()), Field::Token(token.unwrap_or(0).to_be_bytes())]);
    fields.extend(Field::maybe(item.path_id.map(|path| path as u64)));
    fields
}

fn place_fields(call: &Call, item: Option<&ConnectionIdItem>) -> Vec<Field> {
    match item {
        Some(item) => [vec![Field::Flag(true)], item_fields(item)].concat(),
        // No refusal: its fields are zero all the same.
        None => Outcome::refused(call, 0).fields,
    }
}

/// The way through the call's checks, in their order, and the refusal at its end.
fn way(ids: &IdsPeek, call: &Call, record: &Record, tally: &mut Tally) -> (&'static str, u8) {
    let n = record.n;
    let yes_no = |yes| (if yes { "yes" } else { "no" }, 0);
    let found = |item: Option<&ConnectionIdItem>| if item.is_some() { ("found", 0) } else { ("absent", 2) };
    let used = |item: Option<&ConnectionIdItem>| match item.map(|item| item.path_id) {
        None => ("absent", 2),
        Some(None) => ("was-unused", 0),
        Some(Some(_)) => ("was-used", 0),
    };
    let scid = || ids.scids.iter().find(|item| item.seq == n[0]);
    let dcid = || ids.dcids.iter().find(|item| item.seq == n[0]);
    let front = |queue: &std::collections::VecDeque<u64>| (if queue.is_empty() { "none" } else { "front" }, 0);
    match call.name {
        "fresh" if record.area[0] == 0 => ("zero-length", 0),
        "fresh" => (if record.a { "with-token" } else { "without-token" }, 0),
        "set_initial_dcid" => {
            tally.hit_if(ids.zero_length_scid, call.number, "source-mark-on");
            match record.area[0] {
                0 => ("zero-length", 0),
                _ => (["first", "replaces-one", "replaces-several"][ids.dcids.len().min(2)], 0),
            }
        }
        "set_scid_limit" if n[0] < 2 => ("clamped-up", 0),
        "set_scid_limit" if n[0] > 16 => ("clamped-down", 0),
        "set_scid_limit" if n[0] < ids.scid_limit as u64 => ("limit-lowered", 0),
        "set_scid_limit" if 2 * n[0] - 1 > ids.scid_capacity as u64 => ("capacity-raised", 0),
        "set_scid_limit" => ("capacity-kept", 0),
        "get_scid" => found(scid()),
        "get_dcid" => found(dcid()),
        "find_scid" => {
            let mut equal = ids.scids.iter().filter(|item| item.cid == record.id());
            let first = equal.next();
            tally.hit_if(equal.next().is_some(), call.number, "first-of-several");
            match first.map(|item| item.path_id) {
                None => ("none", 0),
                Some(None) => ("found-without-path", 0),
                Some(Some(_)) => ("found-with-path", 0),
            }
        }
        "mark_scid_used" => used(scid()),
        "mark_dcid_used" => used(dcid()),
        "unused_scids" | "unused_dcids" => {
            let table = if call.name == "unused_scids" { ids.scids } else { ids.dcids };
            let some = table.iter().any(|item| item.path_id.is_none());
            match (call.name == "unused_dcids" && ids.zero_length_dcid, some) {
                (true, true) => ("zero-length-some", 0),
                (true, false) => ("zero-length-none", 0),
                (false, true) => ("some", 0),
                (false, false) => ("none", 0),
            }
        }
        "lowest_unused_dcid_seq" => {
            let unused = || ids.dcids.iter().filter(|item| item.path_id.is_none()).map(|item| item.seq);
            match unused().min() {
                None => ("none", 0),
                Some(_) if ids.zero_length_dcid => ("zero-length", 0),
                least => (if unused().next() == least { "first-place" } else { "later-place" }, 0),
            }
        }
        "add_scid" => add_scid(ids, record, tally),
        "add_dcid" => add_dcid(ids, record, tally),
        "retire_scid" => retire_scid(ids, record),
        "mark_scid_to_advertise" => mark(ids.advertise, record),
        "mark_dcid_to_retire" => mark(ids.retire, record),
        "next_scid_to_advertise" => front(ids.advertise),
        "next_dcid_to_retire" => front(ids.retire),
        "create_new_connection_id_frame" => match scid().map(|item| item.reset_token) {
            None => ("absent", 2),
            Some(None) => ("no-token", 2),
            Some(Some(_)) if ids.own_rpt > n[0] => ("made-rpt-above-seq", 0),
            Some(Some(_)) => ("made", 0),
        },
        "need_send_cid_control_frames" => match (ids.advertise.is_empty(), ids.retire.is_empty()) {
            (true, true) => ("no", 0),
            (false, true) => ("advertise", 0),
            (true, false) => ("retire", 0),
            (false, false) => ("both", 0),
        },
        "zero_length_scid" => yes_no(ids.zero_length_scid),
        "zero_length_dcid" => yes_no(ids.zero_length_dcid),
        "scid_count" if ids.scids.len() == ids.scid_capacity => ("at-capacity", 0),
        "scid_count" => (if ids.scids.len() == 1 { "one" } else { "several" }, 0),
        "dcid_count" if ids.dcids.len() == ids.dcid_capacity => ("at-capacity", 0),
        "dcid_count" => (if ids.dcids.is_empty() { "none" } else { "some" }, 0),
        "scid_at" => (if n[0] < ids.scids.len() as u64 { "item" } else { "past" }, 0),
        "dcid_at" => (if n[0] < ids.dcids.len() as u64 { "item" } else { "past" }, 0),
        name => unreachable!("{name}"),
    }
}

fn mark(queue: &std::collections::VecDeque<u64>, record: &Record) -> (&'static str, u8) {
    let marks = queue.iter().filter(|seq| **seq == record.n[0]).count();
    match (record.c, marks) {
        (true, _) if queue.len() >= QUEUE => ("on-no-slot", 6),
        (true, 0) => ("on-queued", 0),
        (true, _) => ("on-queued-again", 0),
        (false, 0) => ("off-none", 0),
        (false, 1) => ("off-one", 0),
        (false, _) => ("off-several", 0),
    }
}

fn add_scid(ids: &IdsPeek, record: &Record, tally: &mut Tally) -> (&'static str, u8) {
    if ids.zero_length_scid {
        return (if ids.next == MAX_SEQUENCE { "zero-length-at-last" } else { "zero-length" }, 2);
    }
    if ids.next == MAX_SEQUENCE {
        return ("spent", 7);
    }
    let at_limit = ids.scids.len() >= ids.scid_limit;
    if at_limit {
        if !record.d {
            return ("limit-no-leave", 3);
        }
        if ids.scids.iter().all(|item| item.seq < ids.own_rpt) {
            return ("limit-none-left", 2);
        }
    }
    if !record.a {
        return (if at_limit { "limit-no-token" } else { "no-token" }, 2);
    }
    let no_slot = record.c && ids.advertise.len() >= QUEUE;
    if ids.scids.len() == ids.scid_capacity {
        return (if no_slot { "limit-full-no-slot" } else { "limit-full" }, 3);
    }
    if no_slot {
        return (if at_limit { "limit-no-slot" } else { "no-slot" }, 6);
    }
    tally.hit_if(ids.next == MAX_SEQUENCE - 1, record.call, "last-sequence");
    match (at_limit, record.c, ids.advertise.contains(&ids.next)) {
        (false, true, _) => ("advertised", 0),
        (false, false, false) => ("not-advertised", 0),
        (false, false, true) => ("marks-removed", 0),
        (true, true, _) => ("limit-advertised", 0),
        (true, false, false) => ("limit-not-advertised", 0),
        (true, false, true) => ("limit-marks-removed", 0),
    }
}

fn add_dcid(ids: &IdsPeek, record: &Record, tally: &mut Tally) -> (&'static str, u8) {
    let (id, [seq, rpt, ..]) = (record.id(), record.n);
    if ids.zero_length_dcid {
        return ("zero-length", 4);
    }
    let mut equal = ids.dcids.iter().filter(|item| item.cid == id || item.seq == seq);
    if let Some(item) = equal.next() {
        tally.hit_if(equal.next().is_some(), record.call, "repeat-two-items");
        return if item.cid != id {
            ("repeat-id-differs", 4)
        } else if item.seq != seq {
            ("repeat-seq-differs", 4)
        } else if item.reset_token.is_none() {
            ("repeat-token-absent", 4)
        } else if item.reset_token != Some(record.token()) {
            ("repeat-token-differs", 4)
        } else if rpt > seq {
            ("repeat-same-rpt-above", 0)
        } else if rpt > ids.peer_rpt {
            ("repeat-same-raising", 0)
        } else {
            ("repeat-same", 0)
        };
    }
    if rpt > seq {
        return ("rpt-above-seq", 4);
    }
    let (queued, most) = (ids.retire.len(), 4 * ids.dcid_limit);
    if seq < ids.peer_rpt {
        if ids.retire.contains(&seq) {
            return waits(ids, record, tally);
        }
        tally.hit_if(queued + 1 == most, record.call, "late-queue-at-limit");
        return match queued + 1 {
            length if length > QUEUE => ("late-no-slot", 6),
            length if length > most => ("late-over-limit", 4),
            _ => ("late-queued", 0),
        };
    }
    if rpt > ids.peer_rpt {
        let lower = || ids.dcids.iter().filter(|item| item.seq < rpt);
        let length = queued + lower().count();
        let moved = lower().next().is_some();
        tally.hit_if(ids.retire.contains(&seq), record.call, "queued-raising");
        if length > QUEUE {
            return ("raise-no-slot", 6);
        }
        if length > most {
            return (if moved { "raise-over-limit-moved" } else { "raise-over-limit-none-moved" }, 4);
        }
        tally.hit_if(length == most, record.call, "raise-queue-at-limit");
        if !moved && ids.dcids.len() == ids.dcid_capacity {
            return ("raise-full", 3);
        }
        return match (moved, lower().any(|item| item.path_id.is_some())) {
            (false, _) => ("raise-none-moved", 0),
            (true, false) => ("raise-moved-unused", 0),
            (true, true) => ("raise-moved-pairs", 0),
        };
    }
    tally.hit_if(ids.retire.contains(&seq), record.call, "queued-not-late");
    if ids.dcids.len() == ids.dcid_capacity {
        ("full", 3)
    } else {
        ("appended", 0)
    }
}

/// A late sequence that is in the retire queue. The Rust takes the frame for that of a new ID: where the table has room it
/// adds the item (D3), and where it is full it answers 3 (D18).
fn waits(ids: &IdsPeek, record: &Record, tally: &mut Tally) -> (&'static str, u8) {
    let (seq, queued) = (record.n[0], ids.retire.len());
    tally.hit_if(ids.retire.iter().filter(|other| **other == seq).count() > 1, record.call, "waits-twice");
    tally.hit_if(queued > 4 * ids.dcid_limit, record.call, "waits-over-limit");
    tally.hit_if(queued == QUEUE, record.call, "waits-no-slot");
    tally.hit_if(record.n[1] > 0, record.call, "waits-with-rpt");
    (if ids.dcids.len() == ids.dcid_capacity { "waits-full" } else { "waits-room" }, 0)
}

fn retire_scid(ids: &IdsPeek, record: &Record) -> (&'static str, u8) {
    let seq = record.n[0];
    let sole = ids.scids.len() == 1;
    if seq >= ids.next {
        return ("not-issued", 4);
    }
    let Some(item) = ids.scids.iter().find(|item| item.seq == seq) else {
        return (if sole { "absent-beside-sole" } else { "absent" }, 0);
    };
    if sole {
        return ("sole", 2);
    }
    if item.cid == record.id() {
        return ("packet-id", 4);
    }
    let left = ids.scids.iter().map(|item| item.seq).filter(|other| *other != seq && *other >= ids.own_rpt).min();
    match (left, item.path_id) {
        (None, _) => ("none-left", 2),
        (Some(least), Some(_)) => (if least == ids.own_rpt { "kept-path" } else { "raised-path" }, 0),
        (Some(least), None) => (if least == ids.own_rpt { "kept-no-path" } else { "raised-no-path" }, 0),
    }
}

#[cfg(test)]
mod tests {
    use super::*;
    use crate::generate::Generator;
    use crate::record::{find, Area};
    use crate::run::World;

    /// 6 is answered exactly if the Rust, had it been called, would have left a queue too long.
    #[test]
    fn no_slot_where_the_rust_would_leave_too_many() {
        let (mut generator, mut world, mut refused) = (Generator::new(vec![Area::Ids], 3), World::new(), 0);
        for _ in 0..100_000 {
            let record = generator.next();
            let Some(call) = find(record.call) else { continue };
            let mut copy = world.ids.copy();
            let refusal = world.apply(call, &record).refusal;
            if call.write || matches!(refusal, 1 | 7) {
                continue;
            }
            let _ = perform(&mut copy, call, &record);
            let left = copy.peek();
            assert_eq!(refusal == 6, left.advertise.len() > QUEUE || left.retire.len() > QUEUE, "{}", record.describe());
            refused += (refusal == 6) as u64;
        }
        assert!(refused > 100);
    }

    /// Where a late frame waits, the Rust, had it been called, would have added its item or answered 3, and nothing else: the
    /// table alone differs, by that item.
    #[test]
    fn one_that_waits_is_all_that_the_rust_does_otherwise() {
        let (mut generator, mut world, mut seen) = (Generator::new(vec![Area::Ids], 4), World::new(), [0; 2]);
        for _ in 0..100_000 {
            let record = generator.next();
            let Some(call) = find(record.call) else { continue };
            let mut copy = world.ids.copy();
            let before = digest::of_ids(&world.ids);
            let outcome = world.apply(call, &record);
            let waits = call.name == "add_dcid" && outcome.refusal == 0 && {
                let (ids, seq) = (copy.peek(), record.n[0]);
                let held = ids.dcids.iter().any(|item| item.cid == record.id() || item.seq == seq);
                seq < ids.peer_rpt && ids.retire.contains(&seq) && !held
            };
            if !waits {
                continue;
            }
            assert_eq!(digest::of_ids(&world.ids), before);
            assert!(outcome.fields == Outcome::refused(call, 0).fields);
            let full = copy.peek().dcids.len() == copy.peek().dcid_capacity;
            let given = perform(&mut copy, call, &record);
            if full {
                assert!(given.is_err_and(|error| refusal_of(&error) == 3));
            } else {
                assert!(given.is_ok_and(|fields| fields == outcome.fields));
                assert_eq!(copy.drop_last_dcid(), Some(record.n[0]));
            }
            assert_eq!(digest::of_ids(&copy), before);
            seen[full as usize] += 1;
        }
        assert!(seen.iter().all(|count| *count > 100), "{seen:?}");
    }
}
