//! What has its form, read once more from the words of docs/RULES.md: "Values", "Well-formed IDs", "Well-formed paths" and "Well-formed timers".
//! Written apart from the library's own test and definitions, so that a mistake in them isn't made here again.

use crate::ffi::{Address, ConnectionId, Deadline, FourTuple, Ids, Item, Moment, Path, Paths, Queue, Table, TimerTable, Token};

/// A conjunct and its number in RULES.md's table.
pub type Conjunct<S> = (u8, fn(&S) -> bool);

// ---- Values ----

const MAX_MOMENT: u64 = (1 << 63) - 1;
const MAX_SEQUENCE: u64 = 1 << 62;

fn zeros(bytes: &[u8]) -> bool {
    bytes.iter().all(|&byte| byte == 0)
}

/// Whatever is absent holds zero.
pub fn optional(present: bool, number: u64) -> bool {
    present || number == 0
}

pub fn connection_id(id: &ConnectionId) -> bool {
    let len = usize::from(id.len);
    len <= 20 && zeros(&id.bytes[len..])
}

pub fn token(token: &Token) -> bool {
    token.present || zeros(&token.bytes)
}

pub fn moment(moment: &Moment) -> bool {
    moment.us <= MAX_MOMENT
}

pub fn address(a: &Address) -> bool {
    match a.kind {
        4 => zeros(&a.ip[4..]) && a.flow == 0 && a.scope == 0,
        6 => true,
        _ => false,
    }
}

pub fn pair(pair: &FourTuple) -> bool {
    address(&pair.local) && address(&pair.remote)
}

fn no_address(a: &Address) -> bool {
    a.kind == 0 && zeros(&a.ip) && a.port == 0 && a.flow == 0 && a.scope == 0
}

fn no_pair(pair: &FourTuple) -> bool {
    no_address(&pair.local) && no_address(&pair.remote)
}

pub fn optional_pair(present: bool, p: &FourTuple) -> bool {
    if present {
        pair(p)
    } else {
        no_pair(p)
    }
}

pub fn timer(number: u64) -> bool {
    number <= 8
}

pub fn destination_limit(limit: u64) -> bool {
    (1..=16).contains(&limit)
}

pub fn path_limit(limit: u64) -> bool {
    (1..=8).contains(&limit)
}

// ---- Lists: slots of an array with a count. A count above the slots is for a conjunct to refuse; here it takes them all. ----

fn taken<T>(slots: &[T], count: usize) -> &[T] {
    &slots[..count.min(slots.len())]
}

fn past<T>(slots: &[T], count: usize) -> &[T] {
    &slots[count.min(slots.len())..]
}

fn no_two<T>(all: &[T], same: impl Fn(&T, &T) -> bool) -> bool {
    all.iter().enumerate().all(|(i, x)| all[..i].iter().all(|y| !same(x, y)))
}

// ---- IDs ----

fn items(table: &Table) -> &[Item] {
    taken(&table.items, table.count)
}

/// Of both tables.
fn all_items(s: &Ids) -> impl Iterator<Item = &Item> {
    items(&s.scids).iter().chain(items(&s.dcids))
}

fn no_item(i: &Item) -> bool {
    let Item { seq, path, cid, token, has_path } = i;
    *seq == 0 && *path == 0 && cid.len == 0 && zeros(&cid.bytes) && !token.present && zeros(&token.bytes) && !has_path
}

fn empty_past_count(table: &Table) -> bool {
    past(&table.items, table.count).iter().all(no_item)
}

fn zero_past_count(queue: &Queue) -> bool {
    past(&queue.items, queue.count).iter().all(|&sequence| sequence == 0)
}

/// 2 x limit - 1, in numbers without bound, since the limit may be any.
fn capacity(limit: u64) -> i128 {
    2 * i128::from(limit) - 1
}

pub const IDS: [Conjunct<Ids>; 16] = [
    // The destination capacity isn't stored: it is what the limit says.
    (1, |s| destination_limit(s.dcid_limit)),
    (2, |s| (2..=16).contains(&s.scid_limit)),
    (3, |s| s.scid_capacity % 2 == 1 && s.scid_capacity as i128 >= capacity(s.scid_limit) && s.scid_capacity <= 31),
    (4, |s| 1 <= s.scids.count && s.scids.count <= s.scid_capacity),
    (5, |s| {
        let sequences: Vec<u64> = items(&s.scids).iter().map(|item| item.seq).collect();
        sequences.windows(2).all(|two| two[0] < two[1]) && sequences.last().is_none_or(|&last| last < s.next_scid_seq)
    }),
    (6, |s| s.dcids.count as i128 <= capacity(s.dcid_limit)),
    (7, |s| no_two(items(&s.dcids), |a, b| a.seq == b.seq)),
    (8, |s| no_two(items(&s.dcids), |a, b| a.cid.len == b.cid.len && a.cid.bytes == b.cid.bytes)),
    (9, |s| all_items(s).all(|item| item.seq == 0 || item.token.present)),
    (10, |s| (1..=MAX_SEQUENCE).contains(&s.next_scid_seq)),
    (11, |s| s.retire_prior_to <= s.next_scid_seq),
    (12, |s| s.scids_to_advertise.count <= 128 && s.dcids_to_retire.count <= 128),
    (13, |s| all_items(s).all(|item| connection_id(&item.cid))),
    (14, |s| all_items(s).all(|item| token(&item.token) && optional(item.has_path, item.path))),
    (15, |s| empty_past_count(&s.scids) && empty_past_count(&s.dcids)),
    (16, |s| zero_past_count(&s.scids_to_advertise) && zero_past_count(&s.dcids_to_retire)),
];

// ---- Paths ----

fn paths(s: &Paths) -> &[Path] {
    taken(&s.items, s.count)
}

fn same_address(a: &Address, b: &Address) -> bool {
    a.kind == b.kind && a.ip == b.ip && a.port == b.port && a.flow == b.flow && a.scope == b.scope
}

fn same_pair(a: &FourTuple, b: &FourTuple) -> bool {
    same_address(&a.local, &b.local) && same_address(&a.remote, &b.remote)
}

fn moments_formed(p: &Path) -> bool {
    taken(&p.sent_chals.items, p.sent_chals.count).iter().all(|c| moment(&c.sent) && moment(&c.deadline))
}

fn challenges_zero_past_count(p: &Path) -> bool {
    let received = past(&p.recv_chals.items, p.recv_chals.count);
    let sent = past(&p.sent_chals.items, p.sent_chals.count);
    received.iter().all(|&data| data == 0)
        && sent.iter().all(|c| c.data == 0 && c.size == 0 && c.sent.us == 0 && c.deadline.us == 0)
}

fn no_path(p: &Path) -> bool {
    let numbers = [p.max_datagram_size, p.scid_seq, p.dcid_seq, p.lost_chal, p.max_challenge_size, p.anti_ampl_limit];
    let asked = p.need_send_challenge || p.need_send_ping;
    let verified = p.verified_peer_address || p.peer_verified_local_address;
    let flags = p.has_scid || p.has_dcid || p.active || p.listed || asked || verified;
    no_pair(&p.pair)
        && p.recv_chals.count == 0
        && p.sent_chals.count == 0
        && challenges_zero_past_count(p)
        && numbers.iter().all(|&number| number == 0)
        && p.state == 0
        && !flags
}

pub const PATHS: [Conjunct<Paths>; 10] = [
    (1, |s| path_limit(s.max_paths)),
    (2, |s| 1 <= s.count && s.count as u64 <= s.max_paths),
    (3, |s| paths(s).iter().all(|p| pair(&p.pair))),
    (4, |s| paths(s).iter().all(|p| optional(p.has_scid, p.scid_seq) && optional(p.has_dcid, p.dcid_seq))),
    (5, |s| paths(s).iter().all(|p| p.recv_chals.count <= 8 && p.sent_chals.count <= 16)),
    (6, |s| paths(s).iter().all(|p| p.lost_chal <= 33 && (p.lost_chal < 33 || p.sent_chals.count == 0))),
    (7, |s| paths(s).iter().all(moments_formed)),
    (8, |s| paths(s).iter().all(challenges_zero_past_count)),
    (9, |s| no_two(paths(s), |a, b| a.listed && b.listed && same_pair(&a.pair, &b.pair))),
    (10, |s| past(&s.items, s.count).iter().all(no_path)),
];

// ---- Timers ----

fn deadlines(s: &TimerTable, set: bool) -> impl Iterator<Item = &Deadline> {
    s.expires.iter().filter(move |deadline| deadline.set == set)
}

pub const TIMERS: [Conjunct<TimerTable>; 2] =
    [(1, |s| deadlines(s, false).all(|d| d.at.us == 0)), (2, |s| deadlines(s, true).all(|d| moment(&d.at)))];
