//! The rows of the IDs, on a few of them and on full tables.

use std::hint::black_box;
use std::mem::size_of;

use super::cid::ConnectionIdMgr as Rust;
use crate::by_value::*;
use crate::ffi::*;
use crate::{answers, gives, Answer, Area, Call, ConnectionId as RustId, Given, Gives, Row};

answers!(ItemAnswer, IdsFoundAnswer, FrameAnswer, RetiredAnswer);

gives!(Ids in ids: IdsDoneOut Done, IssuedOut Counted, FreedOut Numbered, RetiredOut RetiredAnswer);

type Cid = ConnectionId;

/// The test, plainly written: the sixteen conjuncts of docs/RULES.md, "Well-formed IDs", each with its number.
impl Ids {
    fn formed(&self) -> bool {
        let (source, destination) = (&self.scids, &self.dcids);
        (1..=16).contains(&self.dcid_limit) // 1
            && (2..=16).contains(&self.scid_limit) // 2
            && self.scid_capacity % 2 == 1
            && self.scid_capacity <= 31
            && 2 * self.scid_limit - 1 <= self.scid_capacity as u64 // 3
            && (1..=self.scid_capacity).contains(&source.count) // 4
            && source.live().windows(2).all(|two| two[0].seq < two[1].seq)
            && source.live().last().is_some_and(|last| last.seq < self.next_scid_seq) // 5
            && destination.count as u64 <= 2 * self.dcid_limit - 1 // 6
            && destination.distinct() // 7, 8
            && (1..=1 << 62).contains(&self.next_scid_seq) // 10
            && self.retire_prior_to <= self.next_scid_seq // 11
            && self.scids_to_advertise.count <= 128
            && self.dcids_to_retire.count <= 128 // 12
            && [&self.scids_to_advertise, &self.dcids_to_retire].iter().all(|queue| queue.formed()) // 16
            && source.formed()
            && destination.formed()
    }
}

impl Table {
    fn live(&self) -> &[Item] {
        &self.items[..self.count]
    }

    fn distinct(&self) -> bool {
        let live = self.live();
        (1..live.len()).all(|i| live[..i].iter().all(|item| item.seq != live[i].seq && item.cid != live[i].cid))
    }

    /// 9, 13, 14 and 15.
    fn formed(&self) -> bool {
        self.live().iter().all(Item::formed) && self.items[self.count..].iter().all(|item| *item == ZERO)
    }
}

impl Item {
    fn formed(&self) -> bool {
        (self.seq == 0 || self.token.present) && self.cid.formed() && self.token.formed() && (self.has_path || self.path == 0)
    }
}

impl Queue {
    fn formed(&self) -> bool {
        self.items[self.count..].iter().all(|seq| *seq == 0)
    }
}

// SAFETY: numbers and bools, of which zero is one.
const ZERO: Item = unsafe { std::mem::zeroed() };

/// The same test in the shape of ours: no branch that isn't needed, and what must be zero is merged and tested once.
impl Ids {
    fn tuned(&self) -> bool {
        let (source, destination) = (&self.scids, &self.dcids);
        let within = (1 <= self.dcid_limit)
            & (self.dcid_limit <= 16)
            & (2 <= self.scid_limit)
            & (self.scid_limit <= 16)
            & (self.scid_capacity % 2 == 1)
            & (self.scid_limit as usize <= self.scid_capacity / 2 + self.scid_capacity % 2)
            & (self.scid_capacity <= 31)
            & (1 <= source.count)
            & (source.count <= self.scid_capacity)
            & ((destination.count / 2) < self.dcid_limit as usize)
            & (destination.count <= 31)
            & (1 <= self.next_scid_seq)
            & (self.next_scid_seq <= 1 << 62)
            & (self.retire_prior_to <= self.next_scid_seq)
            & (self.scids_to_advertise.count <= 128)
            & (self.dcids_to_retire.count <= 128);
        within && source.rising(self.next_scid_seq) & destination.apart() & self.scids_to_advertise.tuned() & self.dcids_to_retire.tuned()
    }
}

impl Table {
    fn rising(&self, next: u64) -> bool {
        let (mut ok, mut last) = (self.items[0].tuned(), self.items[0].seq);
        for item in &self.live()[1..] {
            ok &= item.tuned() & (last < item.seq);
            last = item.seq;
        }
        ok & (last < next) & self.tail()
    }

    fn apart(&self) -> bool {
        let (live, mut ok) = (self.live(), true);
        for (i, x) in live.iter().enumerate() {
            ok &= x.tuned();
            for y in &live[i + 1..] {
                ok &= (x.seq != y.seq) & (x.cid != y.cid);
            }
        }
        ok & self.tail()
    }

    fn tail(&self) -> bool {
        let mut all = ZERO;
        for item in &self.items[self.count..] {
            all.seq |= item.seq;
            all.path |= item.path;
            for (byte, other) in all.cid.bytes.iter_mut().zip(item.cid.bytes) {
                *byte |= other;
            }
            all.cid.len |= item.cid.len;
            for (byte, other) in all.token.bytes.iter_mut().zip(item.token.bytes) {
                *byte |= other;
            }
            all.has_path |= item.token.present | item.has_path;
        }
        all == ZERO
    }
}

impl Item {
    fn tuned(&self) -> bool {
        let past = |bytes: &[u8]| bytes.iter().fold(0, |all, byte| all | byte) == 0;
        let id = self.cid.len <= 20 && past(&self.cid.bytes[self.cid.len as usize..]);
        id & (self.token.present | (past(&self.token.bytes) & (self.seq == 0))) & (self.has_path | (self.path == 0))
    }
}

impl Queue {
    fn tuned(&self) -> bool {
        let or = |all, seq: &u64| all | seq;
        let all = if self.count == 0 { self.items.iter().fold(0, or) } else { self.items[self.count..].iter().fold(0, or) };
        all == 0
    }
}

/// A state that is made by calls.
trait Made {
    fn fresh(dlimit: u64, cid: Cid, token: Token) -> Self;
    fn set_scid_limit(&mut self, n: u64);
    /// Advertised, with leave to retire.
    fn add_scid(&mut self, cid: Cid, token: Token);
    fn announced(&mut self, seq: u64);
    fn set_initial_dcid(&mut self, cid: Cid, token: Token);
    fn add_dcid(&mut self, cid: Cid, seq: u64, token: Token, rpt: u64);
    fn mark_dcid_used(&mut self, seq: u64);
}

impl Made for Ids {
    fn fresh(dlimit: u64, cid: Cid, token: Token) -> Self {
        vig_ids_fresh(dlimit, cid, 0, token).ids
    }

    fn set_scid_limit(&mut self, n: u64) {
        crate::accepted(&vig_ids_set_scid_limit(self, n));
    }

    fn add_scid(&mut self, cid: Cid, token: Token) {
        crate::accepted(&vig_ids_add_scid(self, cid, token, true, false, 0, true));
    }

    fn announced(&mut self, seq: u64) {
        crate::accepted(&vig_ids_mark_scid_to_advertise(self, seq, false));
    }

    fn set_initial_dcid(&mut self, cid: Cid, token: Token) {
        crate::accepted(&vig_ids_set_initial_dcid(self, cid, token, true, 0));
    }

    fn add_dcid(&mut self, cid: Cid, seq: u64, token: Token, rpt: u64) {
        crate::accepted(&vig_ids_add_dcid(self, cid, seq, token.given(), rpt));
    }

    fn mark_dcid_used(&mut self, seq: u64) {
        crate::accepted(&vig_ids_mark_dcid_used(self, seq, 0));
    }
}

impl Made for Rust {
    fn fresh(dlimit: u64, cid: Cid, token: Token) -> Self {
        Rust::new(dlimit as usize, &cid.rust(), 0, Some(token.rust()))
    }

    fn set_scid_limit(&mut self, n: u64) {
        Rust::set_scid_limit(self, n);
    }

    fn add_scid(&mut self, cid: Cid, token: Token) {
        Rust::add_scid(self, cid.rust(), Some(token.rust()), true, None, true).unwrap();
    }

    fn announced(&mut self, seq: u64) {
        Rust::mark_scid_to_advertise(self, seq, false);
    }

    fn set_initial_dcid(&mut self, cid: Cid, token: Token) {
        Rust::set_initial_dcid(self, cid.rust(), Some(token.rust()), Some(0));
    }

    fn add_dcid(&mut self, cid: Cid, seq: u64, token: Token, rpt: u64) {
        Rust::add_dcid(self, cid.rust(), seq, token.rust(), rpt).unwrap();
    }

    fn mark_dcid_used(&mut self, seq: u64) {
        Rust::mark_dcid_used(self, seq, 0).unwrap();
    }
}

impl ConnectionId {
    fn rust(&self) -> RustId {
        RustId::new(&self.bytes[..self.len as usize])
    }

    /// Of 8 bytes, each ID another.
    fn of(table: u64, seq: u64) -> Self {
        let mut bytes = [0; 20];
        bytes[..8].copy_from_slice(&scattered(table, seq).to_be_bytes());
        ConnectionId { bytes, len: 8 }
    }
}

impl Token {
    fn given(&self) -> ResetToken {
        ResetToken { bytes: self.bytes }
    }

    fn rust(&self) -> u128 {
        u128::from_be_bytes(self.bytes)
    }

    fn of(table: u64, seq: u64) -> Self {
        let half = scattered(!table, seq) as u128;
        Token { bytes: (half << 64 | !half >> 64).to_be_bytes(), present: true }
    }
}

const SOURCE: u64 = 1;
const DESTINATION: u64 = 2;

fn scattered(table: u64, seq: u64) -> u64 {
    (seq + 1).wrapping_mul(0x9e37_79b9_7f4a_7c15) ^ table.wrapping_mul(0xd6e8_feb8_6659_fd93)
}

/// The highest sequence of each table.
#[derive(Clone, Copy)]
struct Last {
    source: u64,
    destination: u64,
}

/// What the peer has asked to be retired in full tables, so that the retire queue has as many entries.
const RETIRED: u64 = 8;

fn last(full: bool, room: bool) -> Last {
    match full {
        false => Last { source: 1, destination: 1 },
        true => Last { source: 30 - room as u64, destination: 30 + RETIRED - room as u64 },
    }
}

/// Two IDs in each table, announced, with room for more and empty queues; or full tables, but for one item where there is to
/// be room, with entries in both queues.
fn filled<M: Made>(full: bool, room: bool) -> M {
    let limit = if full { 16 } else { 4 };
    let last = last(full, room);
    let mut ids = M::fresh(limit, Cid::of(SOURCE, 0), Token::of(SOURCE, 0));
    ids.set_scid_limit(limit);
    for seq in 1..=last.source {
        ids.add_scid(Cid::of(SOURCE, seq), Token::of(SOURCE, seq));
    }
    for seq in 1..=last.source.min(15) {
        ids.announced(seq);
    }
    ids.set_initial_dcid(Cid::of(DESTINATION, 0), Token::of(DESTINATION, 0));
    for seq in 1..=last.destination {
        let rpt = if seq > RETIRED { RETIRED } else { 0 };
        ids.add_dcid(Cid::of(DESTINATION, seq), seq, Token::of(DESTINATION, seq), rpt);
    }
    if full {
        ids.mark_dcid_used(RETIRED);
    }
    ids
}

/// The Rust's state as ours would have it.
fn seen(ids: &Rust) -> Ids {
    ids.seen()
}

pub fn area<const FULL: bool>() -> Area {
    let (ours, rust) = (size_of::<Ids>(), size_of::<Rust>());
    let (name, state) = match FULL {
        false => (
            "IDs 2+2",
            "2 source and 2 destination IDs, limits 4 and 4, empty queues. The last item is looked for; \"retiring\" moves 1 item, \
             and \"off\" finds no entry",
        ),
        true => (
            "IDs full",
            "31 source and 31 destination IDs, limits 16 and 16, 15 sequences to announce and 8 to retire; for the calls that \
             add, 30 and 30 IDs. The last item is looked for; \"retiring\" moves 16 items, \"waiting\" is the frame of the last \
             sequence to retire (the Rust is asked only after a look for it in its queue), and \"off\" finds the last entry",
        ),
    };
    let state = format!("{state}. IDs of 8 bytes; {ours} bytes of state, the Rust's own {rust} and what they point to");
    Area { name, state, rows: rows(FULL) }
}

struct Rows {
    full: bool,
    /// Without room for one more, and with.
    states: [Ids; 2],
    rows: Vec<Row>,
}

impl Rows {
    /// A row: the arguments that ours and the Rust are given, the form that ours asks of them, and the call in each way.
    fn add<A: Copy + 'static, B: Copy + 'static, Out: Answer, Back: Gives<Ids, Out>, RustOut>(
        &mut self,
        name: &'static str,
        (arguments, rusts): (A, B),
        form: impl Fn(&A) -> bool + Copy + 'static,
        lent: impl Fn(&mut Ids, A) -> Out + Copy + 'static,
        by_value: impl Fn(&Ids, A) -> Back + Copy + 'static,
        rust: impl Fn(&mut Rust, B) -> RustOut + Copy + 'static,
    ) {
        let (full, room) = (self.full, name.starts_with("add_"));
        let test = move |ids: &Ids, a: &A| form(a) && ids.formed();
        let tuned = move |ids: &Ids, a: &A| form(a) & ids.tuned();
        self.rows.push(Call { name, test, tuned, lent, by_value, rust }.row(
            Given { state: self.states[room as usize], arguments },
            move || Given { state: filled(full, room), arguments: rusts },
            seen,
        ));
    }
}

/// Arguments that have every form.
fn any<A>(_: &A) -> bool {
    true
}

fn rows(full: bool) -> Vec<Row> {
    let mut r = Rows { full, states: [false, true].map(|room| filled(full, room)), rows: vec![] };
    let Last { source, destination } = last(full, false);
    let room = last(full, true);
    let limit: u64 = if full { 16 } else { 4 };
    // Arguments that are the same on both sides.
    let both = |n: u64| (n, n);
    let id = |table, seq| (Cid::of(table, seq), Cid::of(table, seq).rust());
    let token = |table, seq| (Token::of(table, seq), Token::of(table, seq).rust());

    let new = (id(SOURCE, 99), token(SOURCE, 99));
    let fresh = Call {
        name: "fresh",
        test: |_: &Ids, (dlimit, cid, token): &(u64, Cid, Token)| (1..=16).contains(dlimit) && cid.formed() && token.formed(),
        tuned: |_: &Ids, (dlimit, cid, token): &(u64, Cid, Token)| (1..=16).contains(dlimit) & cid.formed() & token.formed(),
        lent: |s: &mut Ids, (dlimit, cid, token)| vig_ids_fresh(dlimit, cid, 0, token).store(s),
        by_value: |_: &Ids, (dlimit, cid, token)| val_ids_fresh(dlimit, cid, 0, token),
        // What stood there before is not dropped.
        rust: |m: &mut Rust, (dlimit, cid, token): (usize, RustId, u128)| unsafe {
            std::ptr::write(m, Rust::new(dlimit, &cid, 0, Some(token)))
        },
    };
    r.rows.push(fresh.row(
        Given { state: r.states[0], arguments: (limit, new.0 .0, new.1 .0) },
        move || Given { state: filled(full, false), arguments: (limit as usize, new.0 .1, new.1 .1) },
        seen,
    ));

    let ((cid, rust_cid), (key, rust_key)) = (id(DESTINATION, 99), token(DESTINATION, 99));
    r.add(
        "set_initial_dcid",
        ((cid, key), (rust_cid, rust_key)),
        |(cid, token)| cid.formed() && token.formed(),
        |s, (cid, token)| vig_ids_set_initial_dcid(s, cid, token, true, 0),
        |s, (cid, token)| val_ids_set_initial_dcid(*s, cid, token, true, 0),
        |m, (cid, token)| m.set_initial_dcid(cid, Some(token), Some(0)),
    );
    r.add(
        "set_scid_limit",
        both(limit),
        any,
        |s, n| vig_ids_set_scid_limit(s, n),
        |s, n| val_ids_set_scid_limit(*s, n),
        |m, n| m.set_scid_limit(n),
    );
    r.add(
        "get_scid",
        both(source),
        any,
        |s, seq| vig_ids_get_scid(s, seq),
        |s, seq| val_ids_get_scid(*s, seq),
        |m, seq| _ = black_box(m.get_scid(seq)),
    );
    r.add(
        "get_dcid",
        both(destination),
        any,
        |s, seq| vig_ids_get_dcid(s, seq),
        |s, seq| val_ids_get_dcid(*s, seq),
        |m, seq| _ = black_box(m.get_dcid(seq)),
    );
    r.add(
        "find_scid",
        id(SOURCE, source),
        Cid::formed,
        |s, cid| vig_ids_find_scid(s, cid),
        |s, cid| val_ids_find_scid(*s, cid),
        |m, cid| m.find_scid(&cid),
    );
    r.add(
        "mark_scid_used",
        both(source),
        any,
        |s, seq| vig_ids_mark_scid_used(s, seq, 1),
        |s, seq| val_ids_mark_scid_used(*s, seq, 1),
        |m, seq| m.mark_scid_used(seq, 1),
    );
    r.add(
        "mark_dcid_used",
        both(destination),
        any,
        |s, seq| vig_ids_mark_dcid_used(s, seq, 1),
        |s, seq| val_ids_mark_dcid_used(*s, seq, 1),
        |m, seq| m.mark_dcid_used(seq, 1),
    );
    r.add(
        "unused_scids",
        both(0),
        any,
        |s, _| vig_ids_unused_scids(s),
        |s, _| val_ids_unused_scids(*s),
        |m, _| m.unused_scids(),
    );
    r.add(
        "unused_dcids",
        both(0),
        any,
        |s, _| vig_ids_unused_dcids(s),
        |s, _| val_ids_unused_dcids(*s),
        |m, _| m.unused_dcids(),
    );
    r.add(
        "lowest_unused_dcid_seq",
        both(0),
        any,
        |s, _| vig_ids_lowest_unused_dcid_seq(s),
        |s, _| val_ids_lowest_unused_dcid_seq(*s),
        |m, _| m.lowest_unused_dcid_seq(),
    );
    r.add(
        "add_scid",
        ((new.0 .0, new.1 .0), (new.0 .1, new.1 .1)),
        |(cid, token)| cid.formed() && token.formed(),
        |s, (cid, token)| vig_ids_add_scid(s, cid, token, true, false, 0, true),
        |s, (cid, token)| val_ids_add_scid(*s, cid, token, true, false, 0, true),
        |m, (cid, token)| m.add_scid(cid, Some(token), true, None, true),
    );
    let seq = room.destination + 1;
    // No higher Retire Prior To than before; and one that moves the first item, of full tables sixteen.
    let rpt = if full { [RETIRED, RETIRED + 16] } else { [0, 1] };
    for (name, rpt) in ["add_dcid", "add_dcid, retiring"].into_iter().zip(rpt) {
        r.add(
            name,
            ((cid, seq, key, rpt), (rust_cid, seq, rust_key, rpt)),
            |(cid, ..)| cid.formed(),
            |s, (cid, seq, token, rpt)| vig_ids_add_dcid(s, cid, seq, token.given(), rpt),
            |s, (cid, seq, token, rpt)| val_ids_add_dcid(*s, cid, seq, token.given(), rpt),
            |m, (cid, seq, token, rpt)| m.add_dcid(cid, seq, token, rpt),
        );
    }
    if full {
        let seq = RETIRED - 1;
        let ((cid, rust_cid), (key, rust_key)) = (id(DESTINATION, seq), token(DESTINATION, seq));
        r.add(
            "add_dcid, waiting",
            ((cid, seq, key), (rust_cid, seq, rust_key)),
            |(cid, ..)| cid.formed(),
            |s, (cid, seq, token)| vig_ids_add_dcid(s, cid, seq, token.given(), 0),
            |s, (cid, seq, token)| val_ids_add_dcid(*s, cid, seq, token.given(), 0),
            |m, (cid, seq, token)| if m.waits(seq) { Ok(vec![]) } else { m.add_dcid(cid, seq, token, 0) },
        );
    }
    let (packet, rust_packet) = id(SOURCE, source);
    r.add(
        "retire_scid",
        ((0, packet), (0, rust_packet)),
        |(_, packet)| packet.formed(),
        |s, (seq, packet)| vig_ids_retire_scid(s, seq, packet),
        |s, (seq, packet)| val_ids_retire_scid(*s, seq, packet),
        |m, (seq, packet)| m.retire_scid(seq, &packet),
    );
    for (name, on) in [("mark_scid_to_advertise, on", true), ("mark_scid_to_advertise, off", false)] {
        r.add(
            name,
            ((source, on), (source, on)),
            any,
            |s, (seq, on)| vig_ids_mark_scid_to_advertise(s, seq, on),
            |s, (seq, on)| val_ids_mark_scid_to_advertise(*s, seq, on),
            |m, (seq, on)| m.mark_scid_to_advertise(seq, on),
        );
    }
    for (name, on) in [("mark_dcid_to_retire, on", true), ("mark_dcid_to_retire, off", false)] {
        r.add(
            name,
            ((RETIRED - 1, on), (RETIRED - 1, on)),
            any,
            |s, (seq, on)| vig_ids_mark_dcid_to_retire(s, seq, on),
            |s, (seq, on)| val_ids_mark_dcid_to_retire(*s, seq, on),
            |m, (seq, on)| m.mark_dcid_to_retire(seq, on),
        );
    }
    r.add(
        "next_scid_to_advertise",
        both(0),
        any,
        |s, _| vig_ids_next_scid_to_advertise(s),
        |s, _| val_ids_next_scid_to_advertise(*s),
        |m, _| m.next_scid_to_advertise(),
    );
    r.add(
        "next_dcid_to_retire",
        both(0),
        any,
        |s, _| vig_ids_next_dcid_to_retire(s),
        |s, _| val_ids_next_dcid_to_retire(*s),
        |m, _| m.next_dcid_to_retire(),
    );
    r.add(
        "create_new_connection_id_frame",
        both(source),
        any,
        |s, seq| vig_ids_create_new_connection_id_frame(s, seq),
        |s, seq| val_ids_create_new_connection_id_frame(*s, seq),
        |m, seq| m.create_new_connection_id_frame(seq),
    );
    r.add(
        "need_send_cid_control_frames",
        both(0),
        any,
        |s, _| vig_ids_need_send_cid_control_frames(s),
        |s, _| val_ids_need_send_cid_control_frames(*s),
        |m, _| m.need_send_cid_control_frames(),
    );
    r.add(
        "zero_length_scid",
        both(0),
        any,
        |s, _| vig_ids_zero_length_scid(s),
        |s, _| val_ids_zero_length_scid(*s),
        |m, _| m.zero_length_scid(),
    );
    r.add(
        "zero_length_dcid",
        both(0),
        any,
        |s, _| vig_ids_zero_length_dcid(s),
        |s, _| val_ids_zero_length_dcid(*s),
        |m, _| m.zero_length_dcid(),
    );
    r.add(
        "scid_count",
        both(0),
        any,
        |s, _| vig_ids_scid_count(s),
        |s, _| val_ids_scid_count(*s),
        |m, _| m.scid_iter().count(),
    );
    r.add(
        "scid_at",
        both(source),
        any,
        |s, place| vig_ids_scid_at(s, place),
        |s, place| val_ids_scid_at(*s, place),
        |m, place| _ = black_box(m.scid_iter().nth(place as usize)),
    );
    r.add(
        "dcid_count",
        both(0),
        any,
        |s, _| vig_ids_dcid_count(s),
        |s, _| val_ids_dcid_count(*s),
        |m, _| m.dcid_iter().count(),
    );
    r.add(
        "dcid_at",
        both(source), // the last place of this table too
        any,
        |s, place| vig_ids_dcid_at(s, place),
        |s, place| val_ids_dcid_at(*s, place),
        |m, place| _ = black_box(m.dcid_iter().nth(place as usize)),
    );
    r.rows
}
