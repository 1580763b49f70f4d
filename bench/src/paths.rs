//! The rows of the paths, on two of them and on eight.

use std::hint::black_box;
use std::mem::size_of;
use std::net::{Ipv4Addr, SocketAddr, SocketAddrV4};

use super::path::{Path as RustPath, PathMap as Rust};
use crate::by_value::*;
use crate::ffi::{FourTuple as Pair, *};
use crate::{answers, gives, Answer, Area, Call, FourTuple, Given, Gives, RecoveryConfig, Row};

answers!(PathAnswer, PathsFoundAnswer, AddressAnswer, RespondedAnswer);

gives!(Paths in paths: PathsDoneOut Done, InsertedOut Counted, PoppedOut Numbered, RespondedOut RespondedAnswer);

// SAFETY: numbers and bools, of which zero is one.
const NOWHERE: Pair = unsafe { std::mem::zeroed() };
const NO_CHALLENGE: Challenge = unsafe { std::mem::zeroed() };
pub const NO_PATH: Path = unsafe { std::mem::zeroed() };

/// The test, plainly written: the ten conjuncts of docs/RULES.md, "Well-formed paths", each with its number.
impl Paths {
    fn formed(&self) -> bool {
        (1..=8).contains(&self.max_paths) // 1
            && (1..=self.max_paths).contains(&(self.count as u64)) // 2
            && self.live().iter().all(Path::formed)
            && self.distinct() // 9
            && self.items[self.count..].iter().all(|path| *path == NO_PATH) // 10
    }

    fn live(&self) -> &[Path] {
        &self.items[..self.count]
    }

    fn distinct(&self) -> bool {
        let live = self.live();
        let same = |a: &Path, b: &Path| a.listed && b.listed && a.pair == b.pair;
        (1..live.len()).all(|i| live[..i].iter().all(|path| !same(path, &live[i])))
    }
}

impl Path {
    fn formed(&self) -> bool {
        self.pair.formed() // 3
            && (self.has_scid || self.scid_seq == 0)
            && (self.has_dcid || self.dcid_seq == 0) // 4
            && self.recv_chals.count <= 8
            && self.sent_chals.count <= 16 // 5
            && (self.lost_chal <= 32 || self.lost_chal == 33 && self.sent_chals.count == 0) // 6
            && self.sent_chals.formed()
            && self.recv_chals.items[self.recv_chals.count..].iter().all(|data| *data == 0)
        // 8
    }
}

impl Sent {
    /// 7 and 8.
    fn formed(&self) -> bool {
        self.items[..self.count].iter().all(|challenge| challenge.sent.formed() && challenge.deadline.formed())
            && self.items[self.count..].iter().all(|challenge| *challenge == NO_CHALLENGE)
    }
}

impl Address {
    fn formed(&self) -> bool {
        self.kind == 6 || self.kind == 4 && self.ip[4..] == [0; 12] && self.flow == 0 && self.scope == 0
    }
}

impl Pair {
    fn formed(&self) -> bool {
        self.local.formed() && self.remote.formed()
    }
}

/// The same test in the shape of ours: no branch that isn't needed, and what must be zero is merged and tested once.
impl Paths {
    fn tuned(&self) -> bool {
        let within = (1 <= self.max_paths) & (self.max_paths <= 8) & (1 <= self.count) & (self.count as u64 <= self.max_paths);
        within && self.apart() & (self.items[self.count..].iter().fold(0, |all, path| all | path.merged()) == 0)
    }

    fn apart(&self) -> bool {
        let (live, mut ok) = (self.live(), true);
        for (i, x) in live.iter().enumerate() {
            ok &= x.tuned();
            for y in &live[i + 1..] {
                ok &= !(x.listed & y.listed & (x.pair == y.pair));
            }
        }
        ok
    }
}

impl Path {
    fn tuned(&self) -> bool {
        let (received, sent) = (&self.recv_chals, &self.sent_chals);
        let within = (received.count <= 8)
            & (sent.count <= 16)
            & (self.lost_chal <= 33)
            & ((self.lost_chal <= 32) | (sent.count == 0))
            & (self.has_scid | (self.scid_seq == 0))
            & (self.has_dcid | (self.dcid_seq == 0))
            & self.pair.local.tuned()
            & self.pair.remote.tuned();
        within && received.past(received.count) | sent.past(sent.count) == 0 && sent.highest() <= super::values::MAX_MOMENT
    }

    /// Zero where every field is.
    fn merged(&self) -> u64 {
        let marks = self.has_scid
            | self.has_dcid
            | self.active
            | self.need_send_challenge
            | self.verified_peer_address
            | self.peer_verified_local_address
            | self.need_send_ping
            | self.listed;
        let numbers = self.max_datagram_size
            | self.scid_seq
            | self.dcid_seq
            | self.lost_chal
            | self.max_challenge_size
            | self.anti_ampl_limit
            | (self.recv_chals.count | self.sent_chals.count) as u64;
        let pair = self.pair.local.merged() | self.pair.remote.merged();
        numbers | marks as u64 | self.state as u64 | pair | self.recv_chals.past(0) | self.sent_chals.past(0)
    }
}

impl Received {
    fn past(&self, from: usize) -> u64 {
        self.items[from..].iter().fold(0, |all, data| all | data)
    }
}

impl Sent {
    fn past(&self, from: usize) -> u64 {
        self.items[from..].iter().fold(0, |all, c| all | c.data | c.size | c.sent.us | c.deadline.us)
    }

    /// Merged, which exceeds the highest moment just where one of them does.
    fn highest(&self) -> u64 {
        self.items[..self.count].iter().fold(0, |all, c| all | c.sent.us | c.deadline.us)
    }
}

impl Address {
    fn merged(&self) -> u64 {
        let ip = u128::from_ne_bytes(self.ip);
        (ip as u64) | (ip >> 64) as u64 | (self.flow | self.scope | self.port as u32 | self.kind as u32) as u64
    }

    fn tuned(&self) -> bool {
        let ip = u128::from_le_bytes(self.ip) >> 32;
        let rest = (ip as u64) | (ip >> 64) as u64 | (self.flow | self.scope) as u64;
        (self.kind == 6) | ((self.kind == 4) & (rest == 0))
    }
}

impl Pair {
    /// Of kind 4, each pair another.
    fn of(id: u64) -> Self {
        let address = |last: u8, port| {
            let mut ip = [0; 16];
            ip[..4].copy_from_slice(&[10, 0, id as u8, last]);
            Address { ip, flow: 0, scope: 0, port, kind: 4 }
        };
        Pair { local: address(1, 443), remote: address(2, 5000 + id as u16) }
    }

    fn rust(&self) -> (SocketAddr, SocketAddr) {
        let address = |a: &Address| SocketAddrV4::new(Ipv4Addr::new(a.ip[0], a.ip[1], a.ip[2], a.ip[3]), a.port).into();
        (address(&self.local), address(&self.remote))
    }
}

impl Address {
    /// Of the Rust's, of kind 4.
    pub fn seen(address: &SocketAddr) -> Self {
        let SocketAddr::V4(v4) = address else { unreachable!("every address here is of kind 4") };
        let mut ip = [0; 16];
        ip[..4].copy_from_slice(&v4.ip().octets());
        Address { ip, flow: 0, scope: 0, port: v4.port(), kind: 4 }
    }
}

const SIZE: u64 = 1200;
const LIMIT: u64 = 8;
const FACTOR: u64 = 3;
/// The data of the challenges that stand on path 1.
const SENT: u64 = 0x1122_3344_5566_7788;
const RECEIVED: u64 = 0x99aa_bbcc_ddee_ff00;
/// When the one sent is due.
const DUE: u64 = 25_000;

fn bytes(data: u64) -> [u8; 8] {
    data.to_be_bytes()
}

fn at(us: u64) -> Moment {
    Moment { us }
}

/// A path of the Rust's, as its connection makes it.
fn path((local, remote): (SocketAddr, SocketAddr), initial: bool, size: u64) -> RustPath {
    let conf = RecoveryConfig { enable_dplpmtud: false, max_datagram_size: size as usize };
    RustPath::new(local, remote, initial, &conf, "")
}

/// A state that is made by calls.
trait Made {
    fn fresh() -> Self;
    fn insert(&mut self, pair: Pair);
    /// On path 1: credit, a challenge sent, a challenge received.
    fn credited(&mut self, length: u64);
    fn sent(&mut self, data: u64);
    fn received(&mut self, data: u64);
}

impl Made for Paths {
    fn fresh() -> Self {
        let out = vig_paths_fresh(Pair::of(0), SIZE, LIMIT, FACTOR, true);
        crate::accepted(&out.answer);
        out.paths
    }

    fn insert(&mut self, pair: Pair) {
        crate::accepted(&vig_paths_insert_path(self, pair, SIZE));
    }

    fn credited(&mut self, length: u64) {
        crate::accepted(&vig_paths_inc_anti_ampl_limit(self, 1, length));
    }

    fn sent(&mut self, data: u64) {
        crate::accepted(&vig_paths_on_path_chal_sent(self, 1, data, SIZE, at(0)));
    }

    fn received(&mut self, data: u64) {
        crate::accepted(&vig_paths_on_path_chal_received(self, 1, data));
    }
}

impl Made for Rust {
    fn fresh() -> Self {
        Rust::new(path(Pair::of(0).rust(), true, SIZE), LIMIT as usize, FACTOR as usize, true)
    }

    fn insert(&mut self, pair: Pair) {
        self.insert_path(path(pair.rust(), false, SIZE)).unwrap();
    }

    fn credited(&mut self, length: u64) {
        self.inc_anti_ampl_limit(1, length as usize);
    }

    fn sent(&mut self, data: u64) {
        self.on_path_chal_sent(1, bytes(data), SIZE as usize, crate::instant(0)).unwrap();
    }

    fn received(&mut self, data: u64) {
        self.on_path_chal_received(1, bytes(data));
    }
}

fn filled<M: Made>(count: u64) -> M {
    let mut paths = M::fresh();
    for id in 1..count {
        paths.insert(Pair::of(id));
    }
    paths.credited(1000);
    paths.sent(SENT);
    paths.received(RECEIVED);
    paths
}

/// The Rust's state as ours would have it.
fn seen(paths: &Rust) -> Paths {
    paths.seen()
}

pub fn area<const FULL: bool>() -> Area {
    let (ours, rust) = (size_of::<Paths>(), size_of::<Rust>());
    let (name, count, inserted) = match FULL {
        false => ("paths 2", 2, "has room"),
        true => ("paths 8", 8, "evicts path 1"),
    };
    let state = format!(
        "{count} paths of kind 4 on a server, limit 8, factor 3; on path 1 credit 3000, a challenge of 1200 bytes sent and \
         one received. Calls on one path are on path 1, the last pair is looked for, insert_path {inserted}, the response \
         matches and validates (the unasked one matches nothing: the Rust is asked only after a look for the match), the timeout \
         finds the challenge due. The Rust's fresh and insert_path make the path too; \
         what its round-trip time does with a span is left out but for a push to a Vec in on_path_resp_received. {ours} \
         bytes of state, the Rust's own {rust} and what they point to"
    );
    Area { name, state, rows: rows(count) }
}

struct Rows {
    count: u64,
    state: Paths,
    rows: Vec<Row>,
}

impl Rows {
    /// A row: the arguments that ours and the Rust are given, the form that ours asks of them, and the call in each way.
    fn add<A: Copy + 'static, B: Copy + 'static, Out: Answer, Back: Gives<Paths, Out>, RustOut>(
        &mut self,
        name: &'static str,
        (arguments, rusts): (A, B),
        form: impl Fn(&A) -> bool + Copy + 'static,
        lent: impl Fn(&mut Paths, A) -> Out + Copy + 'static,
        by_value: impl Fn(&Paths, A) -> Back + Copy + 'static,
        rust: impl Fn(&mut Rust, B) -> RustOut + Copy + 'static,
    ) {
        let count = self.count;
        let test = move |paths: &Paths, a: &A| form(a) && paths.formed();
        let tuned = move |paths: &Paths, a: &A| form(a) & paths.tuned();
        self.rows.push(Call { name, test, tuned, lent, by_value, rust }.row(
            Given { state: self.state, arguments },
            move || Given { state: filled(count), arguments: rusts },
            seen,
        ));
    }
}

/// Arguments that have every form.
fn any<A>(_: &A) -> bool {
    true
}

/// An absent sequence is 0.
fn sequence((_, has, seq): &(u64, bool, u64)) -> bool {
    *has || *seq == 0
}

fn rows(count: u64) -> Vec<Row> {
    let mut r = Rows { count, state: filled(count), rows: vec![] };
    // Arguments that are the same on both sides.
    let both = |n: u64| (n, n);
    let (new, last) = (Pair::of(99), Pair::of(count - 1));

    let fresh = Call {
        name: "fresh",
        test: |_: &Paths, (pair, limit): &(Pair, u64)| (1..=8).contains(limit) && pair.formed(),
        tuned: |_: &Paths, (pair, limit): &(Pair, u64)| (1..=8).contains(limit) & pair.formed(),
        lent: |s: &mut Paths, (pair, limit)| vig_paths_fresh(pair, SIZE, limit, FACTOR, true).store(s),
        by_value: |_: &Paths, (pair, limit)| val_paths_fresh(pair, SIZE, limit, FACTOR, true),
        // What stood there before is not dropped.
        rust: |m: &mut Rust, (pair, limit): ((SocketAddr, SocketAddr), usize)| unsafe {
            std::ptr::write(m, Rust::new(path(pair, true, SIZE), limit, FACTOR as usize, true))
        },
    };
    r.rows.push(fresh.row(
        Given { state: r.state, arguments: (new, LIMIT) },
        move || Given { state: filled(count), arguments: (new.rust(), LIMIT as usize) },
        seen,
    ));

    r.add(
        "insert_path",
        ((new, SIZE), (new.rust(), SIZE)),
        |(pair, _)| pair.formed(),
        |s, (pair, size)| vig_paths_insert_path(s, pair, size),
        |s, (pair, size)| val_paths_insert_path(*s, pair, size),
        |m, (pair, size)| m.insert_path(path(pair, false, size)),
    );
    r.add("len", both(0), any, |s, _| vig_paths_len(s), |s, _| val_paths_len(*s), |m, _| m.len());
    r.add(
        "get",
        both(1),
        any,
        |s, id| vig_paths_get(s, id),
        |s, id| val_paths_get(*s, id),
        |m, id| _ = black_box(m.get(id as usize)),
    );
    r.add(
        "get_path_id",
        (last, last.rust()),
        Pair::formed,
        |s, pair| vig_paths_get_path_id(s, pair),
        |s, pair| val_paths_get_path_id(*s, pair),
        |m, pair| m.get_path_id(&pair),
    );
    r.add(
        "get_active",
        both(0),
        any,
        |s, _| vig_paths_get_active(s),
        |s, _| val_paths_get_active(*s),
        |m, _| _ = black_box(m.get_active_with_path_id()),
    );
    r.add(
        "local_addr",
        both(1),
        any,
        |s, id| vig_paths_local_addr(s, id),
        |s, id| val_paths_local_addr(*s, id),
        |m, id| m.get(id as usize).map(|path| path.local_addr()),
    );
    r.add(
        "remote_addr",
        both(1),
        any,
        |s, id| vig_paths_remote_addr(s, id),
        |s, id| val_paths_remote_addr(*s, id),
        |m, id| m.get(id as usize).map(|path| path.remote_addr()),
    );
    r.add(
        "state",
        both(1),
        any,
        |s, id| vig_paths_state(s, id),
        |s, id| val_paths_state(*s, id),
        |m, id| m.get(id as usize).map(|path| path.state()),
    );
    r.add(
        "validated",
        both(1),
        any,
        |s, id| vig_paths_validated(s, id),
        |s, id| val_paths_validated(*s, id),
        |m, id| m.get(id as usize).map(|path| path.validated()),
    );
    r.add(
        "active",
        both(1),
        any,
        |s, id| vig_paths_active(s, id),
        |s, id| val_paths_active(*s, id),
        |m, id| m.get(id as usize).map(|path| path.active()),
    );
    r.add(
        "path_chal_initiated",
        both(1),
        any,
        |s, id| vig_paths_path_chal_initiated(s, id),
        |s, id| val_paths_path_chal_initiated(*s, id),
        |m, id| m.get(id as usize).map(|path| path.path_chal_initiated()),
    );
    r.add(
        "need_send_validation_frames",
        both(1),
        any,
        |s, id| vig_paths_need_send_validation_frames(s, id),
        |s, id| val_paths_need_send_validation_frames(*s, id),
        |m, id| m.get(id as usize).map(|path| path.need_send_validation_frames(m.server())),
    );
    r.add(
        "need_expand_padding_frames",
        both(1),
        any,
        |s, id| vig_paths_need_expand_padding_frames(s, id),
        |s, id| val_paths_need_expand_padding_frames(*s, id),
        |m, id| m.get(id as usize).map(|path| path.need_expand_padding_frames(m.server())),
    );
    r.add(
        "initiate_path_chal",
        both(1),
        any,
        |s, id| vig_paths_initiate_path_chal(s, id),
        |s, id| val_paths_initiate_path_chal(*s, id),
        |m, id| m.get_mut(id as usize).map(|path| path.initiate_path_chal()),
    );
    r.add(
        "pop_recv_chal",
        both(1),
        any,
        |s, id| vig_paths_pop_recv_chal(s, id),
        |s, id| val_paths_pop_recv_chal(*s, id),
        |m, id| m.get_mut(id as usize).map(|path| path.pop_recv_chal()),
    );
    r.add(
        "on_path_chal_received",
        ((1, 9), (1, bytes(9))),
        any,
        |s, (id, data)| vig_paths_on_path_chal_received(s, id, data),
        |s, (id, data)| val_paths_on_path_chal_received(*s, id, data),
        |m, (id, data)| m.on_path_chal_received(id, data),
    );
    r.add(
        "on_path_chal_sent",
        ((1, 9, 1200, at(10)), (1, bytes(9), 1200, crate::instant(10))),
        |(.., sent)| sent.formed(),
        |s, (id, data, size, sent)| vig_paths_on_path_chal_sent(s, id, data, size, sent),
        |s, (id, data, size, sent)| val_paths_on_path_chal_sent(*s, id, data, size, sent),
        |m, (id, data, size, sent)| m.on_path_chal_sent(id, data, size, sent),
    );
    r.add(
        "on_path_resp_received",
        ((1, SENT, at(0)), (1, bytes(SENT))),
        |(.., now)| now.formed(),
        |s, (id, data, now)| vig_paths_on_path_resp_received(s, id, data, now),
        |s, (id, data, now)| val_paths_on_path_resp_received(*s, id, data, now),
        |m, (id, data)| m.on_path_resp_received(id, data),
    );
    r.add(
        "on_path_resp_received, unasked",
        ((1, SENT + 1, at(0)), (1, bytes(SENT + 1))),
        |(.., now)| now.formed(),
        |s, (id, data, now)| vig_paths_on_path_resp_received(s, id, data, now),
        |s, (id, data, now)| val_paths_on_path_resp_received(*s, id, data, now),
        |m, (id, data)| m.asked(id, data) && m.on_path_resp_received(id, data),
    );
    r.add(
        "on_path_chal_timeout",
        (at(DUE), crate::instant(DUE)),
        |now| now.formed(),
        |s, now| vig_paths_on_path_chal_timeout(s, now),
        |s, now| val_paths_on_path_chal_timeout(*s, now),
        |m, now| m.on_path_chal_timeout(now),
    );
    r.add(
        "min_path_chal_timer",
        both(0),
        any,
        |s, _| vig_paths_min_path_chal_timer(s),
        |s, _| val_paths_min_path_chal_timer(*s),
        |m, _| m.min_path_chal_timer(),
    );
    r.add(
        "inc_anti_ampl_limit",
        both(1),
        any,
        |s, id| vig_paths_inc_anti_ampl_limit(s, id, 100),
        |s, id| val_paths_inc_anti_ampl_limit(*s, id, 100),
        |m, id| m.inc_anti_ampl_limit(id as usize, 100),
    );
    r.add(
        "dec_anti_ampl_limit",
        both(1),
        any,
        |s, id| vig_paths_dec_anti_ampl_limit(s, id, 100),
        |s, id| val_paths_dec_anti_ampl_limit(*s, id, 100),
        |m, id| m.dec_anti_ampl_limit(id as usize, 100),
    );
    r.add(
        "cmp_anti_ampl_limit",
        both(1),
        any,
        |s, id| vig_paths_cmp_anti_ampl_limit(s, id, 5000),
        |s, id| val_paths_cmp_anti_ampl_limit(*s, id, 5000),
        |m, id| m.cmp_anti_ampl_limit(id as usize, 5000),
    );
    r.add(
        "mark_ping",
        ((true, last), Some(last.rust())),
        |(has, pair)| if *has { pair.formed() } else { *pair == NOWHERE },
        |s, (has, pair)| vig_paths_mark_ping(s, has, pair),
        |s, (has, pair)| val_paths_mark_ping(*s, has, pair),
        |m, pair| m.mark_ping(pair.map(|(local, remote)| FourTuple { local, remote })),
    );
    r.add(
        "enable_multipath",
        both(0),
        any,
        |s, _| vig_paths_enable_multipath(s),
        |s, _| val_paths_enable_multipath(*s),
        |m, _| m.enable_multipath(),
    );
    r.add(
        "set_scid_seq",
        ((1, true, 7), (1, Some(7))),
        sequence,
        |s, (id, has, seq)| vig_paths_set_scid_seq(s, id, has, seq),
        |s, (id, has, seq)| val_paths_set_scid_seq(*s, id, has, seq),
        |m, (id, seq)| m.get_mut(id).map(|path| path.scid_seq = seq),
    );
    r.add(
        "set_dcid_seq",
        ((1, true, 7), (1, Some(7))),
        sequence,
        |s, (id, has, seq)| vig_paths_set_dcid_seq(s, id, has, seq),
        |s, (id, has, seq)| val_paths_set_dcid_seq(*s, id, has, seq),
        |m, (id, seq)| m.get_mut(id).map(|path| path.dcid_seq = seq),
    );
    r.add(
        "set_active",
        ((1, true), (1, true)),
        any,
        |s, (id, on)| vig_paths_set_active(s, id, on),
        |s, (id, on)| val_paths_set_active(*s, id, on),
        |m, (id, on)| m.get_mut(id).map(|path| path.set_active(on)),
    );
    r.add(
        "mark_verified",
        both(1),
        any,
        |s, id| vig_paths_mark_verified(s, id),
        |s, id| val_paths_mark_verified(*s, id),
        |m, id| m.get_mut(id as usize).map(|path| path.verified_peer_address = true),
    );
    r.rows
}
