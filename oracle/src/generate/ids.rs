//! Records of the IDs.

use super::*;
use crate::connection::ids::{malformed, QUEUE};

// The moods: what a round is about.
const MIXED: usize = 0;
const SOURCE: usize = 1;
const DESTINATION: usize = 2;
const RETIRE_QUEUE: usize = 3;
const ADVERTISE_QUEUE: usize = 4;
const LAST_SEQUENCES: usize = 5;
const BROKEN: usize = 6;
const ZERO_LENGTH: usize = 7;

/// The calls that a mood makes more often, and how much.
fn boosts(mood: usize) -> &'static [(&'static str, u64)] {
    match mood {
        SOURCE => &[("add_scid", 40), ("retire_scid", 15), ("set_scid_limit", 4), ("mark_scid_used", 3)],
        DESTINATION => &[("add_dcid", 60), ("mark_dcid_used", 5), ("mark_dcid_to_retire", 5)],
        RETIRE_QUEUE => &[("add_dcid", 50), ("mark_dcid_to_retire", 30), ("mark_dcid_used", 3)],
        ADVERTISE_QUEUE => &[("add_scid", 30), ("mark_scid_to_advertise", 30), ("retire_scid", 5), ("set_scid_limit", 2)],
        LAST_SEQUENCES => &[("add_scid", 20), ("retire_scid", 10), ("add_dcid", 10)],
        _ => &[],
    }
}

impl Generator {
    pub(super) fn ids(&mut self) -> Record {
        if self.ids.left == 0 {
            return self.ids_round();
        }
        if self.ids.go_on() {
            // The others would end in a state that answers little.
            self.ids.mood = self.rng.pick(&[MIXED, SOURCE, DESTINATION, RETIRE_QUEUE, ADVERTISE_QUEUE]);
            self.plan_mood(self.world.ids.peek().dcid_limit as u64);
        }
        if let Some(record) = self.ids.plan.pop_front() {
            return record;
        }
        // A state out of its form answers nothing but 1: it doesn't last.
        if malformed(&self.world.ids.peek()).is_some() && self.rng.percent(8) {
            return self.repair();
        }
        if self.rng.below(1000) < if self.ids.mood == BROKEN { 60 } else { 3 } {
            return self.break_or_move();
        }
        let mood = self.ids.mood;
        let calls = area_calls(Area::Ids).filter(|call| call.name != "fresh");
        let weight = |name: &str| 2 + boosts(mood).iter().filter(|boost| boost.0 == name).map(|boost| boost.1).sum::<u64>();
        let place = self.rng.weighted(calls.clone().map(|call| weight(call.name)));
        let call = calls.clone().nth(place).expect("a call");
        let mut record = self.blank(call.number);
        self.fill_ids(call, &mut record);
        record
    }

    /// A fresh, and what the round's mood needs at its start.
    fn ids_round(&mut self) -> Record {
        self.ids.mood = self.rng.pick(&[
            MIXED,
            SOURCE,
            SOURCE,
            DESTINATION,
            DESTINATION,
            RETIRE_QUEUE,
            RETIRE_QUEUE,
            ADVERTISE_QUEUE,
            LAST_SEQUENCES,
            BROKEN,
            ZERO_LENGTH,
        ]);
        let mood = self.ids.mood;
        let calls = 50 + self.rng.below(350);
        self.ids.begin(calls);
        let mut fresh = self.ids_record("fresh");
        fresh.n[0] = 1 + if self.rng.percent(40) { self.rng.below(3) } else { self.rng.below(16) };
        let zero_source = mood == ZERO_LENGTH && self.rng.percent(60) || self.rng.percent(2);
        let zero_destination = mood == ZERO_LENGTH && self.rng.percent(60) || self.rng.percent(2);
        self.put_pool_id(&mut fresh, 0, zero_source);
        if self.rng.percent(85) {
            let mut initial = self.ids_record("set_initial_dcid");
            self.put_pool_id(&mut initial, 1000, zero_destination);
            self.ids.plan.push_back(initial);
        }
        if !self.ids.long {
            self.plan_mood(fresh.n[0]);
        }
        fresh
    }

    /// What the mood needs before it, the destination limit being given.
    fn plan_mood(&mut self, limit: u64) {
        match self.ids.mood {
            SOURCE => {
                let limit = self.rng.below(18);
                self.plan_ids("set_scid_limit", |record| record.n[0] = limit);
            }
            RETIRE_QUEUE => {
                for k in 1..=self.rng.below(2 * limit - 1).min(12) {
                    self.plan_append(k);
                }
                // To the queue's own limit, to the longest queue, or to either's near.
                let most = self.rng.pick(&[4 * limit, 4 * limit, QUEUE as u64]);
                for _ in 0..(most + 1).saturating_sub(self.rng.below(2 * limit + 4)) {
                    let seq = 500 + self.rng.below(300);
                    self.plan_ids("mark_dcid_to_retire", |record| (record.n[0], record.c) = (seq, true));
                }
                self.ids.left += if self.ids.long { 0 } else { most };
            }
            ADVERTISE_QUEUE => {
                let limit = 2 + self.rng.below(4);
                self.plan_ids("set_scid_limit", |record| record.n[0] = limit);
                for _ in 0..QUEUE as u64 + 1 - self.rng.below(6) {
                    let seq = self.rng.below(300);
                    self.plan_ids("mark_scid_to_advertise", |record| (record.n[0], record.c) = (seq, true));
                }
                self.ids.left += if self.ids.long { 0 } else { QUEUE as u64 };
            }
            LAST_SEQUENCES => {
                let next = MAX_SEQUENCE - self.rng.below(6);
                self.plan_ids("write_next", |record| record.n[0] = next);
                let rpt = self.rng.pick(&[0, 0, next, next - 1]);
                self.plan_ids("write_own_rpt", |record| record.n[0] = rpt);
            }
            ZERO_LENGTH if self.rng.percent(30) => {
                self.plan_ids("write_next", |record| record.n[0] = MAX_SEQUENCE);
            }
            _ => {}
        }
    }

    fn ids_record(&mut self, name: &str) -> Record {
        let call = record::find(record::number(Area::Ids, name)).expect("a call");
        let mut record = self.blank(call.number);
        self.fill_ids(call, &mut record);
        record
    }

    fn plan_ids(&mut self, name: &str, write: impl FnOnce(&mut Record)) {
        let mut record = self.ids_record(name);
        write(&mut record);
        self.ids.plan.push_back(record);
    }

    /// Plans an add_dcid of a new sequence that retires nothing.
    fn plan_append(&mut self, seq: u64) {
        let mut record = self.ids_record("add_dcid");
        (record.n[0], record.n[1]) = (seq, 0);
        self.put_pool_id(&mut record, 1000 + seq, false);
        self.ids.plan.push_back(record);
    }

    /// Writes that make the state well formed again, or a new round.
    fn repair(&mut self) -> Record {
        if self.world.ids.peek().dcid_limit == 0 || !self.ids.long && self.rng.percent(20) {
            return self.ids_round();
        }
        let last = self.world.ids.peek().scids.back().map_or(0, |item| item.seq);
        self.plan_ids("write_own_rpt", |record| record.n[0] = 0);
        let mut record = self.ids_record("write_next");
        record.n[0] = self.rng.pick(&[last + 1, last + 2]).min(MAX_SEQUENCE);
        record
    }

    /// A write to one of the three fields that records can write, out of its form or on the edge.
    fn break_or_move(&mut self) -> Record {
        let ids = self.world.ids.peek();
        let (next, last, peer) = (ids.next, ids.scids.back().map_or(0, |item| item.seq), ids.peer_rpt);
        let name = self.rng.pick(&["write_next", "write_own_rpt", "write_peer_rpt"]);
        let choices = match name {
            "write_next" => vec![0, last, last.wrapping_add(1), MAX_SEQUENCE, MAX_SEQUENCE - 1, MAX_SEQUENCE + 1, u64::MAX],
            "write_own_rpt" => vec![0, next, next.wrapping_add(1), last, last.wrapping_add(1), u64::MAX],
            _ => vec![0, peer / 2, peer.wrapping_add(1), 20, MAX_SEQUENCE],
        };
        let mut record = self.ids_record(name);
        record.n[0] = self.rng.pick(&choices);
        record
    }

    /// Writes every argument of the call.
    fn fill_ids(&mut self, call: &Call, record: &mut Record) {
        for arg in call.args {
            match *arg {
                Arg::Number("sequence", i) => {
                    record.n[i] = self.sequence(call.name.contains("scid") || call.name.contains("frame"))
                }
                Arg::Number("path", i) => record.n[i] = self.path_number(),
                Arg::Number("limit", i) => record.n[i] = self.source_limit(),
                Arg::Number("place", i) => {
                    record.n[i] = if self.rng.percent(95) { self.rng.below(34) } else { self.rng.pick(&EDGES) }
                }
                Arg::Number(_, i) => record.n[i] = self.rng.pick(&EDGES),
                Arg::DestinationLimit(i) => record.n[i] = 1 + self.rng.below(16),
                Arg::Maybe(_, i) => {
                    record.b = self.rng.percent(40);
                    record.n[i] = if record.b { self.path_number() } else { 0 };
                }
                Arg::FlagC(_) => record.c = self.rng.percent(60),
                Arg::FlagD(_) => record.d = self.rng.percent(65),
                Arg::Id => self.put_id(record),
                Arg::Token => self.put_token(record),
                Arg::MaybeToken => {
                    record.a = self.rng.percent(if call.name == "add_scid" { 92 } else { 65 });
                    match record.a {
                        true => self.put_token(record),
                        false => record.area[21..37].fill(0),
                    }
                }
                _ => unreachable!("no argument of the IDs"),
            }
        }
        match call.name {
            "set_initial_dcid" if self.rng.percent(60) => self.put_pool_id(record, 1000, false),
            "add_scid" => self.steer_add_scid(record),
            "add_dcid" => self.steer_add_dcid(record),
            "retire_scid" => self.steer_retire_scid(record),
            _ => {}
        }
    }

    fn path_number(&mut self) -> u64 {
        if self.rng.percent(95) {
            self.rng.below(8)
        } else {
            self.rng.next()
        }
    }

    fn source_limit(&mut self) -> u64 {
        if self.rng.percent(95) {
            self.rng.below(18)
        } else {
            self.rng.pick(&[u64::MAX, 1 << 63, 1 << 32, 18])
        }
    }

    /// A sequence that the source or the destination side knows, or is about to, or an edge.
    fn sequence(&mut self, source: bool) -> u64 {
        let ids = self.world.ids.peek();
        let table: Vec<u64> = if source { ids.scids } else { ids.dcids }.iter().map(|item| item.seq).collect();
        let queue: Vec<u64> = if source { ids.advertise } else { ids.retire }.iter().copied().collect();
        let edge = if source { self.rng.pick(&[ids.next, ids.next, ids.own_rpt]) } else { ids.peer_rpt };
        match (self.rng.below(100), self.rng.some(&table), self.rng.some(&queue)) {
            (0..=49, Some(seq), _) => seq,
            (50..=64, _, Some(seq)) => seq,
            (65..=79, ..) => self.rng.near(edge),
            (98.., ..) => self.rng.pick(&EDGES),
            _ => self.rng.below(40),
        }
    }

    /// ID k of the pool: of each k the same, of any length from 1 on.
    fn put_pool_id(&mut self, record: &mut Record, k: u64, empty: bool) {
        record.area[..21].fill(0);
        if !empty {
            let length = 2 + (k % 19) as usize;
            record.area[0] = length as u8;
            Rng::new(k).fill(&mut record.area[1..1 + length]);
        }
    }

    fn put_id(&mut self, record: &mut Record) {
        let ids = self.world.ids.peek();
        let known: Vec<_> = ids.scids.iter().chain(ids.dcids).map(|item| item.cid).collect();
        match (self.rng.below(100), self.rng.some(&known)) {
            (0..=29, Some(id)) => {
                record.area[0] = id.len;
                record.area[1..21].copy_from_slice(&id.data);
            }
            (30..=49, _) => {
                let length = self.rng.below(21) as usize;
                record.area[..21].fill(0);
                record.area[0] = length as u8;
                self.rng.fill(&mut record.area[1..1 + length]);
            }
            (50..=51, _) => self.put_pool_id(record, 0, true),
            _ => {
                let k = self.rng.next() % 2000;
                self.put_pool_id(record, k, false);
            }
        }
    }

    fn put_token(&mut self, record: &mut Record) {
        match self.rng.below(10) {
            0 => record.area[21..37].fill(0),
            1..=3 => Rng::new(self.rng.below(3)).fill(&mut record.area[21..37]),
            _ => self.rng.fill(&mut record.area[21..37]),
        }
    }

    fn steer_add_scid(&mut self, record: &mut Record) {
        let next = self.world.ids.peek().next;
        if self.rng.percent(80) {
            self.put_pool_id(record, next % 1000, false);
        }
        // An earlier mark of the sequence that comes next.
        if self.rng.percent(6) && self.ids.plan.is_empty() {
            let again = record.clone();
            *record = self.blank(record::number(Area::Ids, "mark_scid_to_advertise"));
            (record.n[0], record.c) = (next, true);
            self.ids.plan.push_back(again);
        }
    }

    fn steer_retire_scid(&mut self, record: &mut Record) {
        let ids = self.world.ids.peek();
        if let Some(item) = ids.scids.iter().find(|item| item.seq == record.n[0]) {
            if self.rng.percent(15) {
                record.area[0] = item.cid.len;
                record.area[1..21].copy_from_slice(&item.cid.data);
            }
        }
    }

    fn steer_add_dcid(&mut self, record: &mut Record) {
        let ids = self.world.ids.peek();
        let peer = ids.peer_rpt;
        let table: Vec<_> = ids.dcids.iter().map(|item| (item.seq, item.cid, item.reset_token)).collect();
        let seqs: Vec<u64> = table.iter().map(|item| item.0).collect();
        let queued: Vec<u64> = ids.retire.iter().copied().filter(|seq| *seq < peer).collect();
        let top = seqs.iter().copied().max().unwrap_or(0).max(peer);
        let raising = self.rng.below(100) < if self.ids.mood == DESTINATION { 12 } else { 30 };
        match self.rng.below(100) {
            // A new sequence; sometimes it retires up to an old one, or everything.
            0..=44 => {
                let seq = top.saturating_add(1 + self.rng.below(4));
                let low = seqs.iter().copied().min().unwrap_or(0);
                record.n[0] = seq;
                record.n[1] = match (raising, self.rng.some(&seqs)) {
                    (false, _) => self.rng.pick(&[0, peer, peer / 2]),
                    (true, Some(old)) => self.rng.pick(&[old, old.saturating_add(1).min(seq), low, low, low, seq]),
                    (true, None) => self.rng.pick(&[seq, peer.saturating_add(1).min(seq)]),
                };
                self.put_pool_id(record, 1000 + seq % 1000, false);
            }
            // One below what the peer has retired.
            45..=59 => {
                let seq = peer.saturating_sub(1 + self.rng.below(40));
                record.n[0] = seq;
                record.n[1] = self.rng.pick(&[0, seq, seq / 2]);
                self.put_pool_id(record, 1000 + seq % 1000, false);
            }
            // One that is queued already.
            60..=67 => {
                let seq = self.rng.some(&queued).unwrap_or(peer);
                record.n[0] = seq;
                record.n[1] = self.rng.pick(&[0, 0, seq]);
                self.put_pool_id(record, 1000 + seq % 1000, false);
            }
            // A repeat, with nothing or one of the three changed, or with the sequence of another item.
            68..=89 => {
                let Some((seq, id, token)) = self.rng.some(&table) else { return };
                let change = self.rng.below(9);
                record.n[0] = match change {
                    0 => self.rng.near(seq),
                    1 => self.rng.pick(&seqs),
                    _ => seq,
                };
                record.n[1] = self.rng.pick(&[0, 0, peer, seq, seq.saturating_add(1), peer.saturating_add(1).min(seq)]);
                if change != 2 {
                    record.area[0] = id.len;
                    record.area[1..21].copy_from_slice(&id.data);
                }
                if change != 3 {
                    record.area[21..37].copy_from_slice(&token.unwrap_or(0).to_be_bytes());
                }
            }
            // Retire Prior To one side or the other of the sequence.
            90..=96 => record.n[1] = self.rng.near(record.n[0]),
            97 => {
                record.n[0] = self.rng.pick(&EDGES);
                record.n[1] = self.rng.pick(&EDGES).min(record.n[0]);
            }
            // As it was filled: a known or an edge sequence, Retire Prior To an edge.
            _ => {}
        }
    }
}
