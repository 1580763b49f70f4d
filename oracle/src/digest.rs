//! The words of each state, in the order of docs/TRACES.md.

use std::collections::VecDeque;

use crate::connection::cid::{ConnectionIdItem, ConnectionIdMgr};
use crate::connection::path::PathMap;
use crate::connection::{paths, timers};
pub use crate::mix::of_words;
use crate::mix::Digest;
use crate::moment;

impl Digest {
    fn zeros(&mut self, count: usize) {
        (0..count).for_each(|_| self.word(0));
    }

    fn items(&mut self, items: &VecDeque<ConnectionIdItem>) {
        for item in items {
            self.words([item.seq, item.path_id.unwrap_or(0) as u64]);
            self.bytes(&item.cid.data);
            self.word(item.cid.len as u64);
            self.bytes(&item.reset_token.unwrap_or(0).to_be_bytes());
            self.flag(item.reset_token.is_some());
            self.flag(item.path_id.is_some());
        }
        self.zeros(41 * (31 - items.len()));
        self.word(items.len() as u64);
    }

    fn queue(&mut self, queue: &VecDeque<u64>) {
        self.words(queue.iter().copied());
        self.zeros(128 - queue.len());
        self.word(queue.len() as u64);
    }

    /// Of kind, IP, port, flow and scope: IP, flow, scope, port, kind.
    fn address(&mut self, address: &[u8; 27]) {
        self.bytes(&address[1..17]);
        for part in [&address[19..23], &address[23..], &address[17..19], &address[..1]] {
            self.word(part.iter().fold(0, |word, byte| word << 8 | *byte as u64));
        }
    }

    fn path(&mut self, map: &PathMap, id: usize) {
        let path = map.get(id).expect("a path").peek();
        self.address(&paths::address_bytes(&path.pair.0));
        self.address(&paths::address_bytes(&path.pair.1));
        self.words(path.received.iter().map(|data| u64::from_be_bytes(*data)));
        self.zeros(8 - path.received.len());
        self.word(path.received.len() as u64);
        for (data, size, sent, deadline) in path.sent {
            self.words([u64::from_be_bytes(*data), *size as u64, moment(*sent), moment(*deadline)]);
        }
        self.zeros(4 * (16 - path.sent.len()));
        self.word(path.sent.len() as u64);
        self.words([path.max_datagram_size as u64, path.scid_seq.unwrap_or(0), path.dcid_seq.unwrap_or(0)]);
        self.words([path.lost as u64, path.largest_size as u64, path.credit as u64, path.state as u64]);
        self.flag(path.scid_seq.is_some());
        self.flag(path.dcid_seq.is_some());
        self.flag(path.active);
        self.flag(path.challenge_asked);
        self.flag(path.verified);
        self.flag(path.verified_by_peer);
        self.flag(path.ping_asked);
        self.flag(map.get_path_id(&path.pair) == Some(id));
    }
}

/// The words of a path, as many as `Digest::path` takes.
const PATH_WORDS: usize = 2 * 20 + 2 + 2 + 1 + 1 + 9 + 65 + 9;

pub fn of_timers(table: &timers::Timers) -> u64 {
    of_words((0..9).flat_map(|k| {
        let deadline = table.get(timers::timer(k));
        [deadline.map_or(0, moment), deadline.is_some() as u64]
    }))
}

pub fn of_ids(ids: &ConnectionIdMgr) -> u64 {
    let ids = ids.peek();
    let mut digest = Digest::new();
    digest.items(ids.scids);
    digest.items(ids.dcids);
    digest.words([ids.scid_capacity, ids.dcid_limit, ids.scid_limit].map(|n| n as u64));
    digest.flag(ids.zero_length_scid);
    digest.flag(ids.zero_length_dcid);
    digest.words([ids.next, ids.own_rpt, ids.peer_rpt]);
    digest.queue(ids.advertise);
    digest.queue(ids.retire);
    digest.word(ids.dcid_capacity as u64);
    digest.value()
}

pub fn of_path(map: &PathMap, id: usize) -> u64 {
    let mut digest = Digest::new();
    digest.path(map, id);
    digest.value()
}

pub fn of_paths(map: &PathMap) -> u64 {
    let mut digest = Digest::new();
    (0..map.len()).for_each(|id| digest.path(map, id));
    digest.zeros(PATH_WORDS * (8 - map.len()));
    digest.words([map.len(), map.limit(), map.anti_ampl_factor].map(|n| n as u64));
    digest.flag(map.multipath());
    digest.flag(map.server());
    digest.value()
}

#[cfg(test)]
mod tests {
    use super::*;
    use crate::record::{find, number, Area, Record};
    use crate::run::World;

    #[test]
    fn nothing_but_zeros_is_0() {
        let world = World::new();
        assert_eq!([Area::Timers, Area::Ids, Area::Paths].map(|area| world.digest(area)), [0; 3]);
        assert_eq!(of_words(vec![0; 1000]), 0);
    }

    #[test]
    fn the_words_are_mixed_as_the_document_says() {
        // By hand: 1, 1 + 1024 = 1025, 1025 xor 16 = 1041, 1041 x 9 = 9369, 9369 xor 4 = 9373.
        assert_eq!(of_words([1]), 9373);
        assert_ne!(of_words([1, 0]), of_words([0, 1]));
    }

    /// The digest after each record; none comes twice, so that a glue that forgets a field is noticed.
    fn all_differ(area: Area, records: &[(&str, &dyn Fn(&mut Record))]) {
        let (mut world, mut seen) = (World::new(), Vec::new());
        for (name, write) in records {
            let call = find(number(area, name)).unwrap();
            let mut record = Record::new(call.number);
            write(&mut record);
            assert_eq!(world.apply(call, &record).refusal, 0, "{name}");
            let digest = world.digest(area);
            assert!(!seen.contains(&digest), "{name} changes nothing that the digest has");
            seen.push(digest);
        }
    }

    #[test]
    fn every_field_of_the_paths_is_taken() {
        let pair = |record: &mut Record, port| (record.area[0], record.area[27], record.area[18]) = (4, 4, port);
        let fresh = |record: &mut Record, port, size, limit, factor, server| {
            pair(record, port);
            (record.n, record.c) = ([size, limit, factor, 0], server);
        };
        all_differ(
            Area::Paths,
            &[
                ("fresh", &|r| fresh(r, 1, 1200, 2, 3, true)),
                ("fresh", &|r| fresh(r, 1, 1200, 2, 3, false)),
                ("fresh", &|r| fresh(r, 1, 1200, 2, 4, true)),
                ("fresh", &|r| fresh(r, 1, 1200, 3, 4, true)),
                ("fresh", &|r| fresh(r, 1, 1201, 3, 4, true)),
                ("fresh", &|r| fresh(r, 2, 1201, 3, 4, true)),
                ("enable_multipath", &|_| {}),
                ("insert_path", &|r| pair(r, 2)),
                ("set_scid_seq", &|r| (r.b, r.n) = (true, [1, 0, 0, 0])),
                ("set_scid_seq", &|r| (r.b, r.n) = (true, [1, 9, 0, 0])),
                ("set_dcid_seq", &|r| (r.b, r.n) = (true, [1, 0, 0, 0])),
                ("set_dcid_seq", &|r| (r.b, r.n) = (true, [1, 9, 0, 0])),
                ("set_active", &|r| (r.c, r.n) = (true, [1, 0, 0, 0])),
                ("mark_ping", &|_| {}),
                ("initiate_path_chal", &|r| r.n = [1, 0, 0, 0]),
                ("on_path_chal_received", &|r| r.n = [1, 0, 0, 0]),
                ("on_path_chal_received", &|r| r.n = [1, 7, 0, 0]),
                ("on_path_chal_sent", &|r| r.n = [1, 0, 0, 0]),
                ("on_path_chal_sent", &|r| r.n = [1, 7, 1200, 5]),
                ("write_credit", &|r| r.n = [1, 5, 0, 0]),
                ("write_lost", &|r| r.n = [1, 5, 0, 0]),
                ("write_largest_size", &|r| r.n = [1, 5, 0, 0]),
                ("write_state", &|r| r.n = [1, 0, 0, 0]),
                ("write_state", &|r| r.n = [1, 3, 0, 0]),
                ("mark_verified", &|r| r.n = [1, 0, 0, 0]),
            ],
        );
    }

    #[test]
    fn every_field_of_the_ids_is_taken() {
        let id = |record: &mut Record, k| (record.area[0], record.area[1]) = (1, k);
        let fresh = |record: &mut Record, k, limit, path, token| {
            id(record, k);
            (record.n, record.a) = ([limit, path, 0, 0], token);
        };
        all_differ(
            Area::Ids,
            &[
                ("fresh", &|r| fresh(r, 1, 1, 0, false)),
                ("fresh", &|r| fresh(r, 1, 2, 0, false)),
                ("fresh", &|r| fresh(r, 1, 2, 1, false)),
                ("fresh", &|r| fresh(r, 2, 2, 1, false)),
                ("fresh", &|r| fresh(r, 2, 2, 1, true)),
                ("fresh", &|r| (r.n, r.a) = ([2, 1, 0, 0], true)),
                ("set_initial_dcid", &|r| id(r, 3)),
                ("set_initial_dcid", &|_| {}),
                ("set_scid_limit", &|r| r.n[0] = 3),
                ("set_scid_limit", &|r| r.n[0] = 2),
                ("mark_scid_used", &|r| r.n[1] = 7),
                ("mark_dcid_used", &|r| r.n[1] = 7),
                ("mark_scid_to_advertise", &|r| r.c = true),
                ("mark_dcid_to_retire", &|r| r.c = true),
                ("write_next", &|r| r.n[0] = 9),
                ("write_own_rpt", &|r| r.n[0] = 9),
                ("write_peer_rpt", &|r| r.n[0] = 9),
            ],
        );
    }
}
