//! The words of the lent states, every slot of their tables and lists, in the order of docs/TRACES.md.

use crate::ffi;
use crate::mix::{of_words, Digest};

impl Digest {
    fn table(&mut self, table: &ffi::Table) {
        for item in &table.items {
            self.words([item.seq, item.path]);
            self.bytes(&item.cid.bytes);
            self.word(item.cid.len as u64);
            self.bytes(&item.token.bytes);
            self.flag(item.token.present);
            self.flag(item.has_path);
        }
        self.word(table.count as u64);
    }

    fn queue(&mut self, queue: &ffi::Queue) {
        self.words(queue.items);
        self.word(queue.count as u64);
    }

    fn address(&mut self, address: &ffi::Address) {
        self.bytes(&address.ip);
        self.words([address.flow as u64, address.scope as u64, address.port as u64, address.kind as u64]);
    }

    fn path(&mut self, path: &ffi::Path) {
        self.address(&path.pair.local);
        self.address(&path.pair.remote);
        self.words(path.recv_chals.items);
        self.word(path.recv_chals.count as u64);
        for challenge in &path.sent_chals.items {
            self.words([challenge.data, challenge.size, challenge.sent.us, challenge.deadline.us]);
        }
        self.word(path.sent_chals.count as u64);
        self.words([path.max_datagram_size, path.scid_seq, path.dcid_seq, path.lost_chal]);
        self.words([path.max_challenge_size, path.anti_ampl_limit, path.state as u64]);
        self.flag(path.has_scid);
        self.flag(path.has_dcid);
        self.flag(path.active);
        self.flag(path.need_send_challenge);
        self.flag(path.verified_peer_address);
        self.flag(path.peer_verified_local_address);
        self.flag(path.need_send_ping);
        self.flag(path.listed);
    }
}

pub fn of_timers(table: &ffi::TimerTable) -> u64 {
    of_words(table.expires.iter().flat_map(|deadline| [deadline.at.us, deadline.set as u64]))
}

pub fn of_ids(ids: &ffi::Ids) -> u64 {
    let mut digest = Digest::new();
    digest.table(&ids.scids);
    digest.table(&ids.dcids);
    digest.words([ids.scid_capacity as u64, ids.dcid_limit, ids.scid_limit]);
    digest.flag(ids.zero_length_scid);
    digest.flag(ids.zero_length_dcid);
    digest.words([ids.next_scid_seq, ids.retire_prior_to, ids.largest_peer_retire_prior_to]);
    digest.queue(&ids.scids_to_advertise);
    digest.queue(&ids.dcids_to_retire);
    // The destination capacity, which the archive doesn't keep.
    digest.word(ids.dcid_limit.wrapping_mul(2).wrapping_sub((ids.dcid_limit != 0) as u64));
    digest.value()
}

pub fn of_path(path: &ffi::Path) -> u64 {
    let mut digest = Digest::new();
    digest.path(path);
    digest.value()
}

pub fn of_paths(paths: &ffi::Paths) -> u64 {
    let mut digest = Digest::new();
    paths.items.iter().for_each(|path| digest.path(path));
    digest.words([paths.count as u64, paths.max_paths, paths.anti_ampl_factor]);
    digest.flag(paths.is_multipath);
    digest.flag(paths.is_server);
    digest.value()
}

pub fn of_used(used: &ffi::Used) -> u64 {
    of_words(used.pairs.iter().flat_map(|pair| [pair.seq, pair.path]))
}

pub fn of_spans(spans: &ffi::Spans) -> u64 {
    of_words(spans.items.iter().map(|span| span.us))
}
