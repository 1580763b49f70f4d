//! The Rust's own files, unchanged, each in a module that adds no more than a look at its private fields and the writes
//! that TRACES.md names; beside them the glue, which stands here because the Rust opens some methods to this module alone.

pub use crate::shims::{pmtu, recovery, SpaceId};

#[path = "ids.rs"]
pub mod ids;
#[path = "paths.rs"]
pub mod paths;
#[path = "timers.rs"]
pub mod timers;

#[allow(warnings)]
pub mod timer {
    include!(concat!(env!("OUT_DIR"), "/timer.rs"));
}

#[allow(warnings)]
pub mod cid {
    include!(concat!(env!("OUT_DIR"), "/cid.rs"));

    /// Every field of the IDs.
    pub struct IdsPeek<'a> {
        pub scids: &'a VecDeque<ConnectionIdItem>,
        pub scid_capacity: usize,
        pub scid_limit: usize,
        pub dcids: &'a VecDeque<ConnectionIdItem>,
        pub dcid_capacity: usize,
        pub dcid_limit: usize,
        pub zero_length_scid: bool,
        pub zero_length_dcid: bool,
        pub next: u64,
        pub own_rpt: u64,
        pub peer_rpt: u64,
        pub advertise: &'a VecDeque<u64>,
        pub retire: &'a VecDeque<u64>,
    }

    impl ConnectionIdMgr {
        pub fn peek(&self) -> IdsPeek {
            IdsPeek {
                scids: &self.scids.queue,
                scid_capacity: self.scids.capacity,
                scid_limit: self.scid_limit,
                dcids: &self.dcids.queue,
                dcid_capacity: self.dcids.capacity,
                dcid_limit: self.dcid_limit,
                zero_length_scid: self.zero_length_scid,
                zero_length_dcid: self.zero_length_dcid,
                next: self.next_scid_seq,
                own_rpt: self.retire_prior_to,
                peer_rpt: self.largest_peer_retire_prior_to,
                advertise: &self.scids_to_advertise,
                retire: &self.dcids_to_retire,
            }
        }

        /// For the test that asks what the Rust would leave.
        #[cfg(test)]
        pub fn copy(&self) -> Self {
            let table = |from: &ConnectionIdDeque| ConnectionIdDeque {
                queue: from.queue.iter().map(|item| ConnectionIdItem { ..*item }).collect(),
                capacity: from.capacity,
            };
            ConnectionIdMgr {
                dcids: table(&self.dcids),
                scids: table(&self.scids),
                scids_to_advertise: self.scids_to_advertise.clone(),
                dcids_to_retire: self.dcids_to_retire.clone(),
                ..*self
            }
        }

        /// Takes the last destination item out again: its sequence.
        #[cfg(test)]
        pub fn drop_last_dcid(&mut self) -> Option<u64> {
            self.dcids.queue.pop_back().map(|item| item.seq)
        }

        pub fn write_next(&mut self, next: u64) {
            self.next_scid_seq = next;
        }

        pub fn write_own_rpt(&mut self, rpt: u64) {
            self.retire_prior_to = rpt;
        }

        pub fn write_peer_rpt(&mut self, rpt: u64) {
            self.largest_peer_retire_prior_to = rpt;
        }
    }
}

#[allow(warnings)]
pub mod path {
    include!(concat!(env!("OUT_DIR"), "/path.rs"));

    /// Every compared field of a path.
    pub struct PathPeek<'a> {
        pub pair: (SocketAddr, SocketAddr),
        pub scid_seq: Option<u64>,
        pub dcid_seq: Option<u64>,
        pub active: bool,
        pub state: PathState,
        pub received: &'a VecDeque<[u8; 8]>,
        pub sent: &'a VecDeque<([u8; 8], usize, Instant, Instant)>,
        pub challenge_asked: bool,
        pub lost: usize,
        pub largest_size: usize,
        pub verified: bool,
        pub verified_by_peer: bool,
        pub credit: usize,
        pub max_datagram_size: usize,
        pub ping_asked: bool,
    }

    impl Path {
        pub fn peek(&self) -> PathPeek {
            PathPeek {
                pair: (self.local_addr, self.remote_addr),
                scid_seq: self.scid_seq,
                dcid_seq: self.dcid_seq,
                active: self.active,
                state: self.state,
                received: &self.recv_chals,
                sent: &self.sent_chals,
                challenge_asked: self.need_send_challenge,
                lost: self.lost_chal,
                largest_size: self.max_challenge_size,
                verified: self.verified_peer_address,
                verified_by_peer: self.peer_verified_local_address,
                credit: self.anti_ampl_limit,
                max_datagram_size: self.recovery.max_datagram_size,
                ping_asked: self.need_send_ping,
            }
        }

        pub fn write_credit(&mut self, credit: usize) {
            self.anti_ampl_limit = credit;
        }

        pub fn write_lost(&mut self, lost: usize) {
            self.lost_chal = lost;
        }

        pub fn write_largest_size(&mut self, size: usize) {
            self.max_challenge_size = size;
        }

        /// A number that no state has leaves it alone.
        pub fn write_state(&mut self, state: usize) {
            use PathState::*;
            if let Some(state) = [Failed, Unknown, Validating, ValidatingMTU, Validated].get(state) {
                self.state = *state;
            }
        }
    }

    impl PathMap {
        /// The all-zero paths: before a fresh, and after a refused one.
        pub fn zero() -> Self {
            PathMap {
                paths: Slab::new(),
                max_paths: 0,
                addrs: BTreeMap::new(),
                anti_ampl_factor: 0,
                is_multipath: false,
                is_server: false,
            }
        }

        pub fn limit(&self) -> usize {
            self.max_paths
        }

        pub fn multipath(&self) -> bool {
            self.is_multipath
        }

        pub fn server(&self) -> bool {
            self.is_server
        }
    }
}
