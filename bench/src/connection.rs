//! The Rust's own files, unchanged but for a look at private fields; beside them the rows of each area, which stand here because the Rust opens some
//! methods to this module alone.

pub use crate::shims::{pmtu, recovery, SpaceId};

#[path = "ids.rs"]
pub mod ids;
#[path = "paths.rs"]
pub mod paths;
#[path = "timers.rs"]
pub mod timers;
#[path = "values.rs"]
pub mod values;

#[allow(warnings)]
pub mod timer {
    include!(concat!(env!("OUT_DIR"), "/timer.rs"));
}

#[allow(warnings)]
pub mod cid {
    include!(concat!(env!("OUT_DIR"), "/cid.rs"));

    use crate::ffi::{ConnectionId as Id, Ids, Item, Queue, Table, Token};

    impl ConnectionIdMgr {
        /// What a host of the Rust asks before it reports a frame, so that one that waits to be retired changes nothing.
        pub fn waits(&self, seq: u64) -> bool {
            seq < self.largest_peer_retire_prior_to && self.dcids_to_retire.contains(&seq)
        }

        /// What ours would be in its place.
        pub fn seen(&self) -> Ids {
            let item = |place: Option<&ConnectionIdItem>| {
                let (item, none) = (place, ConnectionIdItem::default());
                let item = item.unwrap_or(&none);
                let mut cid = Id { bytes: [0; 20], len: item.cid.len() as u8 };
                cid.bytes[..item.cid.len()].copy_from_slice(&item.cid);
                Item {
                    seq: item.seq,
                    path: item.path_id.unwrap_or(0) as u64,
                    cid,
                    token: Token { bytes: item.reset_token.unwrap_or(0).to_be_bytes(), present: item.reset_token.is_some() },
                    has_path: item.path_id.is_some(),
                }
            };
            let table = |table: &ConnectionIdDeque| Table {
                items: std::array::from_fn(|i| item(table.queue.get(i))),
                count: table.queue.len(),
            };
            let queue = |queue: &VecDeque<u64>| Queue {
                items: std::array::from_fn(|i| queue.get(i).copied().unwrap_or(0)),
                count: queue.len(),
            };
            Ids {
                scids: table(&self.scids),
                dcids: table(&self.dcids),
                scid_capacity: self.scids.capacity,
                dcid_limit: self.dcid_limit as u64,
                scid_limit: self.scid_limit as u64,
                zero_length_scid: self.zero_length_scid,
                zero_length_dcid: self.zero_length_dcid,
                next_scid_seq: self.next_scid_seq,
                retire_prior_to: self.retire_prior_to,
                largest_peer_retire_prior_to: self.largest_peer_retire_prior_to,
                scids_to_advertise: queue(&self.scids_to_advertise),
                dcids_to_retire: queue(&self.dcids_to_retire),
            }
        }
    }
}

#[allow(warnings)]
pub mod path {
    include!(concat!(env!("OUT_DIR"), "/path.rs"));

    use super::paths::NO_PATH;
    use crate::ffi::{Address, Challenge, FourTuple as Pair, Moment, Path as Ours, Paths, Received, Sent};

    impl PathMap {
        /// A private field that some calls are given.
        pub fn server(&self) -> bool {
            self.is_server
        }

        /// What a host of the Rust asks before it reports a response, so that one that nobody asked for changes nothing.
        pub fn asked(&self, id: usize, data: [u8; 8]) -> bool {
            self.paths.get(id).is_some_and(|path| path.sent_chals.iter().any(|sent| sent.0 == data))
        }

        /// What ours would be in its place; the clock stands at 0.
        pub fn seen(&self) -> Paths {
            let moment = |at: Instant| Moment { us: at.duration_since(Instant::now()).as_micros() as u64 };
            let challenge = |place: Option<&([u8; 8], usize, Instant, Instant)>| match place {
                Some((data, size, sent, deadline)) => Challenge {
                    data: u64::from_be_bytes(*data),
                    size: *size as u64,
                    sent: moment(*sent),
                    deadline: moment(*deadline),
                },
                None => NO_PATH.sent_chals.items[0],
            };
            let path = |id: usize, path: &Path| Ours {
                pair: Pair { local: Address::seen(&path.local_addr), remote: Address::seen(&path.remote_addr) },
                recv_chals: Received {
                    items: std::array::from_fn(|i| path.recv_chals.get(i).map_or(0, |data| u64::from_be_bytes(*data))),
                    count: path.recv_chals.len(),
                },
                sent_chals: Sent {
                    items: std::array::from_fn(|i| challenge(path.sent_chals.get(i))),
                    count: path.sent_chals.len(),
                },
                max_datagram_size: path.recovery.max_datagram_size as u64,
                scid_seq: path.scid_seq.unwrap_or(0),
                dcid_seq: path.dcid_seq.unwrap_or(0),
                lost_chal: path.lost_chal as u64,
                max_challenge_size: path.max_challenge_size as u64,
                anti_ampl_limit: path.anti_ampl_limit as u64,
                state: path.state as u8,
                has_scid: path.scid_seq.is_some(),
                has_dcid: path.dcid_seq.is_some(),
                active: path.active,
                need_send_challenge: path.need_send_challenge,
                verified_peer_address: path.verified_peer_address,
                peer_verified_local_address: path.peer_verified_local_address,
                need_send_ping: path.need_send_ping,
                listed: self.addrs.get(&(path.local_addr, path.remote_addr)) == Some(&id),
            };
            Paths {
                items: std::array::from_fn(|id| self.paths.get(id).map_or(NO_PATH, |at| path(id, at))),
                count: self.paths.len(),
                max_paths: self.max_paths as u64,
                anti_ampl_factor: self.anti_ampl_factor as u64,
                is_multipath: self.is_multipath,
                is_server: self.is_server,
            }
        }
    }
}
