//! Stand-ins for what cid.rs, path.rs and error.rs name and the comparison leaves out: each has as much as is needed to
//! compile, but for the round-trip time, which records the spans that it is given.

use std::time::{Duration, Instant};

pub mod frame {
    use crate::token::ResetToken;
    use crate::ConnectionId;

    #[derive(Clone, PartialEq, Eq)]
    pub enum Frame {
        NewConnectionId { seq_num: u64, retire_prior_to: u64, conn_id: ConnectionId, reset_token: ResetToken },
    }
}

pub mod token {
    #[derive(Clone, PartialEq, Eq)]
    pub struct ResetToken(pub [u8; 16]);
}

pub mod multipath_scheduler {
    pub trait MultipathScheduler {}
}

pub mod rand {
    /// No compared call asks for a random ID.
    pub fn random<T>() -> T {
        unreachable!("a random ID was asked for")
    }
}

pub mod pmtu {
    pub struct Dplpmtud;

    impl Dplpmtud {
        pub fn new(_enabled: bool, _max_datagram_size: usize, _is_ipv6: bool) -> Self {
            Dplpmtud
        }
    }
}

pub mod recovery {
    use super::*;

    pub struct Recovery {
        pub max_datagram_size: usize,
        pub rtt: Rtt,
        pub stats: PathStats,
        pub pacer_timer: Option<Instant>,
    }

    impl Recovery {
        pub fn new(conf: &RecoveryConfig) -> Self {
            let rtt = Rtt { spans: Vec::new() };
            Recovery { max_datagram_size: conf.max_datagram_size, rtt, stats: PathStats, pacer_timer: None }
        }

        pub fn set_trace_id(&mut self, _trace_id: &str) {}

        pub fn stat_lazy_update(&mut self) {}

        pub fn loss_detection_timer(&self) -> Option<Instant> {
            None
        }
    }

    pub struct Rtt {
        /// One for each match of a response, in the order of the calls.
        pub spans: Vec<Duration>,
    }

    impl Rtt {
        pub fn try_set_init_rtt(&mut self, span: Duration) {
            self.spans.push(span);
        }

        pub fn pto_base(&self) -> Duration {
            Duration::ZERO
        }
    }
}

#[derive(Clone, Copy)]
pub enum SpaceId {
    Data,
}

pub struct PathStats;

#[derive(Default)]
pub struct RecoveryConfig {
    pub enable_dplpmtud: bool,
    pub max_datagram_size: usize,
}
