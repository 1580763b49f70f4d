//! The lent states, and the call of each record.

use crate::answers::Answer;
use crate::record::{Area, Call, Field, Outcome, Record, AREA};
use crate::{digest, ffi};
use std::collections::BTreeMap;

pub struct States {
    timers: ffi::TimerTable,
    ids: ffi::Ids,
    paths: ffi::Paths,
    /// How often each function was called.
    pub made: BTreeMap<&'static str, u64>,
}

/// Makes the call, notes it, and gives its outcome.
macro_rules! made {
    ($made:expr, $name:ident($($argument:expr),*)) => {{
        *$made.entry(stringify!($name)).or_insert(0) += 1;
        ffi::$name($($argument),*)
    }};
}

impl States {
    /// All zeros: what a refused fresh gives.
    pub fn new() -> Self {
        let timers = ffi::vig_timers_fresh();
        let ids = ffi::vig_ids_fresh(0, id(&[0; AREA]), 0, token(&[0; AREA], 21, false)).ids;
        let paths = ffi::vig_paths_fresh(pair(&[0; AREA]), 0, 0, 0, false).paths;
        States { timers, ids, paths, made: BTreeMap::new() }
    }

    pub fn line(&mut self, call: &Call, record: &Record) -> String {
        let outcome = match call.area {
            _ if call.write => self.written(call, record),
            Area::Values => self.values(call, record),
            Area::Timers => self.timers(call, record),
            Area::Ids => self.ids(call, record),
            Area::Paths => self.paths(call, record),
        };
        let digest = match call.area {
            Area::Values => 0,
            Area::Timers => digest::of_timers(&self.timers),
            Area::Ids => digest::of_ids(&self.ids),
            Area::Paths => digest::of_paths(&self.paths),
        };
        outcome.line(call.number, digest)
    }

    /// A field of the lent state is written, and nothing is tested.
    fn written(&mut self, call: &Call, record: &Record) -> Outcome {
        let [n0, n1, ..] = record.n;
        match call.name {
            "write_next" => self.ids.next_scid_seq = n0,
            "write_own_rpt" => self.ids.retire_prior_to = n0,
            "write_peer_rpt" => self.ids.largest_peer_retire_prior_to = n0,
            name => {
                let paths = &mut self.paths.items[..self.paths.count];
                if let Some(path) = usize::try_from(n0).ok().and_then(|id| paths.get_mut(id)) {
                    match name {
                        "write_credit" => path.anti_ampl_limit = n1,
                        "write_lost" => path.lost_chal = n1,
                        "write_largest_size" => path.max_challenge_size = n1,
                        "write_state" if n1 > 4 => {}
                        "write_state" => path.state = n1 as u8,
                        _ => unreachable!("{name}"),
                    }
                }
            }
        }
        Outcome { refusal: 0, fields: vec![] }
    }

    fn values(&mut self, call: &Call, record: &Record) -> Outcome {
        let field = match call.name {
            "wire_code" => Field::Number(made!(self.made, vig_wire_code(record.n[0]))),
            "token_matches" => {
                let (a, b) = (token(&record.area, 21, record.a), token(&record.area, 37, record.b));
                Field::Flag(made!(self.made, vig_token_matches(a, b)))
            }
            // The archive takes IDs of their form: cutting is its hosts'.
            _ => Field::of_id(&crate::ConnectionId::new(&record.area[..record.n[0].min(AREA as u64) as usize])),
        };
        Outcome { refusal: 0, fields: vec![field] }
    }

    fn timers(&mut self, call: &Call, record: &Record) -> Outcome {
        let (t, made, [timer, us, ..]) = (&mut self.timers, &mut self.made, record.n);
        let at = ffi::Moment { us };
        match call.name {
            "fresh" => {
                *t = made!(made, vig_timers_fresh());
                Outcome { refusal: 0, fields: vec![] }
            }
            "set" => made!(made, vig_timers_set(t, timer, at)).outcome(),
            "stop" => made!(made, vig_timers_stop(t, timer)).outcome(),
            "get" => made!(made, vig_timers_get(t, timer)).outcome(),
            "next_timeout" => made!(made, vig_timers_next_timeout(t)).outcome(),
            "is_expired" => made!(made, vig_timers_is_expired(t, timer, at)).outcome(),
            "clear" => made!(made, vig_timers_clear(t)).outcome(),
            name => unreachable!("{name}"),
        }
    }

    fn ids(&mut self, call: &Call, record: &Record) -> Outcome {
        let (t, made, [n0, n1, ..]) = (&mut self.ids, &mut self.made, record.n);
        let (cid, token) = (id(&record.area), token(&record.area, 21, record.a));
        let key = ffi::ResetToken { bytes: token.bytes };
        let (has, c, d) = (record.b, record.c, record.d);
        match call.name {
            "fresh" => {
                let out = made!(made, vig_ids_fresh(n0, cid, n1, token));
                *t = out.ids;
                out.answer.outcome()
            }
            "set_initial_dcid" => made!(made, vig_ids_set_initial_dcid(t, cid, token, has, n0)).outcome(),
            "set_scid_limit" => made!(made, vig_ids_set_scid_limit(t, n0)).outcome(),
            "get_scid" => made!(made, vig_ids_get_scid(t, n0)).outcome_without_flag(),
            "get_dcid" => made!(made, vig_ids_get_dcid(t, n0)).outcome_without_flag(),
            "find_scid" => made!(made, vig_ids_find_scid(t, cid)).outcome(),
            "mark_scid_used" => made!(made, vig_ids_mark_scid_used(t, n0, n1)).outcome(),
            "mark_dcid_used" => made!(made, vig_ids_mark_dcid_used(t, n0, n1)).outcome(),
            "unused_scids" => made!(made, vig_ids_unused_scids(t)).outcome(),
            "unused_dcids" => made!(made, vig_ids_unused_dcids(t)).outcome(),
            "lowest_unused_dcid_seq" => made!(made, vig_ids_lowest_unused_dcid_seq(t)).outcome(),
            "add_scid" => made!(made, vig_ids_add_scid(t, cid, token, c, has, n0, d)).outcome(),
            "add_dcid" => made!(made, vig_ids_add_dcid(t, cid, n0, key, n1)).outcome(),
            "retire_scid" => made!(made, vig_ids_retire_scid(t, n0, cid)).outcome(),
            "mark_scid_to_advertise" => made!(made, vig_ids_mark_scid_to_advertise(t, n0, c)).outcome(),
            "mark_dcid_to_retire" => made!(made, vig_ids_mark_dcid_to_retire(t, n0, c)).outcome(),
            "next_scid_to_advertise" => made!(made, vig_ids_next_scid_to_advertise(t)).outcome(),
            "next_dcid_to_retire" => made!(made, vig_ids_next_dcid_to_retire(t)).outcome(),
            "create_new_connection_id_frame" => made!(made, vig_ids_create_new_connection_id_frame(t, n0)).outcome(),
            "need_send_cid_control_frames" => made!(made, vig_ids_need_send_cid_control_frames(t)).outcome(),
            "zero_length_scid" => made!(made, vig_ids_zero_length_scid(t)).outcome(),
            "zero_length_dcid" => made!(made, vig_ids_zero_length_dcid(t)).outcome(),
            "scid_count" => made!(made, vig_ids_scid_count(t)).outcome(),
            "scid_at" => made!(made, vig_ids_scid_at(t, n0)).outcome(),
            "dcid_count" => made!(made, vig_ids_dcid_count(t)).outcome(),
            "dcid_at" => made!(made, vig_ids_dcid_at(t, n0)).outcome(),
            name => unreachable!("{name}"),
        }
    }

    fn paths(&mut self, call: &Call, record: &Record) -> Outcome {
        let (t, made, [n0, n1, n2, n3]) = (&mut self.paths, &mut self.made, record.n);
        let pair = pair(&record.area);
        let at = |us| ffi::Moment { us };
        match call.name {
            "fresh" => {
                let out = made!(made, vig_paths_fresh(pair, n0, n1, n2, record.c));
                *t = out.paths;
                out.answer.outcome()
            }
            "insert_path" => made!(made, vig_paths_insert_path(t, pair, n0)).outcome(),
            "len" => made!(made, vig_paths_len(t)).outcome(),
            "get" => made!(made, vig_paths_get(t, n0)).outcome(),
            "get_path_id" => made!(made, vig_paths_get_path_id(t, pair)).outcome(),
            "get_active" => made!(made, vig_paths_get_active(t)).outcome(),
            "local_addr" => made!(made, vig_paths_local_addr(t, n0)).outcome(),
            "remote_addr" => made!(made, vig_paths_remote_addr(t, n0)).outcome(),
            "state" => made!(made, vig_paths_state(t, n0)).outcome(),
            "validated" => made!(made, vig_paths_validated(t, n0)).outcome(),
            "active" => made!(made, vig_paths_active(t, n0)).outcome(),
            "path_chal_initiated" => made!(made, vig_paths_path_chal_initiated(t, n0)).outcome(),
            "need_send_validation_frames" => made!(made, vig_paths_need_send_validation_frames(t, n0)).outcome(),
            "need_expand_padding_frames" => made!(made, vig_paths_need_expand_padding_frames(t, n0)).outcome(),
            "initiate_path_chal" => made!(made, vig_paths_initiate_path_chal(t, n0)).outcome(),
            "pop_recv_chal" => made!(made, vig_paths_pop_recv_chal(t, n0)).outcome(),
            "on_path_chal_received" => made!(made, vig_paths_on_path_chal_received(t, n0, n1)).outcome(),
            "on_path_chal_sent" => made!(made, vig_paths_on_path_chal_sent(t, n0, n1, n2, at(n3))).outcome(),
            "on_path_resp_received" => made!(made, vig_paths_on_path_resp_received(t, n0, n1, at(n2))).outcome(),
            "on_path_chal_timeout" => made!(made, vig_paths_on_path_chal_timeout(t, at(n0))).outcome(),
            "min_path_chal_timer" => made!(made, vig_paths_min_path_chal_timer(t)).outcome(),
            "inc_anti_ampl_limit" => made!(made, vig_paths_inc_anti_ampl_limit(t, n0, n1)).outcome(),
            "dec_anti_ampl_limit" => made!(made, vig_paths_dec_anti_ampl_limit(t, n0, n1)).outcome(),
            "cmp_anti_ampl_limit" => made!(made, vig_paths_cmp_anti_ampl_limit(t, n0, n1)).outcome(),
            "mark_ping" => made!(made, vig_paths_mark_ping(t, record.a, pair)).outcome(),
            "enable_multipath" => made!(made, vig_paths_enable_multipath(t)).outcome(),
            "set_scid_seq" => made!(made, vig_paths_set_scid_seq(t, n0, record.b, n1)).outcome(),
            "set_dcid_seq" => made!(made, vig_paths_set_dcid_seq(t, n0, record.b, n1)).outcome(),
            "set_active" => made!(made, vig_paths_set_active(t, n0, record.c)).outcome(),
            "mark_verified" => made!(made, vig_paths_mark_verified(t, n0)).outcome(),
            name => unreachable!("{name}"),
        }
    }
}

/// The ID, a token and the pair that the area holds, in whatever form.
fn id(area: &[u8; AREA]) -> ffi::ConnectionId {
    ffi::ConnectionId { bytes: area[1..21].try_into().unwrap(), len: area[0] }
}

fn token(area: &[u8; AREA], from: usize, present: bool) -> ffi::Token {
    ffi::Token { bytes: area[from..from + 16].try_into().unwrap(), present }
}

fn pair(area: &[u8; AREA]) -> ffi::FourTuple {
    ffi::FourTuple { local: address(&area[..27]), remote: address(&area[27..]) }
}

fn address(bytes: &[u8]) -> ffi::Address {
    let number = |from: usize| u32::from_be_bytes(bytes[from..from + 4].try_into().unwrap());
    ffi::Address {
        ip: bytes[1..17].try_into().unwrap(),
        flow: number(19),
        scope: number(23),
        port: u16::from_be_bytes([bytes[17], bytes[18]]),
        kind: bytes[0],
    }
}
