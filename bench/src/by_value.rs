//! The exports by value, which the benchmark alone links: the states and answers of ffi.rs, and what gives both back. tools/face writes both blocks from the
//! crate by_value.

use crate::ffi::*;

structs! {
    IssuedOut {
        ids: Ids,
        answer: Counted,
    }

    RetiredOut {
        ids: Ids,
        answer: RetiredAnswer,
    }

    FreedOut {
        ids: Ids,
        answer: Numbered,
    }

    PoppedOut {
        paths: Paths,
        answer: Numbered,
    }

    InsertedOut {
        paths: Paths,
        answer: Counted,
    }

    RespondedOut {
        paths: Paths,
        answer: RespondedAnswer,
    }

    TimersOut {
        timers: TimerTable,
        answer: Done,
    }
}

// SAFETY: as of those in ffi.rs; these take no reference.
unsafe extern "C" {
    pub safe fn val_ids_fresh(dcid_limit: u64, cid: ConnectionId, path: u64, token: Token) -> IdsDoneOut;
    pub safe fn val_ids_set_initial_dcid(s: Ids, cid: ConnectionId, token: Token, has_path: bool, path: u64) -> IdsDoneOut;
    pub safe fn val_ids_set_scid_limit(s: Ids, n: u64) -> IdsDoneOut;
    pub safe fn val_ids_get_scid(s: Ids, seq: u64) -> ItemAnswer;
    pub safe fn val_ids_get_dcid(s: Ids, seq: u64) -> ItemAnswer;
    pub safe fn val_ids_find_scid(s: Ids, cid: ConnectionId) -> IdsFoundAnswer;
    pub safe fn val_ids_mark_scid_used(s: Ids, seq: u64, path: u64) -> IdsDoneOut;
    pub safe fn val_ids_mark_dcid_used(s: Ids, seq: u64, path: u64) -> IdsDoneOut;
    pub safe fn val_ids_unused_scids(s: Ids) -> Counted;
    pub safe fn val_ids_unused_dcids(s: Ids) -> Counted;
    pub safe fn val_ids_lowest_unused_dcid_seq(s: Ids) -> Numbered;
    pub safe fn val_ids_add_scid(
        s: Ids,
        cid: ConnectionId,
        token: Token,
        advertise: bool,
        has_path: bool,
        path: u64,
        retire_if_needed: bool,
    ) -> IssuedOut;
    pub safe fn val_ids_add_dcid(s: Ids, cid: ConnectionId, seq: u64, token: ResetToken, retire_prior_to: u64) -> RetiredOut;
    pub safe fn val_ids_retire_scid(s: Ids, seq: u64, packet: ConnectionId) -> FreedOut;
    pub safe fn val_ids_mark_scid_to_advertise(s: Ids, seq: u64, on: bool) -> IdsDoneOut;
    pub safe fn val_ids_mark_dcid_to_retire(s: Ids, seq: u64, on: bool) -> IdsDoneOut;
    pub safe fn val_ids_next_scid_to_advertise(s: Ids) -> Numbered;
    pub safe fn val_ids_next_dcid_to_retire(s: Ids) -> Numbered;
    pub safe fn val_ids_create_new_connection_id_frame(s: Ids, seq: u64) -> FrameAnswer;
    pub safe fn val_ids_need_send_cid_control_frames(s: Ids) -> Flagged;
    pub safe fn val_ids_zero_length_dcid(s: Ids) -> Flagged;
    pub safe fn val_ids_zero_length_scid(s: Ids) -> Flagged;
    pub safe fn val_ids_dcid_count(s: Ids) -> Counted;
    pub safe fn val_ids_dcid_at(s: Ids, place: u64) -> ItemAnswer;
    pub safe fn val_ids_scid_count(s: Ids) -> Counted;
    pub safe fn val_ids_scid_at(s: Ids, place: u64) -> ItemAnswer;

    pub safe fn val_paths_local_addr(t: Paths, id: u64) -> AddressAnswer;
    pub safe fn val_paths_remote_addr(t: Paths, id: u64) -> AddressAnswer;
    pub safe fn val_paths_pop_recv_chal(t: Paths, id: u64) -> PoppedOut;
    pub safe fn val_paths_path_chal_initiated(t: Paths, id: u64) -> Flagged;
    pub safe fn val_paths_initiate_path_chal(t: Paths, id: u64) -> PathsDoneOut;
    pub safe fn val_paths_need_send_validation_frames(t: Paths, id: u64) -> Flagged;
    pub safe fn val_paths_need_expand_padding_frames(t: Paths, id: u64) -> Flagged;
    pub safe fn val_paths_validated(t: Paths, id: u64) -> Flagged;
    pub safe fn val_paths_active(t: Paths, id: u64) -> Flagged;
    pub safe fn val_paths_set_active(t: Paths, id: u64, on: bool) -> PathsDoneOut;
    pub safe fn val_paths_state(t: Paths, id: u64) -> Counted;
    pub safe fn val_paths_set_scid_seq(t: Paths, id: u64, has_seq: bool, seq: u64) -> PathsDoneOut;
    pub safe fn val_paths_set_dcid_seq(t: Paths, id: u64, has_seq: bool, seq: u64) -> PathsDoneOut;
    pub safe fn val_paths_mark_verified(t: Paths, id: u64) -> PathsDoneOut;
    pub safe fn val_paths_fresh(pair: FourTuple, max_datagram_size: u64, limit: u64, factor: u64, server: bool)
        -> PathsDoneOut;
    pub safe fn val_paths_get(t: Paths, id: u64) -> PathAnswer;
    pub safe fn val_paths_get_path_id(t: Paths, pair: FourTuple) -> Numbered;
    pub safe fn val_paths_get_active(t: Paths) -> PathsFoundAnswer;
    pub safe fn val_paths_insert_path(t: Paths, pair: FourTuple, max_datagram_size: u64) -> InsertedOut;
    pub safe fn val_paths_len(t: Paths) -> Counted;
    pub safe fn val_paths_on_path_chal_received(t: Paths, id: u64, data: u64) -> PathsDoneOut;
    pub safe fn val_paths_on_path_resp_received(t: Paths, id: u64, data: u64, now: Moment) -> RespondedOut;
    pub safe fn val_paths_on_path_chal_sent(t: Paths, id: u64, data: u64, size: u64, sent: Moment) -> PathsDoneOut;
    pub safe fn val_paths_on_path_chal_timeout(t: Paths, now: Moment) -> PathsDoneOut;
    pub safe fn val_paths_min_path_chal_timer(t: Paths) -> Timed;
    pub safe fn val_paths_inc_anti_ampl_limit(t: Paths, id: u64, length: u64) -> PathsDoneOut;
    pub safe fn val_paths_dec_anti_ampl_limit(t: Paths, id: u64, length: u64) -> PathsDoneOut;
    pub safe fn val_paths_cmp_anti_ampl_limit(t: Paths, id: u64, wish: u64) -> Counted;
    pub safe fn val_paths_mark_ping(t: Paths, has_pair: bool, pair: FourTuple) -> PathsDoneOut;
    pub safe fn val_paths_enable_multipath(t: Paths) -> PathsDoneOut;

    pub safe fn val_timers_fresh() -> TimerTable;
    pub safe fn val_timers_set(t: TimerTable, timer: u64, at: Moment) -> TimersOut;
    pub safe fn val_timers_get(t: TimerTable, timer: u64) -> Timed;
    pub safe fn val_timers_stop(t: TimerTable, timer: u64) -> TimersOut;
    pub safe fn val_timers_next_timeout(t: TimerTable) -> Timed;
    pub safe fn val_timers_is_expired(t: TimerTable, timer: u64, now: Moment) -> Flagged;
    pub safe fn val_timers_clear(t: TimerTable) -> TimersOut;

    pub safe fn val_wire_code(number: u64) -> u64;
    pub safe fn val_token_matches(a: Token, b: Token) -> bool;
}
