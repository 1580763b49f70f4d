//! The library's structs and functions, as its own definitions have them: tools/face writes both blocks below from those, with the comments in them kept.
//! Two answers have the same name in two crates and carry the crate's here: IdsDoneOut and PathsDoneOut, IdsFoundAnswer and PathsFoundAnswer.

/// A struct, equal where its fields are. How tokens are equal each user of this file says: the crate by the library's one comparison (values.rs), what tests or
/// measures the library plainly (tests/host/plain.rs).
macro_rules! declare {
    (Token $fields:tt) => { declare! { [] Token $fields } };
    (ResetToken $fields:tt) => { declare! { [] ResetToken $fields } };
    ($name:ident $fields:tt) => { declare! { [PartialEq] $name $fields } };
    ([$($equality:ident)?] $name:ident $fields:tt) => {
        #[repr(C)]
        #[derive(Clone, Copy, Debug, $($equality,)? Eq)]
        pub struct $name $fields
    };
}

/// Declares `#[repr(C)]` structs and, for the tests, a text of their layout, so that no struct can be left out of it; for tests/host/fuzz, which has this file as
/// a module too, where their fields are.
macro_rules! structs {
    ($($name:ident { $($field:ident: $type:ty,)* })*) => {
        $(
            declare! { $name { $(pub $field: $type,)* } }

            #[cfg(fuzz)]
            impl crate::parts::Parts for $name {
                fn note(at: usize, map: &mut crate::parts::Map) {
                    $(<$type>::note(at + std::mem::offset_of!($name, $field), map);)*
                }
            }
        )*

        #[cfg(test)]
        pub fn layout() -> String {
            use std::mem::{align_of, offset_of, size_of};
            let mut lines = String::new();
            $(
                let name = stringify!($name);
                lines += &format!("{name} {} {}\n", size_of::<$name>(), align_of::<$name>());
                $(
                    let (field, at) = (stringify!($field), offset_of!($name, $field));
                    lines += &format!("{name}.{field} {at} {}\n", size_of::<$type>());
                )*
            )*
            lines
        }
    };
}

structs! {
    ConnectionId {
        bytes: [u8; 20],
        len: u8,
    }

    ResetToken {
        bytes: [u8; 16],
    }

    Token {
        bytes: [u8; 16],
        present: bool,
    }

    Address {
        ip: [u8; 16],
        flow: u32,
        scope: u32,
        port: u16,
        kind: u8,
    }

    FourTuple {
        local: Address,
        remote: Address,
    }

    Moment {
        us: u64,
    }

    Span {
        us: u64,
    }

    Deadline {
        at: Moment,
        set: bool,
    }

    Done {
        refusal: u8,
    }

    Flagged {
        refusal: u8,
        flag: bool,
    }

    Counted {
        refusal: u8,
        number: u64,
    }

    Numbered {
        refusal: u8,
        present: bool,
        number: u64,
    }

    Timed {
        refusal: u8,
        deadline: Deadline,
    }

    TimerTable {
        expires: [Deadline; 9],
    }

    Item {
        seq: u64,
        path: u64,
        cid: ConnectionId,
        token: Token,
        has_path: bool,
    }

    Table {
        items: [Item; 31],
        count: usize,
    }

    Queue {
        items: [u64; 128],
        count: usize,
    }

    Ids {
        scids: Table,
        dcids: Table,
        scid_capacity: usize,
        dcid_limit: u64,
        scid_limit: u64,
        zero_length_scid: bool,
        zero_length_dcid: bool,
        next_scid_seq: u64,
        retire_prior_to: u64,
        largest_peer_retire_prior_to: u64,
        scids_to_advertise: Queue,
        dcids_to_retire: Queue,
    }

    IdsDoneOut {
        ids: Ids,
        answer: Done,
    }

    ItemAnswer {
        refusal: u8,
        present: bool,
        item: Item,
    }

    IdsFoundAnswer {
        refusal: u8,
        present: bool,
        has_path: bool,
        seq: u64,
        path: u64,
    }

    FrameAnswer {
        refusal: u8,
        seq: u64,
        retire_prior_to: u64,
        cid: ConnectionId,
        token: ResetToken,
    }

    UsedSeq {
        seq: u64,
        path: u64,
    }

    Used {
        pairs: [UsedSeq; 31],
        count: usize,
    }

    RetiredAnswer {
        refusal: u8,
        used: Used,
    }

    Received {
        items: [u64; 8],
        count: usize,
    }

    Challenge {
        data: u64,
        size: u64,
        sent: Moment,
        deadline: Moment,
    }

    Sent {
        items: [Challenge; 16],
        count: usize,
    }

    Spans {
        items: [Span; 16],
        count: usize,
    }

    Path {
        pair: FourTuple,
        recv_chals: Received,
        sent_chals: Sent,
        max_datagram_size: u64,
        scid_seq: u64,
        dcid_seq: u64,
        lost_chal: u64,
        max_challenge_size: u64,
        anti_ampl_limit: u64,
        state: u8,
        has_scid: bool,
        has_dcid: bool,
        active: bool,
        need_send_challenge: bool,
        verified_peer_address: bool,
        peer_verified_local_address: bool,
        need_send_ping: bool,
        listed: bool,
    }

    Paths {
        items: [Path; 8],
        count: usize,
        max_paths: u64,
        anti_ampl_factor: u64,
        is_multipath: bool,
        is_server: bool,
    }

    PathsDoneOut {
        paths: Paths,
        answer: Done,
    }

    PathAnswer {
        refusal: u8,
        path: Path,
    }

    PathsFoundAnswer {
        refusal: u8,
        id: u64,
        path: Path,
    }

    AddressAnswer {
        refusal: u8,
        address: Address,
    }

    RespondedAnswer {
        refusal: u8,
        yes: bool,
        spans: Spans,
    }
}

// SAFETY: the declarations are the library's own, from which tools/face writes them, so every call is safe: a reference is a pointer to a whole state, which lives
// through the call and is shared or exclusive as the call takes it; every bool is a Rust bool; the library asks nothing else, keeps no pointer and has no
// globals.
#[allow(unsafe_code)]
unsafe extern "C" {
    pub safe fn vig_wire_code(number: u64) -> u64;
    pub safe fn vig_token_matches(a: Token, b: Token) -> bool;

    pub safe fn vig_timers_fresh() -> TimerTable;
    pub safe fn vig_timers_set(t: &mut TimerTable, timer: u64, at: Moment) -> Done;
    pub safe fn vig_timers_get(t: &TimerTable, timer: u64) -> Timed;
    pub safe fn vig_timers_stop(t: &mut TimerTable, timer: u64) -> Done;
    pub safe fn vig_timers_next_timeout(t: &TimerTable) -> Timed;
    pub safe fn vig_timers_is_expired(t: &TimerTable, timer: u64, moment: Moment) -> Flagged;
    pub safe fn vig_timers_clear(t: &mut TimerTable) -> Done;

    pub safe fn vig_ids_fresh(dcid_limit: u64, cid: ConnectionId, path: u64, token: Token) -> IdsDoneOut;
    pub safe fn vig_ids_set_initial_dcid(t: &mut Ids, cid: ConnectionId, token: Token, has_path: bool, path: u64) -> Done;
    pub safe fn vig_ids_set_scid_limit(t: &mut Ids, n: u64) -> Done;
    pub safe fn vig_ids_get_scid(t: &Ids, seq: u64) -> ItemAnswer;
    pub safe fn vig_ids_get_dcid(t: &Ids, seq: u64) -> ItemAnswer;
    pub safe fn vig_ids_find_scid(t: &Ids, cid: ConnectionId) -> IdsFoundAnswer;
    pub safe fn vig_ids_mark_scid_used(t: &mut Ids, seq: u64, path: u64) -> Done;
    pub safe fn vig_ids_mark_dcid_used(t: &mut Ids, seq: u64, path: u64) -> Done;
    pub safe fn vig_ids_unused_scids(t: &Ids) -> Counted;
    pub safe fn vig_ids_unused_dcids(t: &Ids) -> Counted;
    pub safe fn vig_ids_lowest_unused_dcid_seq(t: &Ids) -> Numbered;
    pub safe fn vig_ids_add_scid(
        t: &mut Ids,
        cid: ConnectionId,
        token: Token,
        advertise: bool,
        has_path: bool,
        path: u64,
        retire_if_needed: bool,
    ) -> Counted;
    pub safe fn vig_ids_add_dcid(
        t: &mut Ids,
        cid: ConnectionId,
        seq: u64,
        token: ResetToken,
        retire_prior_to: u64,
    ) -> RetiredAnswer;
    pub safe fn vig_ids_retire_scid(t: &mut Ids, seq: u64, packet: ConnectionId) -> Numbered;
    pub safe fn vig_ids_mark_scid_to_advertise(t: &mut Ids, seq: u64, on: bool) -> Done;
    pub safe fn vig_ids_mark_dcid_to_retire(t: &mut Ids, seq: u64, on: bool) -> Done;
    pub safe fn vig_ids_next_scid_to_advertise(t: &Ids) -> Numbered;
    pub safe fn vig_ids_next_dcid_to_retire(t: &Ids) -> Numbered;
    pub safe fn vig_ids_create_new_connection_id_frame(t: &Ids, seq: u64) -> FrameAnswer;
    pub safe fn vig_ids_need_send_cid_control_frames(t: &Ids) -> Flagged;
    pub safe fn vig_ids_zero_length_dcid(t: &Ids) -> Flagged;
    pub safe fn vig_ids_zero_length_scid(t: &Ids) -> Flagged;
    pub safe fn vig_ids_dcid_count(t: &Ids) -> Counted;
    pub safe fn vig_ids_dcid_at(t: &Ids, place: u64) -> ItemAnswer;
    pub safe fn vig_ids_scid_count(t: &Ids) -> Counted;
    pub safe fn vig_ids_scid_at(t: &Ids, place: u64) -> ItemAnswer;

    pub safe fn vig_paths_local_addr(t: &Paths, id: u64) -> AddressAnswer;
    pub safe fn vig_paths_remote_addr(t: &Paths, id: u64) -> AddressAnswer;
    pub safe fn vig_paths_pop_recv_chal(t: &mut Paths, id: u64) -> Numbered;
    pub safe fn vig_paths_path_chal_initiated(t: &Paths, id: u64) -> Flagged;
    pub safe fn vig_paths_initiate_path_chal(t: &mut Paths, id: u64) -> Done;
    pub safe fn vig_paths_need_send_validation_frames(t: &Paths, id: u64) -> Flagged;
    pub safe fn vig_paths_need_expand_padding_frames(t: &Paths, id: u64) -> Flagged;
    pub safe fn vig_paths_validated(t: &Paths, id: u64) -> Flagged;
    pub safe fn vig_paths_active(t: &Paths, id: u64) -> Flagged;
    pub safe fn vig_paths_set_active(t: &mut Paths, id: u64, on: bool) -> Done;
    pub safe fn vig_paths_state(t: &Paths, id: u64) -> Counted;
    pub safe fn vig_paths_set_scid_seq(t: &mut Paths, id: u64, has_seq: bool, seq: u64) -> Done;
    pub safe fn vig_paths_set_dcid_seq(t: &mut Paths, id: u64, has_seq: bool, seq: u64) -> Done;
    pub safe fn vig_paths_mark_verified(t: &mut Paths, id: u64) -> Done;
    pub safe fn vig_paths_fresh(pair: FourTuple, max_datagram_size: u64, limit: u64, factor: u64, server: bool)
        -> PathsDoneOut;
    pub safe fn vig_paths_get(t: &Paths, id: u64) -> PathAnswer;
    pub safe fn vig_paths_get_path_id(t: &Paths, pair: FourTuple) -> Numbered;
    pub safe fn vig_paths_get_active(t: &Paths) -> PathsFoundAnswer;
    pub safe fn vig_paths_insert_path(t: &mut Paths, pair: FourTuple, max_datagram_size: u64) -> Counted;
    pub safe fn vig_paths_len(t: &Paths) -> Counted;
    pub safe fn vig_paths_on_path_chal_received(t: &mut Paths, id: u64, data: u64) -> Done;
    pub safe fn vig_paths_on_path_resp_received(t: &mut Paths, id: u64, data: u64, moment: Moment) -> RespondedAnswer;
    pub safe fn vig_paths_on_path_chal_sent(t: &mut Paths, id: u64, data: u64, size: u64, sent: Moment) -> Done;
    pub safe fn vig_paths_on_path_chal_timeout(t: &mut Paths, moment: Moment) -> Done;
    pub safe fn vig_paths_min_path_chal_timer(t: &Paths) -> Timed;
    pub safe fn vig_paths_inc_anti_ampl_limit(t: &mut Paths, id: u64, length: u64) -> Done;
    pub safe fn vig_paths_dec_anti_ampl_limit(t: &mut Paths, id: u64, length: u64) -> Done;
    pub safe fn vig_paths_cmp_anti_ampl_limit(t: &Paths, id: u64, wish: u64) -> Counted;
    pub safe fn vig_paths_mark_ping(t: &mut Paths, has_pair: bool, pair: FourTuple) -> Done;
    pub safe fn vig_paths_enable_multipath(t: &mut Paths) -> Done;
}

#[cfg(test)]
mod tests {
    /// layout.txt is written from the library's own definitions (tools/face).
    #[test]
    fn layout_is_the_librarys() {
        assert_eq!(super::layout(), include_str!("../layout.txt"));
    }
}
