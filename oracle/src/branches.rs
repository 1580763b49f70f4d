//! How often each way through each call was taken. The lists name every way, so that one never taken shows as 0.

use std::fmt::Write;

use crate::record::{Area, Record, CALLS};

/// Stand for no call: how a state was not well formed.
pub const IDS_STATE: u8 = 0xfe;
pub const PATHS_STATE: u8 = 0xff;
/// The same: the calls that a state has lived through since its fresh.
pub const IDS_LIFE: u8 = 0xfc;
pub const PATHS_LIFE: u8 = 0xfd;
/// A long life, in calls that were not answered 1.
pub const LONG_LIFE: u64 = 10_000;

const STATE: &str = "malformed-state";
const ID: &str = "id-too-long id-tail-not-zero";
const TOKEN: &str = "absent-token-not-zero";
const NUMBER: &str = "absent-number-not-zero";
const PAIR: &str =
    "local-kind local-v4-ip local-v4-flow local-v4-scope remote-kind remote-v4-ip remote-v4-flow remote-v4-scope";
const UNKNOWN: &str = "malformed-state unknown-id";
const QUEUE: &str = "on-no-slot on-queued on-queued-again off-none off-one off-several";

/// The ways through a call, in the order of its checks. `moment-too-far`, `id-..`, `local-..` and the like are arguments
/// out of their form.
fn ways(area: Area, name: &str) -> Vec<&'static str> {
    let lists: &[&str] = match (area, name) {
        (Area::Values, "wire_code") => &["number-0 number-1 number-2 number-3 number-4 number-5 number-6 number-7 number-8 other"],
        (Area::Values, "cid_new") => &["empty below-20 exactly-20 cut above-the-area"],
        (Area::Values, "token_matches") => &[
            "absent-not-zero-equal absent-not-zero-differs both-absent one-absent equal several-bytes",
            "byte-0 byte-1 byte-2 byte-3 byte-4 byte-5 byte-6 byte-7 byte-8 byte-9 byte-10 byte-11 byte-12 byte-13 byte-14 byte-15",
        ],

        (Area::Timers, "fresh") => &["accepted"],
        (Area::Timers, "set") => &["timer-above-8 moment-too-far set set-again"],
        (Area::Timers, "stop") => &["timer-above-8 was-set was-not-set"],
        (Area::Timers, "get") => &["timer-above-8 set not-set"],
        (Area::Timers, "next_timeout") => &["none one least-of-several equal-least"],
        (Area::Timers, "is_expired") => &["timer-above-8 moment-too-far not-set deadline-before-now deadline-at-now deadline-after-now"],
        (Area::Timers, "clear") => &["some-set none-set"],

        (Area::Ids, "fresh") => &["limit-0 limit-too-large", ID, TOKEN, "zero-length with-token without-token"],
        (Area::Ids, "set_initial_dcid") => &[ID, TOKEN, NUMBER, STATE, "zero-length first replaces-one replaces-several source-mark-on"],
        (Area::Ids, "set_scid_limit") => &[STATE, "clamped-up clamped-down capacity-raised capacity-kept limit-lowered"],
        (Area::Ids, "get_scid" | "get_dcid") => &[STATE, "absent found"],
        (Area::Ids, "find_scid") => &[ID, STATE, "none found-with-path found-without-path first-of-several"],
        (Area::Ids, "mark_scid_used" | "mark_dcid_used") => &[STATE, "absent was-unused was-used"],
        (Area::Ids, "unused_scids") => &[STATE, "none some"],
        (Area::Ids, "unused_dcids") => &[STATE, "zero-length-none zero-length-some none some"],
        (Area::Ids, "lowest_unused_dcid_seq") => &[STATE, "none first-place later-place zero-length"],
        (Area::Ids, "add_scid") => &[
            ID, TOKEN, NUMBER, STATE,
            "zero-length zero-length-at-last spent limit-no-leave limit-none-left no-token limit-no-token limit-full limit-full-no-slot",
            "no-slot limit-no-slot advertised not-advertised marks-removed",
            "limit-advertised limit-not-advertised limit-marks-removed last-sequence",
        ],
        (Area::Ids, "add_dcid") => &[
            ID, STATE,
            "zero-length repeat-same repeat-same-raising repeat-same-rpt-above repeat-id-differs repeat-seq-differs",
            "repeat-token-differs repeat-token-absent repeat-two-items rpt-above-seq",
            "waits-room waits-full waits-twice waits-over-limit waits-no-slot waits-with-rpt",
            "late-no-slot late-over-limit late-queued late-queue-at-limit",
            "raise-no-slot raise-over-limit-moved raise-over-limit-none-moved raise-full",
            "raise-none-moved raise-moved-unused raise-moved-pairs raise-queue-at-limit",
            "full appended queued-not-late queued-raising",
        ],
        (Area::Ids, "retire_scid") => &[
            ID, STATE,
            "not-issued sole absent absent-beside-sole packet-id none-left kept-path kept-no-path raised-path raised-no-path",
        ],
        (Area::Ids, "mark_scid_to_advertise" | "mark_dcid_to_retire") => &[STATE, QUEUE],
        (Area::Ids, "next_scid_to_advertise" | "next_dcid_to_retire") => &[STATE, "none front"],
        (Area::Ids, "create_new_connection_id_frame") => &[STATE, "absent no-token made made-rpt-above-seq"],
        (Area::Ids, "need_send_cid_control_frames") => &[STATE, "no advertise retire both"],
        (Area::Ids, "zero_length_scid" | "zero_length_dcid") => &[STATE, "yes no"],
        (Area::Ids, "scid_count") => &[STATE, "one several at-capacity"],
        (Area::Ids, "dcid_count") => &[STATE, "none some at-capacity"],
        (Area::Ids, "scid_at" | "dcid_at") => &[STATE, "item past"],
        (Area::Ids, "well_formed") => &["all-zero last-not-below-next next-too-large own-rpt-above-next"],

        (Area::Paths, "fresh") => &[PAIR, "limit-0 limit-too-large server client"],
        (Area::Paths, "insert_path") => &[
            PAIR, STATE,
            "none-unused new-pair takes-listing evicts-listed evicts-unlisting-another evicts-unlisted",
            "evicts-its-own-pair evicts-and-takes-listing evicts-while-later-unused",
        ],
        (Area::Paths, "len") => &[STATE, "below-limit at-limit"],
        (Area::Paths, "get") => &[UNKNOWN, "found"],
        (Area::Paths, "get_path_id") => &[PAIR, STATE, "listed path-not-listed none"],
        (Area::Paths, "get_active") => &[STATE, "none path-0 later-path without-sequence"],
        (Area::Paths, "local_addr" | "remote_addr") => &[UNKNOWN, "v4 v6 v6-mapped v6-scoped"],
        (Area::Paths, "state") => &[UNKNOWN, "failed unknown validating validating-mtu validated"],
        (Area::Paths, "validated" | "path_chal_initiated") => &[UNKNOWN, "yes no"],
        (Area::Paths, "active") => &[UNKNOWN, "flag-off flag-without-sequence yes"],
        (Area::Paths, "need_send_validation_frames") => &[UNKNOWN, "server-below-64 server-at-64 asked received nothing"],
        (Area::Paths, "need_expand_padding_frames") => &[UNKNOWN, "validated credit-below-mds credit-at-mds credit-above-mds client"],
        (Area::Paths, "initiate_path_chal") => &[UNKNOWN, "asked asked-already"],
        (Area::Paths, "pop_recv_chal") => &[UNKNOWN, "empty only first-of-several all-64-stand"],
        (Area::Paths, "on_path_chal_received") => &[UNKNOWN, "room oldest-dropped all-64-stand"],
        (Area::Paths, "on_path_chal_sent") => &[
            "moment-too-far", UNKNOWN,
            "lost-33 deadline-too-far deadline-too-far-full full deadline-at-last lost-32",
            "from-failed from-unknown in-validating in-validating-mtu in-validated",
            "failed-with-challenges unknown-with-challenges all-128-stand",
        ],
        (Area::Paths, "on_path_resp_received") => &[
            "moment-too-far", UNKNOWN,
            "validated unasked-failed unasked-unknown unasked-validating unasked-validating-mtu",
            "unasked-elsewhere unasked-others-stand unasked-some-were-lost unasked-enough-before",
            "one-match-below one-match-single one-match-multipath several-below several-single several-multipath",
            "last-match-smaller now-before-sent size-1199 size-1200 enough-before was-failed others-left",
            "failed-with-challenges unknown-with-challenges some-were-lost sixteen-matches all-128-stand",
        ],
        (Area::Paths, "on_path_chal_timeout") => &[
            "moment-too-far", STATE,
            "nothing-due some-lost some-failed lost-and-failed",
            "deadline-at-now due-behind-front validated-left several-lost-on-a-path lost-32-failed",
            "failed-with-sequence failed-left unknown-left all-128-stand",
        ],
        (Area::Paths, "min_path_chal_timer") => &[STATE, "none one-path several-paths front-not-least of-a-failed-or-unknown-path all-128-stand"],
        (Area::Paths, "inc_anti_ampl_limit") => &[STATE, "client unknown-id verified added product-stops sum-stops"],
        (Area::Paths, "dec_anti_ampl_limit") => &[STATE, "client unknown-id verified subtracted to-zero stops-at-zero"],
        (Area::Paths, "cmp_anti_ampl_limit") => &[STATE, "client unknown-id verified wish-lesser equal allowance-lesser"],
        (Area::Paths, "mark_ping") => &[
            PAIR, "absent-pair-not-zero", STATE,
            "single-none single-with-pair single-without-pair multipath-listed multipath-not-listed multipath-all multipath-all-none",
        ],
        (Area::Paths, "enable_multipath") => &[STATE, "was-off was-on"],
        (Area::Paths, "set_scid_seq" | "set_dcid_seq") => &[NUMBER, UNKNOWN, "present absent far"],
        (Area::Paths, "set_active") => &[UNKNOWN, "on off"],
        (Area::Paths, "mark_verified") => &[UNKNOWN, "first again"],
        (Area::Paths, "well_formed") => &["all-zero lost-above-33 lost-33-with-challenges"],
        (Area::Ids | Area::Paths, "life") => &["calls-100 calls-1000 calls-10000"],
        _ => unreachable!("no branches: {} {name}", area.name()),
    };
    lists.iter().flat_map(|list| list.split_whitespace()).collect()
}

struct Counts {
    call: u8,
    area: Area,
    name: &'static str,
    ways: Vec<(&'static str, u64)>,
}

/// The counts of a run, and where the Rust's refusal is not the one that the documents give for the way taken.
pub struct Tally {
    counts: Vec<Counts>,
    by_call: [usize; 256],
    pub disagreements: Vec<String>,
}

impl Tally {
    pub fn new() -> Self {
        let calls = CALLS.iter().filter(|call| !call.write).map(|call| (call.number, call.area, call.name));
        let states = [
            (IDS_STATE, Area::Ids, "well_formed"),
            (IDS_LIFE, Area::Ids, "life"),
            (PATHS_STATE, Area::Paths, "well_formed"),
            (PATHS_LIFE, Area::Paths, "life"),
        ];
        let counts: Vec<Counts> = calls
            .chain(states)
            .map(|(call, area, name)| Counts {
                call,
                area,
                name,
                ways: ways(area, name).into_iter().map(|way| (way, 0)).collect(),
            })
            .collect();
        let mut by_call = [usize::MAX; 256];
        for (at, entry) in counts.iter().enumerate() {
            by_call[entry.call as usize] = at;
        }
        Tally { counts, by_call, disagreements: Vec::new() }
    }

    /// One more time this way. A way that isn't in the list is an error of the glue.
    pub fn hit(&mut self, call: u8, way: &str) {
        let entry = &mut self.counts[self.by_call[call as usize]];
        match entry.ways.iter_mut().find(|(name, _)| *name == way) {
            Some((_, count)) => *count += 1,
            None => panic!("{} {}: no way `{way}` is listed", entry.area.name(), entry.name),
        }
    }

    /// The same, if it holds.
    pub fn hit_if(&mut self, holds: bool, call: u8, way: &str) {
        if holds {
            self.hit(call, way);
        }
    }

    /// Notes where the Rust gives another refusal than the one foretold for the way.
    pub fn hold(&mut self, record: &Record, way: &str, foretold: u8, given: u8) {
        if foretold != given {
            self.disagreements.push(format!("{}: {way}: {foretold} expected, the Rust gives {given}", record.describe()));
        }
    }

    /// A line for each way through each call of the areas of which a call was made.
    pub fn report(&self) -> String {
        let made = |area| self.counts.iter().any(|entry| entry.area == area && entry.ways.iter().any(|way| way.1 > 0));
        let areas: Vec<Area> = Area::ALL.into_iter().filter(|area| made(*area)).collect();
        let mut text = String::new();
        for entry in self.counts.iter().filter(|entry| areas.contains(&entry.area)) {
            for (way, count) in &entry.ways {
                let _ = writeln!(text, "{} {} {way} {count}", entry.area.name(), entry.name);
            }
        }
        text
    }
}

#[cfg(test)]
mod tests {
    use super::*;

    #[test]
    fn every_call_has_its_ways_and_no_way_stands_twice() {
        for entry in &Tally::new().counts {
            for (place, (way, _)) in entry.ways.iter().enumerate() {
                assert!(entry.ways[..place].iter().all(|(other, _)| other != way), "{} {way}", entry.name);
            }
            assert!(!entry.ways.is_empty(), "{}", entry.name);
        }
    }

    #[test]
    fn another_refusal_than_foretold_is_noted() {
        let (mut tally, record) = (Tally::new(), Record::new(0x41));
        tally.hold(&record, "none-unused", 5, 5);
        assert!(tally.disagreements.is_empty());
        tally.hold(&record, "none-unused", 5, 2);
        assert_eq!(tally.disagreements.len(), 1);
    }

    #[test]
    #[should_panic(expected = "no way `none`")]
    fn a_way_that_is_not_listed_is_an_error() {
        Tally::new().hit(0x41, "none");
    }
}
