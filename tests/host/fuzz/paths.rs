use crate::arguments::{damage_pair, Arguments, Hints, NO_HINTS};
use crate::calls;
use crate::ffi::{self, Path, Paths, Sent};
use crate::form::{self, Conjunct};
use crate::lent::{Call, State};
use crate::parts::zeros;
use crate::random::Random;

const NO_PATH: Path = zeros();

impl State for Paths {
    const FRESH: &'static str = "vig_paths_fresh";
    const CONJUNCTS: &'static [Conjunct<Paths>] = &form::PATHS;
    const CALLS: &'static [Call<Paths>] = calls! { Paths:
        8 vig_paths_insert_path(pair, number);
        0 vig_paths_len();
        0 vig_paths_get(id);
        0 vig_paths_get_path_id(pair);
        0 vig_paths_get_active();
        0 vig_paths_local_addr(id);
        0 vig_paths_remote_addr(id);
        0 vig_paths_state(id);
        0 vig_paths_validated(id);
        0 vig_paths_active(id);
        0 vig_paths_path_chal_initiated(id);
        0 vig_paths_need_send_validation_frames(id);
        0 vig_paths_need_expand_padding_frames(id);
        2 vig_paths_initiate_path_chal(id);
        4 vig_paths_pop_recv_chal(id);
        8 vig_paths_on_path_chal_received(id, number);
        16 vig_paths_on_path_chal_sent(id, number, number, moment);
        2 vig_paths_on_path_resp_received(id, number, moment);
        2 vig_paths_on_path_chal_timeout(moment);
        0 vig_paths_min_path_chal_timer();
        2 vig_paths_inc_anti_ampl_limit(id, number);
        2 vig_paths_dec_anti_ampl_limit(id, number);
        0 vig_paths_cmp_anti_ampl_limit(id, number);
        1 vig_paths_mark_ping(has, optional_pair);
        1 vig_paths_enable_multipath();
        4 vig_paths_set_scid_seq(id, has, optional);
        4 vig_paths_set_dcid_seq(id, has, optional);
        2 vig_paths_set_active(id, flag);
        1 vig_paths_mark_verified(id);
    };

    fn fresh(a: &mut Arguments) -> (u8, Paths) {
        let out = ffi::vig_paths_fresh(a.pair(), a.number(), a.path_limit(), a.number(), a.flag());
        (out.answer.refusal, out.paths)
    }

    fn hints(&self, random: &mut Random) -> Hints {
        let id = random.below(self.count.clamp(1, 8));
        let path = &self.items[id];
        let challenge = random.pick(&path.sent_chals.items[..path.sent_chals.count.clamp(1, 16)]);
        let moment = random.pick(&[challenge.sent, challenge.deadline]);
        let number = random.pick(&[challenge.data, path.dcid_seq, path.max_challenge_size, path.anti_ampl_limit]);
        Hints { id: id as u64, number, pair: path.pair, moment, ..NO_HINTS }
    }

    fn damage(&mut self, random: &mut Random) {
        let count = self.count.clamp(1, 8);
        let (i, j) = (random.below(count), random.below(count));
        match random.below(16) {
            0 => self.max_paths = random.number(),
            1 => self.max_paths = random.below(10) as u64,
            2 => self.count = random.number() as usize,
            3 => self.anti_ampl_factor = random.number(),
            4 => (self.is_multipath, self.is_server) = (random.flag(), random.flag()),
            5 => cut(self, random),
            6 => self.items.swap(i, j),
            7 => self.items[i] = self.items[j],
            8 => (self.items[i].pair, self.items[i].listed) = (self.items[j].pair, true),
            9 => damage_path(&mut self.items[7 - random.below(2)], random),
            _ => damage_path(&mut self.items[i], random),
        }
    }

    /// "Challenges": a response takes challenges out of one path's own list and verifies its address, or changes nothing [2]. No
    /// other call but the mark verifies one.
    fn against(call: &str, before: &Paths, after: &Paths) -> Option<&'static str> {
        let changed: Vec<_> = before.items.iter().zip(&after.items).filter(|(old, new)| old != new).collect();
        let answered = |(old, new): &(&Path, &Path)| new.sent_chals.count < old.sent_chals.count && new.verified_peer_address;
        let verified = changed.iter().any(|(old, new)| new.verified_peer_address && !old.verified_peer_address);
        match call {
            "vig_paths_mark_verified" => None,
            "vig_paths_on_path_resp_received" => {
                let asked = changed.len() == 1 && changed.iter().all(answered);
                (before != after && !asked).then_some("and a response that nobody asked for has changed the state")
            }
            _ => verified.then_some("and an address is verified by it"),
        }
    }
}

/// Some paths go, perhaps all; what is left has zeros past it.
fn cut(paths: &mut Paths, random: &mut Random) {
    paths.count = random.below(3).min(paths.count);
    paths.items[paths.count.min(8)..].fill(NO_PATH);
}

fn damage_path(path: &mut Path, random: &mut Random) {
    match random.below(12) {
        0 => path.scid_seq = random.number(),
        1 => path.dcid_seq = random.number(),
        2 => (path.has_scid, path.has_dcid) = (random.flag(), random.flag()),
        3 => path.recv_chals.count = random.number() as usize,
        4 => path.recv_chals.items[random.below(8)] = random.number(),
        5 => path.sent_chals.count = random.number() as usize,
        6 => path.lost_chal = random.pick(&[32, 33, 34, u64::MAX]),
        7 => path.state = random.pick(&[0, 1, 2, 3, 4, 5, 255]),
        8 => path.listed = !path.listed,
        9 => damage_pair(&mut path.pair, random),
        10 => (path.lost_chal, path.sent_chals) = (33, NO_PATH.sent_chals),
        _ => damage_sent(&mut path.sent_chals, random),
    }
}

fn damage_sent(sent: &mut Sent, random: &mut Random) {
    let slots = if random.flag() { 16 } else { sent.count.clamp(1, 16) };
    let challenge = &mut sent.items[random.below(slots)];
    let moment = if random.flag() { &mut challenge.sent.us } else { &mut challenge.deadline.us };
    match random.below(4) {
        0 => challenge.data = random.number(),
        1 => challenge.size = random.number(),
        2 => *moment = random.number(),
        _ => *moment |= 1 << 63,
    }
}
