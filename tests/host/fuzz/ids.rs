use crate::arguments::{damage_cid, Arguments, Hints, NO_HINTS};
use crate::calls;
use crate::ffi::{self, Ids, Item, Queue, Table, Token};
use crate::form::{self, Conjunct};
use crate::lent::{Call, State};
use crate::parts::zeros;
use crate::random::Random;

const NO_TOKEN: Token = zeros();
const NO_ITEM: Item = zeros();

impl State for Ids {
    const FRESH: &'static str = "vig_ids_fresh";
    const CONJUNCTS: &'static [Conjunct<Ids>] = &form::IDS;
    // Initial IDs are seldom set, since that empties a table.
    const CALLS: &'static [Call<Ids>] = calls! { Ids:
        1 vig_ids_set_initial_dcid(new_cid, token, has, optional);
        2 vig_ids_set_scid_limit(number);
        0 vig_ids_get_scid(number);
        0 vig_ids_get_dcid(number);
        0 vig_ids_find_scid(cid);
        4 vig_ids_mark_scid_used(number, number);
        4 vig_ids_mark_dcid_used(number, number);
        0 vig_ids_unused_scids();
        0 vig_ids_unused_dcids();
        0 vig_ids_lowest_unused_dcid_seq();
        16 vig_ids_add_scid(new_cid, token, flag, has, optional, flag);
        40 vig_ids_add_dcid(new_cid, new_number, reset_token, retire_prior_to);
        4 vig_ids_retire_scid(number, cid);
        4 vig_ids_mark_scid_to_advertise(number, flag);
        4 vig_ids_mark_dcid_to_retire(number, flag);
        0 vig_ids_next_scid_to_advertise();
        0 vig_ids_next_dcid_to_retire();
        0 vig_ids_create_new_connection_id_frame(number);
        0 vig_ids_need_send_cid_control_frames();
        0 vig_ids_zero_length_scid();
        0 vig_ids_zero_length_dcid();
        0 vig_ids_scid_count();
        0 vig_ids_scid_at(number);
        0 vig_ids_dcid_count();
        0 vig_ids_dcid_at(number);
    };

    fn fresh(a: &mut Arguments) -> (u8, Ids) {
        let out = ffi::vig_ids_fresh(a.destination_limit(), a.new_cid(), a.number(), a.token());
        (out.answer.refusal, out.ids)
    }

    fn hints(&self, random: &mut Random) -> Hints {
        let table = random.pick(&[&self.scids, &self.dcids]);
        let item = random.pick(&table.items[..table.count.clamp(1, 31)]);
        let queue = random.pick(&[&self.scids_to_advertise, &self.dcids_to_retire]);
        let queued = random.pick(&queue.items[..queue.count.clamp(1, 128)]);
        let number = random.pick(&[item.seq, item.seq, item.seq, self.next_scid_seq, self.retire_prior_to, self.largest_peer_retire_prior_to, queued]);
        Hints { number, cid: item.cid, ..NO_HINTS }
    }

    fn damage(&mut self, random: &mut Random) {
        match random.below(12) {
            0 => self.dcid_limit = random.number(),
            1 => self.scid_limit = random.number(),
            2 => self.scid_capacity = random.number() as usize,
            3 => self.next_scid_seq = random.number(),
            4 => self.retire_prior_to = self.next_scid_seq.wrapping_add(random.below(3) as u64),
            5 => self.largest_peer_retire_prior_to = random.number(),
            6 => damage_queue(&mut self.scids_to_advertise, random),
            7 => damage_queue(&mut self.dcids_to_retire, random),
            8 => (self.zero_length_scid, self.zero_length_dcid) = (random.flag(), random.flag()),
            _ if random.flag() => damage_table(&mut self.scids, random),
            _ => damage_table(&mut self.dcids, random),
        }
    }

    /// No frame brings a sequence below the largest Retire Prior To into the table [10]. One that stands there already may stay.
    fn against(call: &str, before: &Ids, after: &Ids) -> Option<&'static str> {
        let live = |table: &Table| table.items.iter().take(table.count).map(|item| item.seq).collect::<Vec<_>>();
        let held = live(&before.dcids);
        let below = live(&after.dcids).iter().any(|seq| !held.contains(seq) && *seq < after.largest_peer_retire_prior_to);
        (call == "vig_ids_add_dcid" && below).then_some("and a retired sequence has come into the table")
    }
}

fn damage_queue(queue: &mut Queue, random: &mut Random) {
    match random.below(3) {
        0 => queue.count = random.number() as usize,
        1 => queue.items[random.below(128)] = random.number(),
        _ => queue.items[127 - random.below(8)] = random.some(),
    }
}

fn damage_table(table: &mut Table, random: &mut Random) {
    let count = table.count.clamp(1, 31);
    let (i, j) = (random.below(count), random.below(count));
    match random.below(10) {
        0 => table.count = random.number() as usize,
        1 => cut(table, random),
        2 => table.items.swap(i, j),
        3 => table.items[i] = table.items[j],
        4 => table.items[i].seq = table.items[j].seq,
        5 => table.items[i].cid = table.items[j].cid,
        6 => damage_item(&mut table.items[30 - random.below(4)], random),
        _ => damage_item(&mut table.items[i], random),
    }
}

/// Some items go, perhaps all; what is left has zeros past it.
fn cut(table: &mut Table, random: &mut Random) {
    table.count = random.below(3).min(table.count);
    table.items[table.count.min(31)..].fill(NO_ITEM);
}

fn damage_item(item: &mut Item, random: &mut Random) {
    match random.below(7) {
        0 => item.seq = random.number(),
        1 => item.token = NO_TOKEN,
        2 => item.token.present = !item.token.present,
        3 => item.token.bytes[random.below(16)] = random.byte(),
        4 => item.path = random.number(),
        5 => item.has_path = !item.has_path,
        _ => damage_cid(&mut item.cid, random),
    }
}
