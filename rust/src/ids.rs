use crate::refusal::accepted;
use crate::values::{split, token_in, token_out};
use crate::{ffi, ConnectionId, Refusal, ResetToken};

/// A connection ID with its sequence, its reset token, and the path that uses it.
#[derive(Clone, Copy, Debug, PartialEq, Eq)]
pub struct Item {
    /// The sequence number.
    pub seq: u64,
    /// The ID.
    pub cid: ConnectionId,
    /// Every item but that with sequence 0 has one.
    pub token: Option<ResetToken>,
    /// The id of the path.
    pub path: Option<usize>,
}

/// What a NEW_CONNECTION_ID frame says (RFC 9000, 19.15).
#[derive(Clone, Copy, Debug, PartialEq, Eq)]
pub struct NewConnectionIdFrame {
    /// Sequence Number.
    pub seq: u64,
    /// Retire Prior To.
    pub retire_prior_to: u64,
    /// Connection ID, whose length goes before it.
    pub cid: ConnectionId,
    /// Stateless Reset Token.
    pub token: ResetToken,
}

/// The connection IDs of a connection: those that this endpoint gave its peer (source) and those that the peer gave it (destination). 5.6 kB.
///
/// RULES.md, "Source IDs", "Destination IDs" and "Marks, queues and lookups".
///
/// ```
/// use vignorasc::{ConnectionId, Ids, Refusal, ResetToken};
///
/// # fn main() -> Result<(), Refusal> {
/// let mut ids = Ids::fresh(2, ConnectionId::new(b"mine"), 0, None)?;
/// ids.set_initial_dcid(ConnectionId::new(b"theirs"), None, Some(0))?;
///
/// // The peer's next ID asks to retire the first, which path 0 uses.
/// let retired = ids.add_dcid(ConnectionId::new(b"theirs too"), 1, ResetToken([1; 16]), 1)?;
/// assert_eq!(retired, [(0, 0)]);
/// assert_eq!(ids.next_dcid_to_retire()?, Some(0));
/// assert_eq!(ids.lowest_unused_dcid_seq()?, Some(1));
/// # Ok(())
/// # }
/// ```
#[derive(Clone, PartialEq, Eq)]
pub struct Ids(ffi::Ids);

impl Ids {
    /// One source ID, with sequence 0, on its path. At most `dcid_limit` destination IDs are to be stored.
    pub fn fresh(dcid_limit: u64, cid: ConnectionId, path: usize, token: Option<ResetToken>) -> Result<Ids, Refusal> {
        let out = ffi::vig_ids_fresh(dcid_limit, cid.0, path as u64, token_in(token));
        accepted(out.answer.refusal, || Ids(out.ids))
    }

    /// The destination table holds the ID alone, with sequence 0.
    pub fn set_initial_dcid(
        &mut self,
        cid: ConnectionId,
        token: Option<ResetToken>,
        path: Option<usize>,
    ) -> Result<(), Refusal> {
        let (has, path) = split(path.map(|id| id as u64));
        ffi::vig_ids_set_initial_dcid(&mut self.0, cid.0, token_in(token), has, path).result()
    }

    /// The most source IDs that the peer allows, clamped to 2..=16.
    pub fn set_scid_limit(&mut self, limit: u64) -> Result<(), Refusal> {
        ffi::vig_ids_set_scid_limit(&mut self.0, limit).result()
    }

    /// The source item with the sequence.
    pub fn get_scid(&self, seq: u64) -> Result<Item, Refusal> {
        let a = ffi::vig_ids_get_scid(&self.0, seq);
        accepted(a.refusal, || item(a.item))
    }

    /// The destination item with the sequence.
    pub fn get_dcid(&self, seq: u64) -> Result<Item, Refusal> {
        let a = ffi::vig_ids_get_dcid(&self.0, seq);
        accepted(a.refusal, || item(a.item))
    }

    /// The sequence and the path of the first source item with the ID.
    pub fn find_scid(&self, cid: ConnectionId) -> Result<Option<(u64, Option<usize>)>, Refusal> {
        let a = ffi::vig_ids_find_scid(&self.0, cid.0);
        accepted(a.refusal, || a.present.then_some((a.seq, a.has_path.then_some(a.path as usize))))
    }

    /// The path uses the source item.
    pub fn mark_scid_used(&mut self, seq: u64, path: usize) -> Result<(), Refusal> {
        ffi::vig_ids_mark_scid_used(&mut self.0, seq, path as u64).result()
    }

    /// The path uses the destination item.
    pub fn mark_dcid_used(&mut self, seq: u64, path: usize) -> Result<(), Refusal> {
        ffi::vig_ids_mark_dcid_used(&mut self.0, seq, path as u64).result()
    }

    /// How many source IDs no path uses.
    pub fn unused_scids(&self) -> Result<usize, Refusal> {
        ffi::vig_ids_unused_scids(&self.0).size()
    }

    /// How many destination IDs no path uses: none where they have zero length.
    pub fn unused_dcids(&self) -> Result<usize, Refusal> {
        ffi::vig_ids_unused_dcids(&self.0).size()
    }

    /// The lowest destination sequence that no path uses.
    pub fn lowest_unused_dcid_seq(&self) -> Result<Option<u64>, Refusal> {
        ffi::vig_ids_lowest_unused_dcid_seq(&self.0).result()
    }

    /// A new source ID: the answer is its sequence. `retire_if_needed`: where the peer's limit is reached, older ones may be retired.
    pub fn add_scid(
        &mut self,
        cid: ConnectionId,
        token: Option<ResetToken>,
        advertise: bool,
        path: Option<usize>,
        retire_if_needed: bool,
    ) -> Result<u64, Refusal> {
        let (has, path) = split(path.map(|id| id as u64));
        ffi::vig_ids_add_scid(&mut self.0, cid.0, token_in(token), advertise, has, path, retire_if_needed).result()
    }

    /// A NEW_CONNECTION_ID frame came: the answer is the sequence and the path of each ID in use that it retired. They are queued to be retired,
    /// see [`Ids::next_dcid_to_retire`]. A frame below an earlier Retire Prior To gives no ID: its sequence is queued too or, where it waits there already,
    /// nothing changes.
    pub fn add_dcid(
        &mut self,
        cid: ConnectionId,
        seq: u64,
        token: ResetToken,
        retire_prior_to: u64,
    ) -> Result<Vec<(u64, usize)>, Refusal> {
        let token = ffi::ResetToken { bytes: token.0 };
        let a = ffi::vig_ids_add_dcid(&mut self.0, cid.0, seq, token, retire_prior_to);
        accepted(a.refusal, || a.used.pairs.iter().take(a.used.count).map(|used| (used.seq, used.path as usize)).collect())
    }

    /// A RETIRE_CONNECTION_ID frame came, in a packet sent to the ID `packet`: the answer is the path that used the ID.
    pub fn retire_scid(&mut self, seq: u64, packet: ConnectionId) -> Result<Option<usize>, Refusal> {
        ffi::vig_ids_retire_scid(&mut self.0, seq, packet.0).path()
    }

    /// The source sequence is to be announced, or no longer.
    pub fn mark_scid_to_advertise(&mut self, seq: u64, on: bool) -> Result<(), Refusal> {
        ffi::vig_ids_mark_scid_to_advertise(&mut self.0, seq, on).result()
    }

    /// The destination sequence is to be retired, or no longer.
    pub fn mark_dcid_to_retire(&mut self, seq: u64, on: bool) -> Result<(), Refusal> {
        ffi::vig_ids_mark_dcid_to_retire(&mut self.0, seq, on).result()
    }

    /// The source sequence that is to be announced next; it stays in the queue until it is unmarked.
    pub fn next_scid_to_advertise(&self) -> Result<Option<u64>, Refusal> {
        ffi::vig_ids_next_scid_to_advertise(&self.0).result()
    }

    /// The destination sequence that is to be retired next; it stays in the queue until it is unmarked.
    pub fn next_dcid_to_retire(&self) -> Result<Option<u64>, Refusal> {
        ffi::vig_ids_next_dcid_to_retire(&self.0).result()
    }

    /// The frame that announces the source ID.
    pub fn create_new_connection_id_frame(&self, seq: u64) -> Result<NewConnectionIdFrame, Refusal> {
        let a = ffi::vig_ids_create_new_connection_id_frame(&self.0, seq);
        accepted(a.refusal, || NewConnectionIdFrame {
            seq: a.seq,
            retire_prior_to: a.retire_prior_to,
            cid: ConnectionId(a.cid),
            token: ResetToken(a.token.bytes),
        })
    }

    /// Whether something is to be announced or retired.
    pub fn need_send_cid_control_frames(&self) -> Result<bool, Refusal> {
        ffi::vig_ids_need_send_cid_control_frames(&self.0).result()
    }

    /// Whether our first source ID was empty.
    pub fn zero_length_scid(&self) -> Result<bool, Refusal> {
        ffi::vig_ids_zero_length_scid(&self.0).result()
    }

    /// Whether the first destination ID was empty.
    pub fn zero_length_dcid(&self) -> Result<bool, Refusal> {
        ffi::vig_ids_zero_length_dcid(&self.0).result()
    }

    /// How many source IDs there are.
    pub fn scid_count(&self) -> Result<usize, Refusal> {
        ffi::vig_ids_scid_count(&self.0).size()
    }

    /// The source item at a place, from 0, or none.
    pub fn scid_at(&self, place: usize) -> Result<Option<Item>, Refusal> {
        let a = ffi::vig_ids_scid_at(&self.0, place as u64);
        accepted(a.refusal, || a.present.then(|| item(a.item)))
    }

    /// How many destination IDs there are.
    pub fn dcid_count(&self) -> Result<usize, Refusal> {
        ffi::vig_ids_dcid_count(&self.0).size()
    }

    /// The destination item at a place, from 0, or none.
    pub fn dcid_at(&self, place: usize) -> Result<Option<Item>, Refusal> {
        let a = ffi::vig_ids_dcid_at(&self.0, place as u64);
        accepted(a.refusal, || a.present.then(|| item(a.item)))
    }

    /// The source items in table order, as tquic's iterator gives them.
    pub fn scids(&self) -> impl Iterator<Item = Item> + '_ {
        (0..).map_while(|place| self.scid_at(place).ok().flatten())
    }

    /// The destination items in table order.
    pub fn dcids(&self) -> impl Iterator<Item = Item> + '_ {
        (0..).map_while(|place| self.dcid_at(place).ok().flatten())
    }
}

fn item(i: ffi::Item) -> Item {
    Item { seq: i.seq, cid: ConnectionId(i.cid), token: token_out(i.token), path: i.has_path.then_some(i.path as usize) }
}

impl std::fmt::Debug for Ids {
    fn fmt(&self, f: &mut std::fmt::Formatter<'_>) -> std::fmt::Result {
        let (source, destination): (Vec<_>, Vec<_>) = (self.scids().collect(), self.dcids().collect());
        f.debug_struct("Ids").field("source", &source).field("destination", &destination).finish_non_exhaustive()
    }
}

#[cfg(test)]
mod tests {
    use super::*;

    fn cid(n: u8) -> ConnectionId {
        ConnectionId::new(&(n..n + 20).collect::<Vec<u8>>()[..usize::from(n) % 21])
    }

    fn token(n: u8) -> ResetToken {
        ResetToken(std::array::from_fn(|i| n + i as u8))
    }

    /// Both tables filled to the limit, with every field of every item different, and read back by calls and where C has them.
    #[test]
    fn every_item_comes_back() {
        let mut ids = Ids::fresh(16, cid(1), 100, Some(token(1))).unwrap();
        ids.set_initial_dcid(cid(41), Some(token(41)), Some(200)).unwrap();
        ids.set_scid_limit(16).unwrap();
        for n in 1..16 {
            let path = (n % 3 != 0).then_some(100 + usize::from(n));
            assert_eq!(ids.add_scid(cid(n + 1), Some(token(n + 1)), n % 2 == 0, path, false), Ok(n.into()));
            assert_eq!(ids.add_dcid(cid(n + 41), 1 << n, token(n + 41), 0), Ok(vec![]));
            if n % 2 == 0 {
                ids.mark_dcid_used(1 << n, 200 + usize::from(n)).unwrap();
            }
        }
        assert_eq!((ids.scid_count(), ids.dcid_count()), (Ok(16), Ok(16)));
        assert_eq!((ids.unused_scids(), ids.unused_dcids()), (Ok(5), Ok(8)));
        for n in 0..16u8 {
            let place = usize::from(n);
            let path = (n % 3 != 0 || n == 0).then_some(100 + place);
            let source = Item { seq: n.into(), cid: cid(n + 1), token: Some(token(n + 1)), path };
            assert_eq!(ids.scid_at(place), Ok(Some(source)));
            assert_eq!(ids.get_scid(n.into()), Ok(source));
            assert_eq!(item(ids.0.scids.items[place]), source);

            let seq = if n == 0 { 0 } else { 1 << n };
            let path = (n % 2 == 0).then_some(200 + place);
            let destination = Item { seq, cid: cid(n + 41), token: Some(token(n + 41)), path };
            assert_eq!(ids.dcid_at(place), Ok(Some(destination)));
            assert_eq!(ids.get_dcid(seq), Ok(destination));
            assert_eq!(item(ids.0.dcids.items[place]), destination);
        }
        assert_eq!((ids.scid_at(16), ids.dcid_at(16)), (Ok(None), Ok(None)));
        assert_eq!((ids.scids().count(), ids.dcids().count()), (16, 16));
        assert_eq!(ids.find_scid(cid(3)), Ok(Some((2, Some(102)))));
        assert_eq!(ids.find_scid(cid(4)), Ok(Some((3, None))));
        assert_eq!(ids.find_scid(cid(77)), Ok(None));
        assert_eq!(ids.lowest_unused_dcid_seq(), Ok(Some(2)));

        let c = &ids.0;
        assert_eq!((c.scids.count, c.dcids.count, c.scid_capacity), (16, 16, 31));
        assert_eq!((c.dcid_limit, c.scid_limit, c.next_scid_seq, c.retire_prior_to, c.largest_peer_retire_prior_to), (16, 16, 16, 0, 0));
        assert_eq!((c.zero_length_scid, c.zero_length_dcid), (false, false));
        assert_eq!(c.scids_to_advertise.items[..c.scids_to_advertise.count], [2, 4, 6, 8, 10, 12, 14]);
        assert_eq!(c.dcids_to_retire.count, 0);
    }

    #[test]
    fn what_a_frame_retires_comes_back() {
        let mut ids = Ids::fresh(16, cid(1), 0, None).unwrap();
        ids.set_initial_dcid(cid(41), None, Some(7)).unwrap();
        for n in 1..16 {
            ids.add_dcid(cid(n + 41), n.into(), token(n), 0).unwrap();
            ids.mark_dcid_used(n.into(), 7 + usize::from(n)).unwrap();
        }
        let retired = ids.add_dcid(cid(60), 40, token(60), 12).unwrap();
        assert_eq!(retired, (0..12).map(|n| (n, 7 + n as usize)).collect::<Vec<_>>());
        assert_eq!((ids.0.largest_peer_retire_prior_to, ids.0.dcids_to_retire.count, ids.0.dcids_to_retire.items[11]), (12, 12, 11));
        for n in 0..12 {
            assert_eq!(ids.next_dcid_to_retire(), Ok(Some(n)));
            ids.mark_dcid_to_retire(n, false).unwrap();
        }
        assert_eq!(ids.need_send_cid_control_frames(), Ok(false));
    }

    /// The frame of a retired sequence, received again: while it waits, after its RETIRE_CONNECTION_ID went out, with another ID, and with the table full.
    #[test]
    fn what_is_retired_stays_out() {
        let mut ids = Ids::fresh(1, cid(1), 0, None).unwrap();
        ids.set_initial_dcid(cid(41), None, Some(7)).unwrap();
        assert_eq!(ids.add_dcid(cid(42), 1, token(42), 1), Ok(vec![(0, 7)]));
        let waits = ids.clone();
        for (n, seq) in [(41, 0), (49, 0)] {
            assert_eq!(ids.add_dcid(cid(n), seq, token(n), 0), Ok(vec![]));
            assert_eq!(ids, waits);
        }
        ids.mark_dcid_to_retire(0, false).unwrap();
        assert_eq!(ids.add_dcid(cid(41), 0, token(41), 0), Ok(vec![]));
        assert_eq!(ids, waits);
        assert_eq!(ids.dcids().map(|item| item.seq).collect::<Vec<_>>(), [1]);
        // One that is not below is a new ID, whatever waits.
        ids.mark_dcid_to_retire(9, true).unwrap();
        assert_eq!(ids.add_dcid(cid(43), 9, token(43), 9), Ok(vec![]));
        assert_eq!(ids.dcids().map(|item| item.seq).collect::<Vec<_>>(), [9]);
        assert_eq!(ids.0.dcids_to_retire.items[..3], [0, 9, 1]);
    }

    #[test]
    fn a_frame_comes_back() {
        let mut ids = Ids::fresh(2, cid(1), 0, None).unwrap();
        ids.add_scid(cid(9), Some(token(9)), true, None, false).unwrap();
        assert_eq!(ids.add_scid(cid(10), Some(token(10)), true, Some(3), true), Ok(2));
        let frame = NewConnectionIdFrame { seq: 2, retire_prior_to: 1, cid: cid(10), token: token(10) };
        assert_eq!(ids.create_new_connection_id_frame(2), Ok(frame));
        assert_eq!(ids.create_new_connection_id_frame(0), Err(Refusal::InternalError));
        assert_eq!(ids.next_scid_to_advertise(), Ok(Some(1)));
        ids.mark_scid_to_advertise(1, false).unwrap();
        assert_eq!(ids.next_scid_to_advertise(), Ok(Some(2)));
        assert_eq!(ids.retire_scid(0, cid(9)), Ok(Some(0)));
        assert_eq!(ids.retire_scid(1, cid(10)), Ok(None));
        assert_eq!((ids.0.retire_prior_to, ids.0.next_scid_seq), (2, 3));
        // The only one left, then one that was never issued.
        assert_eq!(ids.retire_scid(2, cid(9)), Err(Refusal::InternalError));
        assert_eq!(ids.retire_scid(3, cid(9)), Err(Refusal::ProtocolViolation));
    }

    #[test]
    fn empty_ids_are_marked() {
        let mut ids = Ids::fresh(2, ConnectionId::empty(), 0, None).unwrap();
        ids.set_initial_dcid(ConnectionId::empty(), None, None).unwrap();
        assert_eq!((ids.zero_length_scid(), ids.zero_length_dcid()), (Ok(true), Ok(true)));
        assert_eq!(ids.add_scid(cid(1), Some(token(1)), true, None, true), Err(Refusal::InternalError));
        assert_eq!(ids.add_dcid(cid(1), 1, token(1), 0), Err(Refusal::ProtocolViolation));
    }

    /// Every refusal that is no matter of form, but for those of the paths.
    #[test]
    fn refusals() {
        for limit in [0, 17] {
            assert_eq!(Ids::fresh(limit, cid(1), 0, None), Err(Refusal::Malformed));
        }
        let mut ids = Ids::fresh(1, cid(1), 0, None).unwrap();
        for seq in 0..128 {
            ids.mark_dcid_to_retire(seq, true).unwrap();
        }
        let before = ids.clone();
        assert_eq!(ids.mark_dcid_to_retire(128, true), Err(Refusal::NoSlot));
        assert_eq!(ids, before);
        ids.0.next_scid_seq = 1 << 62;
        assert_eq!(ids.add_scid(cid(2), Some(token(2)), false, None, false), Err(Refusal::Spent));
        // Only this module can write a field.
        ids.0.dcid_limit = 0;
        assert_eq!(ids.scid_count(), Err(Refusal::Malformed));
    }
}
