use crate::refusal::accepted;
use crate::values::{address_out, split};
use crate::{ffi, FourTuple, Moment, Refusal, Span};
use std::net::SocketAddr;

/// How far the validation of a path has come; a later one is higher.
#[derive(Clone, Copy, Debug, PartialEq, Eq, PartialOrd, Ord, Hash)]
pub enum PathState {
    /// Its challenges went unanswered.
    Failed = 0,
    /// Nothing was sent to validate it.
    Unknown = 1,
    /// A challenge was sent.
    Validating = 2,
    /// A challenge was answered, but none in 1200 bytes or more.
    ValidatingMtu = 3,
    /// It is the peer's, and carries 1200 bytes.
    Validated = 4,
}

/// A challenge that was sent and stands.
#[derive(Clone, Copy, Debug, PartialEq, Eq)]
pub struct SentChallenge {
    /// As in the frame.
    pub data: [u8; 8],
    /// Of the datagram that carried it.
    pub size: usize,
    /// When it was sent.
    pub sent: Moment,
    /// When it counts as lost.
    pub deadline: Moment,
}

/// A path, as it stands: a copy.
#[derive(Clone, Debug, PartialEq, Eq)]
#[non_exhaustive] // hosts read it, and the library makes it
pub struct Path {
    /// Its addresses.
    pub pair: FourTuple,
    /// The source sequence that it uses.
    pub scid_seq: Option<u64>,
    /// The destination sequence that it uses.
    pub dcid_seq: Option<u64>,
    /// The active flag.
    pub active: bool,
    /// How far its validation has come.
    pub state: PathState,
    /// Challenges received and not yet answered, the oldest first: at most 8.
    pub recv_chals: Vec<[u8; 8]>,
    /// Challenges sent that stand, in the order of sending: at most 16.
    pub sent_chals: Vec<SentChallenge>,
    /// A challenge is asked for.
    pub need_send_challenge: bool,
    /// Challenges lost since the last response that matched one.
    pub lost_chal: u64,
    /// The largest datagram whose challenge was answered.
    pub max_challenge_size: usize,
    /// The peer's address is verified.
    pub verified_peer_address: bool,
    /// The peer has challenged our address.
    pub peer_verified_local_address: bool,
    /// The credit.
    pub anti_ampl_limit: usize,
    /// The size that datagrams are padded to.
    pub max_datagram_size: usize,
    /// A ping is asked for.
    pub need_send_ping: bool,
    /// The path is the one that its pair names.
    pub listed: bool,
}

/// What a PATH_RESPONSE did: without a span, nothing.
#[derive(Clone, Debug, PartialEq, Eq)]
pub struct Response {
    /// The path is Validated by it.
    pub validated: bool,
    /// The time that passed since each challenge that it matched.
    pub spans: Vec<Span>,
}

/// The paths of a connection, each with an id: its place, from 0. 5.7 kB.
///
/// RULES.md, "Paths", "Challenges", "Credit", "Pings and multipath" and "Fields a host may set".
///
/// ```
/// use vignorasc::{FourTuple, Moment, Paths, PathState, Refusal};
///
/// # fn main() -> Result<(), Refusal> {
/// let local = "192.0.2.1:443".parse().unwrap();
/// let cable = FourTuple { local, remote: "198.51.100.7:50000".parse().unwrap() };
/// let wireless = FourTuple { local, remote: "203.0.113.9:40000".parse().unwrap() };
/// let mut paths = Paths::fresh(cable, 1200, 4, 3, true)?;
///
/// // 1200 bytes came from a new address: three times as many may go there, and no more.
/// let id = paths.insert_path(wireless, 1200)?;
/// paths.inc_anti_ampl_limit(id, 1200)?;
/// assert_eq!(paths.cmp_anti_ampl_limit(id, 10_000)?, 3600);
///
/// // A challenge in 1200 bytes goes there, and its data comes back.
/// paths.on_path_chal_sent(id, *b"whoareu?", 1200, Moment::from_micros(0))?;
/// paths.dec_anti_ampl_limit(id, 1200)?;
/// let response = paths.on_path_resp_received(id, *b"whoareu?", Moment::from_micros(9_000))?;
/// assert!(response.validated);
/// assert_eq!(response.spans[0].as_micros(), 9_000);
/// assert_eq!(paths.state(id)?, PathState::Validated);
/// assert_eq!(paths.cmp_anti_ampl_limit(id, 10_000)?, 10_000);
/// # Ok(())
/// # }
/// ```
#[derive(Clone, PartialEq, Eq)]
pub struct Paths(ffi::Paths);

impl Paths {
    /// One path, Validated and active, with the id 0. At most `limit` paths, 1 to 8; `factor`: how many bytes a server may send an unverified address for each
    /// that came from it (RFC 9000, 8.1: 3).
    pub fn fresh(pair: FourTuple, max_datagram_size: usize, limit: usize, factor: u64, server: bool) -> Result<Paths, Refusal> {
        let out = ffi::vig_paths_fresh(pair.to_core(), max_datagram_size as u64, limit as u64, factor, server);
        accepted(out.answer.refusal, || Paths(out.paths))
    }

    /// A new path: the answer is its id. At the limit it takes the place of one that isn't in use, and [`Refusal::Done`] says that there is none.
    pub fn insert_path(&mut self, pair: FourTuple, max_datagram_size: usize) -> Result<usize, Refusal> {
        ffi::vig_paths_insert_path(&mut self.0, pair.to_core(), max_datagram_size as u64).size()
    }

    /// How many paths there are. Never none, so there is no `is_empty`.
    #[allow(clippy::len_without_is_empty)]
    pub fn len(&self) -> Result<usize, Refusal> {
        ffi::vig_paths_len(&self.0).size()
    }

    /// The whole path.
    pub fn get(&self, id: usize) -> Result<Path, Refusal> {
        let a = ffi::vig_paths_get(&self.0, id as u64);
        accepted(a.refusal, || path(&a.path))
    }

    /// The id of the path that the pair names.
    pub fn get_path_id(&self, pair: FourTuple) -> Result<Option<usize>, Refusal> {
        ffi::vig_paths_get_path_id(&self.0, pair.to_core()).path()
    }

    /// The first path with the active flag, and its id.
    pub fn get_active(&self) -> Result<(usize, Path), Refusal> {
        let a = ffi::vig_paths_get_active(&self.0);
        accepted(a.refusal, || (a.id as usize, path(&a.path)))
    }

    /// Its local address.
    pub fn local_addr(&self, id: usize) -> Result<SocketAddr, Refusal> {
        let a = ffi::vig_paths_local_addr(&self.0, id as u64);
        accepted(a.refusal, || address_out(a.address))
    }

    /// Its remote address.
    pub fn remote_addr(&self, id: usize) -> Result<SocketAddr, Refusal> {
        let a = ffi::vig_paths_remote_addr(&self.0, id as u64);
        accepted(a.refusal, || address_out(a.address))
    }

    /// How far its validation has come.
    pub fn state(&self, id: usize) -> Result<PathState, Refusal> {
        let a = ffi::vig_paths_state(&self.0, id as u64);
        accepted(a.refusal, || state(a.number))
    }

    /// Whether it is Validated.
    pub fn validated(&self, id: usize) -> Result<bool, Refusal> {
        ffi::vig_paths_validated(&self.0, id as u64).result()
    }

    /// Whether the path has the active flag and a destination sequence.
    pub fn active(&self, id: usize) -> Result<bool, Refusal> {
        ffi::vig_paths_active(&self.0, id as u64).result()
    }

    /// Whether a challenge is asked for.
    pub fn path_chal_initiated(&self, id: usize) -> Result<bool, Refusal> {
        ffi::vig_paths_path_chal_initiated(&self.0, id as u64).result()
    }

    /// Whether a challenge or a response is to be sent, and a server has the credit for it: at least 64, on a verified path too (DIFFERENCES.md, D30).
    pub fn need_send_validation_frames(&self, id: usize) -> Result<bool, Refusal> {
        ffi::vig_paths_need_send_validation_frames(&self.0, id as u64).result()
    }

    /// Whether datagrams on the path are to be padded to its size.
    pub fn need_expand_padding_frames(&self, id: usize) -> Result<bool, Refusal> {
        ffi::vig_paths_need_expand_padding_frames(&self.0, id as u64).result()
    }

    /// A challenge is asked for.
    pub fn initiate_path_chal(&mut self, id: usize) -> Result<(), Refusal> {
        ffi::vig_paths_initiate_path_chal(&mut self.0, id as u64).result()
    }

    /// Takes the oldest challenge received out: its data is to be sent back.
    pub fn pop_recv_chal(&mut self, id: usize) -> Result<Option<[u8; 8]>, Refusal> {
        let data = ffi::vig_paths_pop_recv_chal(&mut self.0, id as u64).result()?;
        Ok(data.map(u64::to_be_bytes))
    }

    /// A PATH_CHALLENGE frame came.
    pub fn on_path_chal_received(&mut self, id: usize, data: [u8; 8]) -> Result<(), Refusal> {
        ffi::vig_paths_on_path_chal_received(&mut self.0, id as u64, u64::from_be_bytes(data)).result()
    }

    /// A PATH_CHALLENGE frame was sent, in a datagram of that size.
    pub fn on_path_chal_sent(&mut self, id: usize, data: [u8; 8], size: usize, sent: Moment) -> Result<(), Refusal> {
        let data = u64::from_be_bytes(data);
        ffi::vig_paths_on_path_chal_sent(&mut self.0, id as u64, data, size as u64, sent.0).result()
    }

    /// A PATH_RESPONSE frame came. On a path that isn't Validated it verifies the peer's address where it matches a challenge among the path's
    /// [`Path::sent_chals`]. One that matches none changes nothing, unlike in tquic (DIFFERENCES.md, D24).
    pub fn on_path_resp_received(&mut self, id: usize, data: [u8; 8], now: Moment) -> Result<Response, Refusal> {
        let a = ffi::vig_paths_on_path_resp_received(&mut self.0, id as u64, u64::from_be_bytes(data), now.0);
        let spans = a.spans.items.into_iter().take(a.spans.count);
        accepted(a.refusal, || Response { validated: a.yes, spans: spans.map(Span).collect() })
    }

    /// Challenges that are due count as lost, on every path that is being validated.
    pub fn on_path_chal_timeout(&mut self, now: Moment) -> Result<(), Refusal> {
        ffi::vig_paths_on_path_chal_timeout(&mut self.0, now.0).result()
    }

    /// When [`Paths::on_path_chal_timeout`] is due next.
    pub fn min_path_chal_timer(&self) -> Result<Option<Moment>, Refusal> {
        ffi::vig_paths_min_path_chal_timer(&self.0).result()
    }

    /// A datagram came on the path: the credit of an unverified one rises by factor x length.
    pub fn inc_anti_ampl_limit(&mut self, id: usize, length: usize) -> Result<(), Refusal> {
        ffi::vig_paths_inc_anti_ampl_limit(&mut self.0, id as u64, length as u64).result()
    }

    /// A datagram was sent on the path: the credit falls by its length.
    pub fn dec_anti_ampl_limit(&mut self, id: usize, length: usize) -> Result<(), Refusal> {
        ffi::vig_paths_dec_anti_ampl_limit(&mut self.0, id as u64, length as u64).result()
    }

    /// How much of the wish may be sent. To be asked before each send.
    pub fn cmp_anti_ampl_limit(&self, id: usize, wish: usize) -> Result<usize, Refusal> {
        ffi::vig_paths_cmp_anti_ampl_limit(&self.0, id as u64, wish as u64).size()
    }

    /// A ping is asked for, on the path with the pair or on those in use.
    pub fn mark_ping(&mut self, pair: Option<FourTuple>) -> Result<(), Refusal> {
        const NOWHERE: ffi::Address = ffi::Address { ip: [0; 16], flow: 0, scope: 0, port: 0, kind: 0 };
        let core = pair.map_or(ffi::FourTuple { local: NOWHERE, remote: NOWHERE }, FourTuple::to_core);
        ffi::vig_paths_mark_ping(&mut self.0, pair.is_some(), core).result()
    }

    /// Multipath is on from here.
    pub fn enable_multipath(&mut self) -> Result<(), Refusal> {
        ffi::vig_paths_enable_multipath(&mut self.0).result()
    }

    /// The source sequence that the path uses, or none.
    pub fn set_scid_seq(&mut self, id: usize, seq: Option<u64>) -> Result<(), Refusal> {
        let (has, seq) = split(seq);
        ffi::vig_paths_set_scid_seq(&mut self.0, id as u64, has, seq).result()
    }

    /// The destination sequence that the path uses, or none.
    pub fn set_dcid_seq(&mut self, id: usize, seq: Option<u64>) -> Result<(), Refusal> {
        let (has, seq) = split(seq);
        ffi::vig_paths_set_dcid_seq(&mut self.0, id as u64, has, seq).result()
    }

    /// The active flag, on or off.
    pub fn set_active(&mut self, id: usize, on: bool) -> Result<(), Refusal> {
        ffi::vig_paths_set_active(&mut self.0, id as u64, on).result()
    }

    /// The peer's address is verified: credit has no more say there.
    pub fn mark_verified(&mut self, id: usize) -> Result<(), Refusal> {
        ffi::vig_paths_mark_verified(&mut self.0, id as u64).result()
    }
}

/// The calls write no rank above 4.
fn state(rank: u64) -> PathState {
    match rank {
        1 => PathState::Unknown,
        2 => PathState::Validating,
        3 => PathState::ValidatingMtu,
        4 => PathState::Validated,
        _ => PathState::Failed,
    }
}

fn path(p: &ffi::Path) -> Path {
    let sent = |c: &ffi::Challenge| SentChallenge {
        data: c.data.to_be_bytes(),
        size: c.size as usize,
        sent: Moment(c.sent),
        deadline: Moment(c.deadline),
    };
    Path {
        pair: FourTuple::of_core(p.pair),
        scid_seq: p.has_scid.then_some(p.scid_seq),
        dcid_seq: p.has_dcid.then_some(p.dcid_seq),
        active: p.active,
        state: state(p.state.into()),
        recv_chals: p.recv_chals.items.iter().take(p.recv_chals.count).map(|data| data.to_be_bytes()).collect(),
        sent_chals: p.sent_chals.items.iter().take(p.sent_chals.count).map(sent).collect(),
        need_send_challenge: p.need_send_challenge,
        lost_chal: p.lost_chal,
        max_challenge_size: p.max_challenge_size as usize,
        verified_peer_address: p.verified_peer_address,
        peer_verified_local_address: p.peer_verified_local_address,
        anti_ampl_limit: p.anti_ampl_limit as usize,
        max_datagram_size: p.max_datagram_size as usize,
        need_send_ping: p.need_send_ping,
        listed: p.listed,
    }
}

impl std::fmt::Debug for Paths {
    fn fmt(&self, f: &mut std::fmt::Formatter<'_>) -> std::fmt::Result {
        f.debug_list().entries((0..).map_while(|id| self.get(id).ok())).finish()
    }
}

#[cfg(test)]
mod tests {
    use super::*;

    fn pair(n: u8) -> FourTuple {
        let local = format!("192.0.2.{n}:{}", 1000 + u16::from(n)).parse().unwrap();
        let remote = std::net::SocketAddrV6::new(std::net::Ipv6Addr::from([n; 16]), 2000, 3000 + u32::from(n), 4000);
        FourTuple { local, remote: remote.into() }
    }

    fn at(us: u64) -> Moment {
        Moment::from_micros(us)
    }

    fn new(n: u8) -> Path {
        Path {
            pair: pair(n),
            scid_seq: None,
            dcid_seq: None,
            active: false,
            state: PathState::Unknown,
            recv_chals: vec![],
            sent_chals: vec![],
            need_send_challenge: false,
            lost_chal: 0,
            max_challenge_size: 0,
            verified_peer_address: false,
            peer_verified_local_address: false,
            anti_ampl_limit: 0,
            max_datagram_size: 1300,
            need_send_ping: false,
            listed: true,
        }
    }

    /// Every field of a path is written by a call and read back, alone, beside a path that stays as it was.
    #[test]
    fn every_field_comes_back() {
        let mut paths = Paths::fresh(pair(0), 1400, 8, 3, true).unwrap();
        let first = Path {
            scid_seq: Some(0),
            dcid_seq: Some(0),
            active: true,
            state: PathState::Validated,
            max_datagram_size: 1400,
            ..new(0)
        };
        assert_eq!(paths.get_active(), Ok((0, first.clone())));
        assert_eq!(paths.insert_path(pair(1), 1300), Ok(1));
        let mut expected = new(1);
        let mut step = |paths: &Paths, change: fn(&mut Path)| {
            change(&mut expected);
            assert_eq!(paths.get(1).as_ref(), Ok(&expected));
            assert_eq!(paths.get(0).as_ref(), Ok(&first));
        };
        step(&paths, |_| ());
        paths.set_scid_seq(1, Some(u64::MAX)).unwrap();
        step(&paths, |p| p.scid_seq = Some(u64::MAX));
        paths.set_dcid_seq(1, Some(9)).unwrap();
        step(&paths, |p| p.dcid_seq = Some(9));
        assert_eq!(paths.active(1), Ok(false));
        paths.set_active(1, true).unwrap();
        step(&paths, |p| p.active = true);
        assert_eq!(paths.active(1), Ok(true));
        paths.inc_anti_ampl_limit(1, 500).unwrap();
        step(&paths, |p| p.anti_ampl_limit = 1500);
        paths.dec_anti_ampl_limit(1, 100).unwrap();
        step(&paths, |p| p.anti_ampl_limit = 1400);
        assert_eq!(paths.cmp_anti_ampl_limit(1, 2000), Ok(1400));
        assert_eq!(paths.need_expand_padding_frames(1), Ok(true));
        paths.initiate_path_chal(1).unwrap();
        step(&paths, |p| p.need_send_challenge = true);
        assert_eq!((paths.path_chal_initiated(1), paths.need_send_validation_frames(1)), (Ok(true), Ok(true)));
        paths.on_path_chal_sent(1, *b"abcdefgh", 1199, at(7)).unwrap();
        step(&paths, |p| {
            p.need_send_challenge = false;
            p.state = PathState::Validating;
            p.sent_chals = vec![SentChallenge { data: *b"abcdefgh", size: 1199, sent: at(7), deadline: at(25_007) }];
        });
        assert_eq!(paths.min_path_chal_timer(), Ok(Some(at(25_007))));
        let unasked = paths.on_path_resp_received(1, *b"abcdefgi", at(8)).unwrap();
        assert_eq!(unasked, Response { validated: false, spans: vec![] });
        step(&paths, |_| ());
        paths.on_path_chal_timeout(at(25_007)).unwrap();
        step(&paths, |p| {
            p.need_send_challenge = true;
            p.lost_chal = 1;
            p.sent_chals.clear();
        });
        paths.on_path_chal_received(1, *b"ijklmnop").unwrap();
        step(&paths, |p| {
            p.recv_chals = vec![*b"ijklmnop"];
            p.peer_verified_local_address = true;
        });
        assert_eq!(paths.pop_recv_chal(1), Ok(Some(*b"ijklmnop")));
        step(&paths, |p| p.recv_chals.clear());
        assert_eq!(paths.pop_recv_chal(1), Ok(None));
        paths.enable_multipath().unwrap();
        paths.mark_ping(Some(pair(1))).unwrap();
        step(&paths, |p| p.need_send_ping = true);
        paths.on_path_chal_sent(1, *b"qrstuvwx", 1100, at(30_000)).unwrap();
        let response = paths.on_path_resp_received(1, *b"qrstuvwx", at(31_000)).unwrap();
        assert_eq!(response, Response { validated: false, spans: vec![Span::from_micros(1000)] });
        step(&paths, |p| {
            p.verified_peer_address = true;
            p.state = PathState::ValidatingMtu;
            p.lost_chal = 0;
            p.max_challenge_size = 1100;
        });
        assert_eq!(paths.insert_path(pair(1), 1300), Ok(2));
        step(&paths, |p| p.listed = false);
        assert_eq!(paths.get_path_id(pair(1)), Ok(Some(2)));
        assert_eq!(paths.get_path_id(pair(5)), Ok(None));
        assert_eq!((paths.local_addr(1), paths.remote_addr(1)), (Ok(pair(1).local), Ok(pair(1).remote)));
        assert_eq!(paths.len(), Ok(3));

        let c = &paths.0;
        assert_eq!((c.count, c.max_paths, c.anti_ampl_factor, c.is_multipath, c.is_server), (3, 8, 3, true, true));
        assert_eq!(path(&c.items[1]), paths.get(1).unwrap());
    }

    /// Every place of every list.
    #[test]
    fn full_lists_come_back() {
        let mut paths = Paths::fresh(pair(0), 1200, 8, 3, false).unwrap();
        for n in 1..8 {
            assert_eq!(paths.insert_path(pair(n), 1200), Ok(n.into()));
        }
        let data = |n: u64| (n * 0x0101_0101_0101_0101).to_be_bytes();
        for n in 1..=16 {
            paths.on_path_chal_received(7, data(n)).unwrap();
            paths.on_path_chal_sent(7, data(9), n as usize, at(n)).unwrap();
        }
        assert_eq!(paths.on_path_chal_sent(7, data(1), 1, at(1)), Err(Refusal::NoSlot));
        let p = paths.get(7).unwrap();
        assert_eq!(p.recv_chals, (9..=16).map(data).collect::<Vec<_>>());
        let sent = |n| SentChallenge { data: data(9), size: n as usize, sent: at(n), deadline: at(25_000 + n) };
        assert_eq!(p.sent_chals, (1..=16).map(sent).collect::<Vec<_>>());
        let spans = paths.on_path_resp_received(7, data(9), at(100)).unwrap().spans;
        assert_eq!(spans, (1..=16).map(|n| Span::from_micros(100 - n)).collect::<Vec<_>>());
    }

    #[test]
    fn refusals() {
        for limit in [0, 9] {
            assert_eq!(Paths::fresh(pair(0), 1200, limit, 3, true), Err(Refusal::Malformed));
        }
        let mut paths = Paths::fresh(pair(0), 1200, 1, 3, true).unwrap();
        let before = paths.clone();
        assert_eq!(paths.insert_path(pair(1), 1200), Err(Refusal::Done));
        assert_eq!(paths.set_active(1, true), Err(Refusal::InternalError));
        assert_eq!(paths.on_path_chal_sent(0, [0; 8], 1200, Moment::MAX), Err(Refusal::FarDeadline));
        assert_eq!(paths, before);
        paths.set_active(0, false).unwrap();
        assert_eq!(paths.mark_ping(None), Err(Refusal::InternalError));
        assert_eq!(paths.get_active(), Err(Refusal::InternalError));
    }
}
