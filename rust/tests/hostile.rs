//! Whatever a peer or a host gives to the safe calls, none panics, and none finds its state malformed: only a moment can be out of form here.

use std::net::{Ipv6Addr, SocketAddr, SocketAddrV6};
use vignorasc::{ConnectionId, FourTuple, Ids, Moment, Paths, Refusal, ResetToken, Timer, Timers};

const ROUNDS: usize = 20_000;
const NUMBERS: [u64; 12] = [0, 1, 2, 3, 8, 16, 64, 1200, 1 << 62, (1 << 63) - 1, 1 << 63, u64::MAX];

/// SplitMix64.
struct Random(u64);

impl Random {
    fn word(&mut self) -> u64 {
        self.0 = self.0.wrapping_add(0x9e37_79b9_7f4a_7c15);
        let z = (self.0 ^ (self.0 >> 30)).wrapping_mul(0xbf58_476d_1ce4_e5b9);
        let z = (z ^ (z >> 27)).wrapping_mul(0x94d0_49bb_1331_11eb);
        z ^ (z >> 31)
    }

    fn below(&mut self, n: usize) -> usize {
        (self.word() % n as u64) as usize
    }

    fn flag(&mut self) -> bool {
        self.below(2) == 0
    }

    fn number(&mut self) -> u64 {
        let small = self.below(32) as u64;
        [small, small, NUMBERS[self.below(NUMBERS.len())], self.word()][self.below(4)]
    }

    fn size(&mut self) -> usize {
        self.number() as usize
    }

    fn some<T>(&mut self, value: T) -> Option<T> {
        self.flag().then_some(value)
    }

    /// Of up to 30 bytes, which are cut.
    fn cid(&mut self) -> ConnectionId {
        let byte = self.below(8) as u8;
        ConnectionId::new(&vec![byte; self.below(31)])
    }

    fn token(&mut self) -> ResetToken {
        ResetToken([self.below(3) as u8; 16])
    }

    fn address(&mut self) -> SocketAddr {
        let number = self.below(3) as u8;
        if self.flag() {
            return SocketAddr::from(([number; 4], number.into()));
        }
        SocketAddrV6::new(Ipv6Addr::from([number; 16]), 443, self.number() as u32, self.number() as u32).into()
    }

    fn pair(&mut self) -> FourTuple {
        FourTuple { local: self.address(), remote: self.address() }
    }

    fn moment(&mut self) -> Moment {
        Moment::from_micros(self.number())
    }
}

/// The answer of a call that was given this moment: malformed exactly if the moment is.
fn at<T>(moment: Moment, answer: Result<T, Refusal>) -> Result<(), Refusal> {
    assert_eq!(answer.as_ref().err() == Some(&Refusal::Malformed), moment > Moment::MAX);
    Ok(())
}

fn on_timers(timers: &mut Timers, r: &mut Random) -> Result<(), Refusal> {
    let (timer, now) = (Timer::ALL[r.below(9)], r.moment());
    match r.below(5) {
        0 => at(now, timers.set(timer, now)),
        1 => at(now, timers.is_expired(timer, now)),
        2 => timers.stop(timer),
        3 => timers.get(timer).map(drop),
        _ => timers.next_timeout().map(drop),
    }
}

fn on_ids(ids: &mut Ids, r: &mut Random) -> Result<(), Refusal> {
    let (seq, path) = (r.number(), r.size());
    match r.below(14) {
        0 => ids.set_initial_dcid(r.cid(), Some(r.token()), r.some(path)),
        1 => ids.set_scid_limit(seq),
        2 | 3 => ids.add_scid(r.cid(), Some(r.token()), r.flag(), r.some(path), r.flag()).map(drop),
        4 | 5 => ids.add_dcid(r.cid(), seq, r.token(), r.number()).map(drop),
        6 => ids.retire_scid(seq, r.cid()).map(drop),
        7 => ids.mark_scid_used(seq, path),
        8 => ids.mark_dcid_used(seq, path),
        9 => ids.mark_scid_to_advertise(seq, r.flag()),
        10 => ids.mark_dcid_to_retire(seq, r.flag()),
        11 => ids.find_scid(r.cid()).and(ids.scid_at(path)).and(ids.dcid_at(path)).map(drop),
        12 => ids.create_new_connection_id_frame(seq).map(drop),
        _ => ids.get_scid(seq).and(ids.get_dcid(seq)).map(drop),
    }
}

fn on_paths(paths: &mut Paths, r: &mut Random) -> Result<(), Refusal> {
    let (id, number, now) = (r.below(9), r.number(), r.moment());
    let data = number.to_be_bytes();
    match r.below(16) {
        0 => paths.insert_path(r.pair(), r.size()).map(drop),
        1 => paths.get_path_id(r.pair()).map(drop),
        2 => paths.get(r.size()).map(drop),
        3 => paths.on_path_chal_received(id, data),
        4 | 5 => at(now, paths.on_path_chal_sent(id, data, r.size(), now)),
        6 => at(now, paths.on_path_resp_received(id, data, now)),
        7 => at(now, paths.on_path_chal_timeout(now)),
        8 => paths.inc_anti_ampl_limit(id, r.size()),
        9 => paths.dec_anti_ampl_limit(id, r.size()),
        10 => paths.cmp_anti_ampl_limit(id, r.size()).map(drop),
        11 => {
            let pair = r.pair();
            paths.mark_ping(r.some(pair))
        }
        12 => paths.set_scid_seq(id, r.some(number)),
        13 => paths.set_dcid_seq(id, r.some(number)),
        14 => paths.set_active(id, r.flag()),
        _ => paths.pop_recv_chal(id).map(drop),
    }
}

#[test]
fn nothing_panics_and_no_state_is_malformed() {
    let mut r = Random(1);
    let mut timers = Timers::fresh();
    let mut ids = Ids::fresh(16, ConnectionId::new(b"first"), 0, None).unwrap();
    let mut paths = Paths::fresh(r.pair(), 1200, 8, 3, true).unwrap();
    for round in 0..ROUNDS {
        assert_ne!(on_timers(&mut timers, &mut r), Err(Refusal::Malformed));
        assert_ne!(on_ids(&mut ids, &mut r), Err(Refusal::Malformed));
        assert_ne!(on_paths(&mut paths, &mut r), Err(Refusal::Malformed));
        if round % 1000 == 0 {
            assert!(!format!("{timers:?} {ids:?} {paths:?}").is_empty());
        }
    }
}

#[test]
fn states_pass_between_threads() {
    fn check<T: Send + Sync + Clone + 'static>() {}
    check::<(Timers, Ids, Paths)>();
}
