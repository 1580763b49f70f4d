use crate::{ffi, Moment, Refusal};

/// The nine timers of a connection, as tquic has them.
#[derive(Clone, Copy, Debug, PartialEq, Eq, Hash)]
pub enum Timer {
    /// Packets are lost, or a probe is due.
    LossDetection = 0,
    /// An acknowledgement is due.
    Ack = 1,
    /// The pacer allows more.
    Pacer = 2,
    /// The connection was idle too long.
    Idle = 3,
    /// The handshake takes too long.
    Handshake = 4,
    /// The connection is drained.
    Draining = 5,
    /// Old keys are to be discarded.
    KeyDiscard = 6,
    /// A ping is due, so that the connection isn't idle.
    KeepAlive = 7,
    /// A challenge is lost, see [`crate::Paths::min_path_chal_timer`].
    PathChallenge = 8,
}

impl Timer {
    /// All of them, by number.
    pub const ALL: [Timer; 9] = [
        Timer::LossDetection,
        Timer::Ack,
        Timer::Pacer,
        Timer::Idle,
        Timer::Handshake,
        Timer::Draining,
        Timer::KeyDiscard,
        Timer::KeepAlive,
        Timer::PathChallenge,
    ];
}

/// Nine optional deadlines. RULES.md, "Timers".
///
/// ```
/// use vignorasc::{Moment, Refusal, Timer, Timers};
///
/// # fn main() -> Result<(), Refusal> {
/// let mut timers = Timers::fresh();
/// timers.set(Timer::Idle, Moment::from_micros(30_000_000))?;
/// timers.set(Timer::PathChallenge, Moment::from_micros(25_000))?;
/// assert_eq!(timers.next_timeout()?, Some(Moment::from_micros(25_000)));
/// assert!(timers.is_expired(Timer::PathChallenge, Moment::from_micros(25_000))?);
/// timers.stop(Timer::PathChallenge)?;
/// assert_eq!(timers.get(Timer::PathChallenge)?, None);
///
/// // No moment is later than 2^63 - 1.
/// assert_eq!(timers.set(Timer::Ack, Moment::from_micros(u64::MAX)), Err(Refusal::Malformed));
/// # Ok(())
/// # }
/// ```
#[derive(Clone, PartialEq, Eq)]
pub struct Timers(ffi::TimerTable);

impl Timers {
    /// No timer is set.
    #[must_use]
    pub fn fresh() -> Timers {
        Timers(ffi::vig_timers_fresh())
    }

    /// Sets the timer's deadline, whatever it had.
    pub fn set(&mut self, timer: Timer, at: Moment) -> Result<(), Refusal> {
        ffi::vig_timers_set(&mut self.0, timer as u64, at.0).result()
    }

    /// The timer isn't set any more.
    pub fn stop(&mut self, timer: Timer) -> Result<(), Refusal> {
        ffi::vig_timers_stop(&mut self.0, timer as u64).result()
    }

    /// The timer's deadline, if it is set.
    pub fn get(&self, timer: Timer) -> Result<Option<Moment>, Refusal> {
        ffi::vig_timers_get(&self.0, timer as u64).result()
    }

    /// The least deadline that is set.
    pub fn next_timeout(&self) -> Result<Option<Moment>, Refusal> {
        ffi::vig_timers_next_timeout(&self.0).result()
    }

    /// Whether the timer is set, and its deadline is not after `now`.
    pub fn is_expired(&self, timer: Timer, now: Moment) -> Result<bool, Refusal> {
        ffi::vig_timers_is_expired(&self.0, timer as u64, now.0).result()
    }

    /// Every timer is stopped, as a connection does that is closed.
    pub fn clear(&mut self) -> Result<(), Refusal> {
        ffi::vig_timers_clear(&mut self.0).result()
    }
}

impl Default for Timers {
    fn default() -> Timers {
        Timers::fresh()
    }
}

impl std::fmt::Debug for Timers {
    fn fmt(&self, f: &mut std::fmt::Formatter<'_>) -> std::fmt::Result {
        let set = Timer::ALL.iter().filter_map(|&timer| Some((timer, self.get(timer).ok()??)));
        f.debug_map().entries(set).finish()
    }
}

#[cfg(test)]
mod tests {
    use super::*;

    /// Every field of the table is written by a call and read where C has it.
    #[test]
    fn every_deadline_comes_back() {
        let mut timers = Timers::fresh();
        for (i, timer) in Timer::ALL.into_iter().enumerate() {
            timers.set(timer, Moment::from_micros(1 << (7 * i))).unwrap();
        }
        for (i, timer) in Timer::ALL.into_iter().enumerate() {
            let at = Moment::from_micros(1 << (7 * i));
            assert_eq!(timer as usize, i);
            assert_eq!(timers.0.expires[i], ffi::Deadline { at: at.0, set: true });
            assert_eq!(timers.get(timer), Ok(Some(at)));
            assert_eq!(timers.next_timeout(), Ok(Some(at)));
            assert_eq!(timers.is_expired(timer, at), Ok(true));
            timers.stop(timer).unwrap();
            assert_eq!(timers.get(timer), Ok(None));
        }
        assert_eq!(timers, Timers::fresh());
    }

    #[test]
    fn a_refused_call_changes_nothing() {
        let mut timers = Timers::fresh();
        timers.set(Timer::Idle, Moment::MAX).unwrap();
        let before = timers.clone();
        assert_eq!(timers.set(Timer::Idle, Moment::from_micros(1 << 63)), Err(Refusal::Malformed));
        assert_eq!(timers, before);
    }

    #[test]
    fn cleared_is_fresh() {
        let mut timers = Timers::fresh();
        for timer in Timer::ALL {
            timers.set(timer, Moment::MAX).unwrap();
        }
        timers.clear().unwrap();
        assert_eq!(timers, Timers::fresh());

        // A table out of its form is refused and left, as by every call.
        timers.0.expires[0].at.us = 1;
        let before = timers.clone();
        assert_eq!(timers.clear(), Err(Refusal::Malformed));
        assert_eq!(timers, before);
    }
}
