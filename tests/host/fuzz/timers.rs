use crate::arguments::{Arguments, Hints, NO_HINTS};
use crate::calls;
use crate::ffi::{self, Deadline, Moment, TimerTable};
use crate::form::{self, Conjunct};
use crate::lent::{Call, State};
use crate::random::Random;

impl State for TimerTable {
    const FRESH: &'static str = "vig_timers_fresh";
    const CONJUNCTS: &'static [Conjunct<TimerTable>] = &form::TIMERS;
    const CALLS: &'static [Call<TimerTable>] = calls! { TimerTable:
        3 vig_timers_set(timer, moment);
        0 vig_timers_get(timer);
        1 vig_timers_stop(timer);
        0 vig_timers_next_timeout();
        0 vig_timers_is_expired(timer, moment);
        1 vig_timers_clear();
    };

    fn fresh(_: &mut Arguments) -> (u8, TimerTable) {
        (0, ffi::vig_timers_fresh())
    }

    fn hints(&self, random: &mut Random) -> Hints {
        Hints { moment: random.pick(&self.expires).at, ..NO_HINTS }
    }

    fn damage(&mut self, random: &mut Random) {
        let deadline = &mut self.expires[random.below(9)];
        match random.below(4) {
            0 => deadline.set = !deadline.set,
            1 => *deadline = Deadline { at: Moment { us: random.some() }, set: false },
            2 => *deadline = Deadline { at: Moment { us: 1 << 63 | random.number() }, set: true },
            _ => deadline.at.us = random.number(),
        }
    }
}
