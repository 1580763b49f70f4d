//! One of the three states: its calls, tried on copies of states that grow by calls, most of them damaged.

use crate::arguments::{Arguments, NO_HINTS};
use crate::lent::{Call, Lent, Outcome, State};
use crate::parts::{zeros, Map};
use crate::random::Random;

/// How often a call was made, and how often it answered 1.
#[derive(Clone, Copy, Default)]
pub struct Made {
    pub calls: u64,
    pub ones: u64,
}

impl Made {
    fn count(&mut self, refusal: u8) {
        self.calls += 1;
        self.ones += u64::from(refusal == 1);
    }
}

pub struct Area<S: State> {
    map: Map,
    /// Each trial lends a copy of one of these.
    grown: Vec<Lent<S>>,
    /// The calls by which they grow, each as often as its weight.
    growth: Vec<&'static Call<S>>,
    fresh: Made,
    made: Vec<Made>,
    /// Calls by which the states grew.
    pub growing: u64,
    /// States that were not well formed.
    pub malformed: u64,
    /// By refusal, of the calls that were tried.
    pub answers: [u64; 9],
    /// By conjunct: the states that broke it and no other.
    pub alone: Vec<u64>,
}

impl<S: State> Area<S> {
    const STATES: usize = 32;

    pub fn new(random: &mut Random) -> Result<Area<S>, String> {
        let mut area = Area {
            map: Map::of::<S>(),
            grown: vec![],
            growth: S::CALLS.iter().flat_map(|call| vec![call; call.weight]).collect(),
            fresh: Made::default(),
            made: vec![Made::default(); S::CALLS.len()],
            growing: 0,
            malformed: 0,
            answers: [0; 9],
            alone: vec![0; S::CONJUNCTS.len()],
        };
        for _ in 0..Self::STATES {
            let state = area.fresh(random)?;
            area.grown.push(state);
        }
        Ok(area)
    }

    /// Every call, and how often it was made.
    pub fn made(&self) -> impl Iterator<Item = (&'static str, Made)> + '_ {
        let fresh = [(S::FRESH, self.fresh)];
        fresh.into_iter().chain(S::CALLS.iter().map(|call| call.name).zip(self.made.iter().copied()))
    }

    /// A fresh state, after one that may be refused.
    fn fresh(&mut self, random: &mut Random) -> Result<Lent<S>, String> {
        self.try_fresh(&mut Arguments::any(random, NO_HINTS))?;
        self.try_fresh(&mut Arguments::formed(random, NO_HINTS))
    }

    fn try_fresh(&mut self, arguments: &mut Arguments) -> Result<Lent<S>, String> {
        let (refusal, state) = S::fresh(arguments);
        let lent = Lent::new(state);
        self.fresh.count(refusal);
        match refusal {
            0 if arguments.formed && lent.broken().is_empty() => Ok(lent),
            1 if !arguments.formed && state == zeros() => Ok(lent),
            _ => Err(format!("{}: answered {refusal}; arguments in form: {}", S::FRESH, arguments.formed)),
        }
    }

    /// One of the states, a few calls older.
    fn grow(&mut self, random: &mut Random) -> Result<Lent<S>, String> {
        let at = random.below(Self::STATES);
        if random.one_in(100) {
            self.grown[at] = self.fresh(random)?;
        }
        for _ in 0..4 {
            let call = random.pick(&self.growth);
            let state = self.grown[at].get_mut();
            let hints = state.hints(random);
            let outcome = (call.make)(state, &mut Arguments::formed(random, hints));
            self.growing += 1;
            if outcome.refusal == 1 {
                return Err(format!("{}: answered 1 on a state grown by calls", call.name));
            }
        }
        let mut lent = self.grown[at].clone();
        lent.fill_padding(&self.map, random);
        match lent.broken().as_slice() {
            [] => Ok(lent),
            broken => Err(format!("a state grown by calls breaks {broken:?}")),
        }
    }

    /// Makes a call, by its place in the list, on a state that is damaged or not.
    pub fn trial(&mut self, place: usize, damage: bool, random: &mut Random) -> Result<(), String> {
        if place == 0 {
            self.fresh(random)?;
        }
        let call = &S::CALLS[place];
        let mut lent = self.grow(random)?;
        if damage {
            lent.damage(&self.map, random);
        }
        let before = lent.clone();
        let broken = before.broken();
        let hints = before.get().hints(random);
        let mut arguments = Arguments::any(random, hints);
        let outcome = (call.make)(lent.get_mut(), &mut arguments);
        let formed = broken.is_empty() && arguments.formed;
        verdict(call, &outcome, formed, &before, &lent).map_err(|why| {
            let (name, refusal, in_form) = (call.name, outcome.refusal, arguments.formed);
            format!("{name}: answered {refusal}, {why}; broken: {broken:?}; arguments in form: {in_form}")
        })?;
        self.made[place].count(outcome.refusal);
        self.answers[usize::from(outcome.refusal)] += 1;
        self.malformed += u64::from(!broken.is_empty());
        if let &[alone] = broken.as_slice() {
            self.alone[usize::from(alone) - 1] += 1;
        }
        Ok(())
    }
}

/// RULES.md, "Refusals". `formed`: the state before and all arguments are.
fn verdict<S: State>(
    call: &Call<S>,
    outcome: &Outcome,
    formed: bool,
    before: &Lent<S>,
    after: &Lent<S>,
) -> Result<(), &'static str> {
    let silent = matches!(outcome.refusal, 1 | 5..=8);
    if (outcome.refusal == 1) == formed {
        Err("which isn't what the definition says")
    } else if outcome.refusal > 8 || !outcome.quiet {
        Err("which is no refusal, or says more than one")
    } else if (silent || call.reads()) && after != before {
        Err("and the state has changed")
    } else if formed && !after.broken().is_empty() {
        Err("and the state isn't well formed any more")
    } else {
        S::against(call.name, before.get(), after.get()).map_or(Ok(()), Err)
    }
}
