//! A state as bytes, which a host can damage and lends to a call.

use crate::arguments::{Arguments, Hints};
use crate::ffi;
use crate::form::Conjunct;
use crate::parts::{zeros, Map, Parts};
use crate::random::Random;
use std::marker::PhantomData;
use std::mem::size_of;

/// One of the library's three states.
pub trait State: Copy + PartialEq + Parts + 'static {
    const FRESH: &'static str;
    const CALLS: &'static [Call<Self>];
    const CONJUNCTS: &'static [Conjunct<Self>];

    /// The refusal, and the state.
    fn fresh(arguments: &mut Arguments) -> (u8, Self);

    fn hints(&self, random: &mut Random) -> Hints;

    /// Changes a field or some, in a way that is made to break a conjunct.
    fn damage(&mut self, random: &mut Random);

    /// What a call that was accepted did against a rule of RULES.md that is read again here.
    fn against(_call: &str, _before: &Self, _after: &Self) -> Option<&'static str> {
        None
    }
}

pub struct Call<S> {
    pub name: &'static str,
    /// How often it is made while states grow, against the others; 0 where it only reads.
    pub weight: usize,
    pub make: fn(&mut S, &mut Arguments) -> Outcome,
}

impl<S> Call<S> {
    pub fn reads(&self) -> bool {
        self.weight == 0
    }
}

/// A list of calls: the weight, the function, and of each argument after the state the way to make it.
#[macro_export]
macro_rules! calls {
    ($state:ty: $($weight:literal $name:ident($($argument:ident),*);)*) => {
        &[$($crate::lent::Call {
            name: stringify!($name),
            weight: $weight,
            make: |state: &mut $state, _arguments: &mut $crate::arguments::Arguments| {
                $crate::lent::Answer::outcome($crate::ffi::$name(state, $(_arguments.$argument()),*))
            },
        }),*]
    };
}

pub struct Outcome {
    pub refusal: u8,
    /// Accepted, or every other field of the answer is zero.
    pub quiet: bool,
}

pub trait Answer: PartialEq + Sized {
    fn outcome(self) -> Outcome;
}

macro_rules! answers {
    ($($name:ident)*) => {
        $(impl Answer for ffi::$name {
            fn outcome(self) -> Outcome {
                let refused = ffi::$name { refusal: self.refusal, ..zeros() };
                Outcome { refusal: self.refusal, quiet: self.refusal == 0 || self == refused }
            }
        })*
    };
}

answers! {
    Done Flagged Counted Numbered Timed ItemAnswer IdsFoundAnswer FrameAnswer RetiredAnswer PathAnswer PathsFoundAnswer AddressAnswer RespondedAnswer
}

/// Two of these are equal when all their bytes are, those between the fields too.
#[derive(Clone, PartialEq)]
pub struct Lent<S> {
    /// Words, since a state is aligned to 8.
    words: Vec<u64>,
    state: PhantomData<S>,
}

impl<S: State> Lent<S> {
    pub fn new(state: S) -> Lent<S> {
        let mut lent = Lent { words: vec![0; size_of::<S>() / 8], state: PhantomData };
        *lent.get_mut() = state;
        lent
    }

    pub fn get(&self) -> &S {
        // SAFETY: as many bytes as a state has, aligned; every number is any, and every bool is 0 or 1, since damage leaves no other.
        unsafe { &*self.words.as_ptr().cast() }
    }

    pub fn get_mut(&mut self) -> &mut S {
        // SAFETY: as above.
        unsafe { &mut *self.words.as_mut_ptr().cast() }
    }

    pub fn broken(&self) -> Vec<u8> {
        let broken = S::CONJUNCTS.iter().filter(|(_, holds)| !holds(self.get()));
        broken.map(|(number, _)| *number).collect()
    }

    fn set_byte(&mut self, at: usize, byte: u8) {
        let shift = 8 * (at % 8);
        let word = &mut self.words[at / 8];
        *word = *word & !(0xff << shift) | u64::from(byte) << shift;
    }

    /// The bytes between the fields are what they happen to be, after each copy of a struct. Any will do, but the same at every run.
    pub fn fill_padding(&mut self, map: &Map, random: &mut Random) {
        map.padding.iter().for_each(|&at| self.set_byte(at, random.byte()));
    }

    /// Mostly one change, so that a conjunct is often broken alone.
    pub fn damage(&mut self, map: &Map, random: &mut Random) {
        loop {
            if random.one_in(3) {
                self.damage_bytes(random);
                self.mend_flags(map);
            } else {
                self.get_mut().damage(random);
                self.fill_padding(map, random);
            }
            if !random.one_in(3) {
                break;
            }
        }
    }

    fn damage_bytes(&mut self, random: &mut Random) {
        let at = random.below(self.words.len());
        let other = random.below(self.words.len());
        match random.below(6) {
            0 => self.words[at] ^= 1 << random.below(64),
            1 => self.words[at] ^= u64::from(random.byte()) << (8 * random.below(8)),
            2 => self.words[at] = random.number(),
            3 => self.words[at] = self.words[other],
            4 => self.words.swap(at, other),
            _ => {
                let length = random.below(self.words.len() - at.max(other)).min(40);
                self.words.copy_within(at..at + length, other);
            }
        }
    }

    /// Any other number than 0 and 1 is no value that a bool can have, neither here nor in the library: a host that stores one is outside of what a header or
    /// a contract can speak of. So none is stored.
    fn mend_flags(&mut self, map: &Map) {
        map.flags.iter().for_each(|&at| self.words[at / 8] &= !(0xfe << (8 * (at % 8))));
    }
}
