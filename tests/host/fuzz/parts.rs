//! Which bytes of a struct are its bools, and which lie between its fields.

use std::mem::size_of;

/// Of numbers, bools, arrays and, by ffi's macro, structs.
pub trait Parts {
    /// Notes the parts of one that stands at this byte.
    fn note(at: usize, map: &mut Map);
}

/// All zeros: of a struct every field.
pub const fn zeros<T: Parts>() -> T {
    // SAFETY: zero is a number and a bool, and what has parts is made of these alone.
    unsafe { std::mem::zeroed() }
}

pub struct Map {
    pub flags: Vec<usize>,
    pub padding: Vec<usize>,
}

impl Map {
    pub fn of<S: Parts>() -> Map {
        // Every byte is padding until a field is found there.
        let mut map = Map { flags: vec![], padding: (0..size_of::<S>()).collect() };
        S::note(0, &mut map);
        map
    }
}

macro_rules! numbers {
    ($($number:ty)*) => {
        $(impl Parts for $number {
            fn note(at: usize, map: &mut Map) {
                map.padding.retain(|byte| !(at..at + size_of::<$number>()).contains(byte));
            }
        })*
    };
}

numbers! { u8 u16 u32 u64 usize }

impl Parts for bool {
    fn note(at: usize, map: &mut Map) {
        u8::note(at, map);
        map.flags.push(at);
    }
}

impl<T: Parts, const N: usize> Parts for [T; N] {
    fn note(at: usize, map: &mut Map) {
        (0..N).for_each(|i| T::note(at + i * size_of::<T>(), map));
    }
}
