//! The driver: makes one published call many times on a prepared state, so that `run` can count the instructions.
//! The Rust is read from a folder at build time by the oracle's build script.

// error.rs names libc for one type.
extern crate self as libc;

// Ours: first, since its macro declares the structs of the other too.
#[macro_use]
#[path = "../../rust/src/ffi.rs"]
mod ffi;
mod by_value;
mod connection;
#[path = "../../tests/host/plain.rs"]
mod plain;
#[allow(dead_code)]
#[path = "../../oracle/src/shims.rs"]
mod shims;

use std::hint::black_box;

// What the Rust's files expect at the crate's root.
use shims::{frame, multipath_scheduler, rand, token, PathStats, RecoveryConfig};
use std::net::SocketAddr;
use std::time::{Duration, Instant};
use std::{cmp, fmt};

use connection::{ids, paths, timers, values};
use error::Error;

include!(concat!(env!("OUT_DIR"), "/error_module.rs"));
include!(concat!(env!("OUT_DIR"), "/lib_parts.rs"));

#[allow(non_camel_case_types)]
pub type ssize_t = isize;

#[link(name = "vignorasc", kind = "static")]
#[link(name = "by_value", kind = "static")]
extern "C" {}

// Never used: so that cargo links again when rt has written the archives again.
const _: [&[u8]; 2] =
    [include_bytes!("../../target/staticlib/libvignorasc.a"), include_bytes!("../../target/staticlib/libby_value.a")];

/// The areas, in the order of the tables.
const AREAS: [fn() -> Area; 7] = [
    values::area,
    timers::area::<false>,
    timers::area::<true>,
    ids::area::<false>,
    ids::area::<true>,
    paths::area::<false>,
    paths::area::<true>,
];

/// The calls over one kind of state.
pub struct Area {
    pub name: &'static str,
    /// What the calls were measured on, with its size.
    pub state: String,
    pub rows: Vec<Row>,
}

/// Makes a call n times.
pub type Run = Box<dyn Fn(usize)>;

/// A published call, and the ways in which it is made, each with its name.
pub struct Row {
    pub call: &'static str,
    pub sides: Vec<(&'static str, Run)>,
    /// Makes the call in each way, once: the states before and after are equal, and ours isn't refused.
    pub check: Box<dyn Fn()>,
    /// How far the call reaches down the stack, lent and by value.
    pub depth: [Box<dyn Fn() -> usize>; 2],
}

/// A state and the arguments of a call on it.
#[derive(Clone, Copy)]
pub struct Given<S, A> {
    pub state: S,
    pub arguments: A,
}

/// A call as it is made in each way, on a state and with arguments.
pub struct Call<Test, Tuned, Lent, ByValue, Rust> {
    pub name: &'static str,
    /// The test that ours makes of its state and its arguments, in Rust over the same state: plainly, and tuned.
    pub test: Test,
    pub tuned: Tuned,
    /// Ours, through the C ABI: on the state in its place; and by value, where what comes back stays where the callee wrote it.
    pub lent: Lent,
    pub by_value: ByValue,
    pub rust: Rust,
}

impl<Test, Tuned, Lent, ByValue, Rust> Call<Test, Tuned, Lent, ByValue, Rust> {
    /// The row of the call on the given state; `rust` prepares the Rust's, and `seen` is what ours would be in its place.
    pub fn row<S, A, R, B, Out, Back, RustOut>(
        self,
        given: Given<S, A>,
        rust: impl Fn() -> Given<R, B> + Copy + 'static,
        seen: fn(&R) -> S,
    ) -> Row
    where
        S: Copy + PartialEq + 'static,
        A: Copy + 'static,
        R: 'static,
        B: Copy,
        Out: Answer,
        Back: Gives<S, Out>,
        Test: Fn(&S, &A) -> bool + Copy + 'static,
        Tuned: Fn(&S, &A) -> bool + Copy + 'static,
        Lent: Fn(&mut S, A) -> Out + Copy + 'static,
        ByValue: Fn(&S, A) -> Back + Copy + 'static,
        Rust: Fn(&mut R, B) -> RustOut + Copy + 'static,
    {
        let Call { name, test, tuned, lent, by_value, rust: rusts } = self;
        let ours = move || given;
        let lent = move |o: &mut Given<S, A>| lent(&mut o.state, o.arguments);
        let by_value = move |o: &mut Given<S, A>| by_value(&o.state, o.arguments);
        let rusts = move |r: &mut Given<R, B>| rusts(&mut r.state, r.arguments);
        let test = move |o: &Given<S, A>| test(&o.state, &o.arguments);
        let tuned = move |o: &Given<S, A>| tuned(&o.state, &o.arguments);
        Row {
            call: name,
            sides: vec![
                ("lent", Box::new(move |n| accepted(&times(n, ours, lent)))),
                ("by value", Box::new(move |n| accepted(&times(n, ours, by_value).store(&mut ours().state)))),
                ("Rust", Box::new(move |n| _ = times(n, rust, rusts))),
                ("Rust + test", Box::new(move |n| tested(n, ours, test, rust, rusts))),
                ("Rust + tuned", Box::new(move |n| tested(n, ours, tuned, rust, rusts))),
            ],
            check: Box::new(move || {
                let (mut a, mut b, mut r) = (ours(), ours(), rust());
                assert!(seen(&r.state) == a.state, "{name}: the Rust's state differs before the call");
                assert!(test(&a) && tuned(&a), "{name}: the test fails");
                let (x, y) = (lent(&mut a), by_value(&mut b).store(&mut b.state));
                _ = rusts(&mut r);
                accepted(&x);
                assert!(x == y && a.state == b.state, "{name}: lent and by value differ");
                assert!(seen(&r.state) == a.state, "{name}: the Rust's state differs after the call");
            }),
            depth: [
                Box::new(move || depth(&mut ours(), |o| _ = black_box(lent(o)))),
                Box::new(move || depth(&mut ours(), |o| _ = black_box(by_value(o)))),
            ],
        }
    }
}

/// What ours answers.
pub trait Answer: PartialEq {
    fn refusal(&self) -> u8;
}

/// What a call by value gives: an answer, or a state and an answer.
pub trait Gives<S, Out> {
    /// Stores the state, if there is one, and gives the answer.
    fn store(self, state: &mut S) -> Out;
}

impl<S, Out: Answer> Gives<S, Out> for Out {
    fn store(self, _: &mut S) -> Out {
        self
    }
}

/// Structs that hold a state and an answer, of which kind is said after each.
#[macro_export]
macro_rules! gives {
    ($state:ident in $field:ident: $($out:ident $answer:ident),*) => {
        $(impl $crate::Gives<$state, $answer> for $out {
            fn store(self, state: &mut $state) -> $answer {
                *state = self.$field;
                self.answer
            }
        })*
    };
}

/// The most calls of one run.
const MOST: usize = 2000;

/// Makes the call n times, and once more for its answer. Each time it is given its own state and arguments, prepared before,
/// so that a call that changes its state does the same work each time. The difference of two totals leaves out the one call
/// more, and the preparing, which is as much whatever n is. The compiler takes what is given for unknown and the answer for
/// read, so that no work leaves the loop.
pub fn times<G, A>(n: usize, prepare: impl Fn() -> G, call: impl Fn(&mut G) -> A) -> A {
    let mut all: Vec<G> = (0..=MOST).map(|_| prepare()).collect();
    let mut rest = all[..=n].iter_mut();
    loop {
        let answer = call(black_box(rest.next().unwrap()));
        black_box(&answer);
        if rest.len() == 0 {
            // What the calls left may take more to free than what was prepared.
            std::mem::forget(all);
            return answer;
        }
    }
}

/// The test of what ours is given, and then the Rust's call on what the Rust is given.
fn tested<G, R, A>(
    n: usize,
    ours: impl Fn() -> G,
    test: impl Fn(&G) -> bool,
    rust: impl Fn() -> R,
    call: impl Fn(&mut R) -> A,
) {
    let answer = times(n, || (ours(), rust()), |(ours, rust)| test(ours).then(|| call(rust)));
    assert!(answer.is_some(), "the test fails");
}

/// A call that is refused does less: none that is measured may be.
fn accepted(answer: &impl Answer) {
    assert_eq!(answer.refusal(), 0, "the call was refused");
}

/// As much below the stack pointer may be a function's own.
const OWN: usize = 128;

/// The bytes of stack below this function that the call writes to, as far as the lowest: they are painted before. It is OWN
/// where the call doesn't reach further.
#[inline(never)]
fn depth<G>(given: &mut G, call: impl Fn(&mut G)) -> usize {
    const PAINTED: usize = 1 << 18;
    const PAINT: u8 = 0xa7;
    #[inline(never)]
    fn apart<G>(given: &mut G, call: impl Fn(&mut G)) {
        call(black_box(given))
    }
    let top: *mut u8;
    unsafe { std::arch::asm!("mov {}, rsp", out(reg) top) };
    for below in OWN + 1..PAINTED {
        unsafe { top.wrapping_sub(below).write_volatile(PAINT) };
    }
    apart(given, call);
    (OWN + 1..PAINTED).rev().find(|below| unsafe { top.wrapping_sub(*below).read_volatile() } != PAINT).unwrap_or(OWN)
}

#[repr(C)]
pub struct Timespec {
    seconds: i64,
    nanoseconds: i64,
}

/// Takes the place of the C library's: the clock stands at 0, so that every run does the same.
///
/// # Safety
/// `time` is a valid place, as the C function asks.
#[no_mangle]
pub unsafe extern "C" fn clock_gettime(_clock: i32, time: *mut Timespec) -> i32 {
    time.write(Timespec { seconds: 0, nanoseconds: 0 });
    0
}

/// The Instant of a moment in microseconds.
pub fn instant(moment: u64) -> Instant {
    Instant::now() + Duration::from_micros(moment)
}

const USAGE: &str = "usage: driver list           a line for each call and way: area, call, way, state, with tabs between
       driver check          makes each call once in each way, and compares
       driver WAY AREA CALL N";

fn main() {
    let arguments: Vec<String> = std::env::args().skip(1).collect();
    let words: Vec<&str> = arguments.iter().map(String::as_str).collect();
    let done = match words[..] {
        ["list"] => Some(list()),
        ["check"] => Some(AREAS.iter().flat_map(|area| area().rows).for_each(|row| (row.check)())),
        [way, area, call, n] => measured(way, area, call).zip(n.parse().ok()).map(|(calls, n)| calls(n)),
        _ => None,
    };
    if done.is_none() {
        eprintln!("{USAGE}");
        std::process::exit(2)
    }
}

fn list() {
    for area in AREAS.map(|area| area()) {
        let [lent, by_value] = [0, 1].map(|way| area.rows.iter().map(|row| (row.depth[way])()).max().unwrap_or(0));
        let stack = match by_value {
            ..=OWN => String::new(),
            _ => format!("; the deepest call takes {lent} bytes of stack lent, {by_value} by value"),
        };
        for row in area.rows {
            for (way, _) in row.sides {
                println!("{}\t{}\t{way}\t{}{stack}", area.name, row.call, area.state);
            }
        }
    }
}

fn measured(way: &str, area: &str, call: &str) -> Option<Run> {
    let area = AREAS.map(|area| area()).into_iter().find(|known| known.name == area)?;
    let row = area.rows.into_iter().find(|row| row.call == call)?;
    row.sides.into_iter().find(|(known, _)| *known == way).map(|(_, run)| run)
}
