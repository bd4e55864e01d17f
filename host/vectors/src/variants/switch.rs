//! What a broken model asks at each of its places. This file becomes the module `variant` of the
//! model: comparisons, tests and numbers go through its functions, which answer as if they were not
//! there, except at the one place that is switched.

use std::cell::{Cell, RefCell};
use std::collections::BTreeMap;
use std::fmt;
use std::str::FromStr;

/// A comparison.
#[derive(Clone, Copy, Debug, PartialEq, Eq)]
#[allow(missing_docs)]
pub enum Op {
    Lt,
    Le,
    Gt,
    Ge,
    Eq,
    Ne,
}

/// The comparisons with their marks.
pub const OPS: [(&str, Op); 6] = [
    ("<", Op::Lt),
    ("<=", Op::Le),
    (">", Op::Gt),
    (">=", Op::Ge),
    ("==", Op::Eq),
    ("!=", Op::Ne),
];

impl Op {
    fn holds<T: PartialOrd>(self, left: T, right: T) -> bool {
        match self {
            Op::Lt => left < right,
            Op::Le => left <= right,
            Op::Gt => left > right,
            Op::Ge => left >= right,
            Op::Eq => left == right,
            Op::Ne => left != right,
        }
    }
}

/// How a place is broken.
#[derive(Clone, Copy, Debug, PartialEq, Eq)]
pub enum Mode {
    /// A number is one more.
    More,
    /// A number is one less.
    Less,
    /// A number is this one.
    Be(u64),
    /// A number has its lowest bits alone.
    Cut(u32),
    /// A number is its lowest bits as a signed one.
    Extend(u32),
    /// A comparison is another one.
    Op(Op),
    /// The left side of a comparison has its lowest bits alone.
    CutLeft(u32),
    /// The right side of a comparison has its lowest bits alone.
    CutRight(u32),
    /// The sides of a comparison are signed numbers of so many bits.
    Signed(u32),
    /// A comparison or a test has this answer.
    Answer(bool),
}

impl fmt::Display for Mode {
    fn fmt(&self, f: &mut fmt::Formatter) -> fmt::Result {
        match self {
            Mode::More => f.write_str("+1"),
            Mode::Less => f.write_str("-1"),
            Mode::Be(number) => write!(f, "={number}"),
            Mode::Cut(bits) => write!(f, "cut{bits}"),
            Mode::Extend(bits) => write!(f, "extend{bits}"),
            Mode::Op(op) => {
                let mark = OPS.iter().find(|entry| entry.1 == *op);
                f.write_str(mark.expect("each comparison has a mark").0)
            }
            Mode::CutLeft(bits) => write!(f, "left{bits}"),
            Mode::CutRight(bits) => write!(f, "right{bits}"),
            Mode::Signed(bits) => write!(f, "signed{bits}"),
            Mode::Answer(answer) => write!(f, "{answer}"),
        }
    }
}

impl FromStr for Mode {
    type Err = String;

    fn from_str(text: &str) -> Result<Mode, String> {
        let name = text.trim_end_matches(|c: char| c.is_ascii_digit());
        let number = text[name.len()..].parse::<u64>().unwrap_or(0);
        let bits = number as u32;
        match name {
            "+" => Ok(Mode::More),
            "-" => Ok(Mode::Less),
            "=" => Ok(Mode::Be(number)),
            "cut" => Ok(Mode::Cut(bits)),
            "extend" => Ok(Mode::Extend(bits)),
            "left" => Ok(Mode::CutLeft(bits)),
            "right" => Ok(Mode::CutRight(bits)),
            "signed" => Ok(Mode::Signed(bits)),
            "true" | "false" => Ok(Mode::Answer(name == "true")),
            _ => {
                let op = OPS.iter().find(|entry| entry.0 == name);
                let op = op.ok_or_else(|| format!("`{text}` is no mode"))?;
                Ok(Mode::Op(op.1))
            }
        }
    }
}

/// The guard of a place outside of any kind or width.
pub const NO_GUARD: u64 = u64::MAX;

/// The most places that are passed while one call is made: far more than a sound call takes.
const MOST_STEPS: u64 = 40_000_000;

/// What was seen of a place while all calls were made.
#[derive(Clone, Debug, Default)]
pub struct Seen {
    /// The modes in which it can be broken.
    pub modes: Vec<Mode>,
    /// The bits of the numbers' type.
    pub bits: u32,
    /// The greatest number, of either side of a comparison.
    pub greatest: u64,
    /// By kind or width, and for all of them together: for each mode the calls, as a set of bits, in
    /// which the place would have given something else.
    pub calls: BTreeMap<u64, Vec<Vec<u64>>>,
}

thread_local! {
    static PLACE: Cell<usize> = const { Cell::new(usize::MAX) };
    static GUARD: Cell<u64> = const { Cell::new(NO_GUARD) };
    static MODE: Cell<Mode> = const { Cell::new(Mode::More) };
    static STEPS: Cell<u64> = const { Cell::new(0) };
    static CALL: Cell<usize> = const { Cell::new(0) };
    static IS_SURVEY: Cell<bool> = const { Cell::new(false) };
    static SURVEY: RefCell<Vec<Seen>> = const { RefCell::new(Vec::new()) };
}

/// Breaks a place, for this kind or width alone or for all.
pub fn set(place: usize, mode: Mode, guard: u64) {
    PLACE.set(place);
    MODE.set(mode);
    GUARD.set(guard);
}

/// Begins the call of this number.
pub fn begin(call: usize) {
    STEPS.set(0);
    CALL.set(call);
}

/// Begins a survey of places that can be broken in these modes.
pub fn begin_survey(modes: Vec<Vec<Mode>>) {
    let seen = |modes| Seen {
        modes,
        ..Seen::default()
    };
    SURVEY.set(modes.into_iter().map(seen).collect());
    IS_SURVEY.set(true);
}

/// Ends the survey.
pub fn end_survey() -> Vec<Seen> {
    IS_SURVEY.set(false);
    SURVEY.take()
}

/// Notes a number at a place, and in which modes it would have given something else.
fn note(place: usize, guard: u64, bits: u32, number: u64, differs: impl Fn(Mode) -> bool) {
    let (word, bit) = (CALL.get() / 64, 1 << (CALL.get() % 64));
    SURVEY.with_borrow_mut(|survey| {
        let Seen {
            modes,
            bits: of_type,
            greatest,
            calls,
        } = &mut survey[place];
        (*of_type, *greatest) = (bits, number.max(*greatest));
        let none = || vec![Vec::new(); modes.len()];
        let mut of_guard = calls.remove(&guard).unwrap_or_else(none);
        let of_all = match guard {
            NO_GUARD => None,
            _ => Some(calls.entry(NO_GUARD).or_insert_with(none)),
        };
        let mut of_all = of_all.map(|sets| sets.iter_mut());
        for (mode, set) in modes.iter().zip(&mut of_guard) {
            let in_all = of_all.as_mut().and_then(|sets| sets.next());
            if set.get(word).is_some_and(|bits| bits & bit != 0) || !differs(*mode) {
                continue;
            }
            for set in [Some(set), in_all].into_iter().flatten() {
                set.resize(set.len().max(word + 1), 0);
                set[word] |= bit;
            }
        }
        calls.insert(guard, of_guard);
    });
}

/// The mode of a place, if it is the broken one.
fn mode(place: usize, guard: u64) -> Option<Mode> {
    let steps = STEPS.get() + 1;
    STEPS.set(steps);
    assert!(steps < MOST_STEPS, "the call does not end");
    let only = GUARD.get();
    (PLACE.get() == place && (only == NO_GUARD || only == guard)).then(|| MODE.get())
}

/// A number of the model.
pub trait Number: Copy + PartialOrd {
    /// The bits of the type.
    const BITS: u32;
    /// Its lowest 64 bits.
    fn low(self) -> u64;
    /// The number of these bits.
    fn of(low: u64) -> Self;
}

/// A side of a comparison.
pub trait Side: Copy {
    /// The number's type.
    type Number: Number;
    /// The number that it is or refers to.
    fn number(self) -> Self::Number;
}

/// Makes types numbers, and them and references to them sides.
macro_rules! numbers {
    ($($number:ty)*) => {$(
        impl Number for $number {
            const BITS: u32 = <$number>::BITS;
            fn low(self) -> u64 {
                self as u64
            }
            fn of(low: u64) -> $number {
                low as $number
            }
        }
        impl Side for $number {
            type Number = $number;
            fn number(self) -> $number {
                self
            }
        }
        impl Side for &$number {
            type Number = $number;
            fn number(self) -> $number {
                *self
            }
        }
    )*};
}

numbers!(u8 u32 u64 u128 i128 usize);

/// The lowest bits of a number.
fn cut<N: Number>(number: N, bits: u32) -> N {
    N::of(number.low() & (u64::MAX >> (64 - bits)))
}

/// The lowest bits of a number as a signed one.
fn signed<N: Number>(number: N, bits: u32) -> i64 {
    (number.low() << (64 - bits)) as i64 >> (64 - bits)
}

/// A number as a mode makes it.
fn number_by<N: Number>(mode: Mode, number: N) -> N {
    match mode {
        Mode::More => N::of(number.low().wrapping_add(1)),
        Mode::Less => N::of(number.low().wrapping_sub(1)),
        Mode::Be(other) => N::of(other),
        Mode::Cut(bits) => cut(number, bits),
        Mode::Extend(bits) => N::of(signed(number, bits) as u64),
        _ => number,
    }
}

/// A comparison as a mode makes it.
fn compare_by<N: Number>(mode: Mode, left: N, op: Op, right: N) -> bool {
    match mode {
        Mode::Op(other) => other.holds(left, right),
        Mode::CutLeft(bits) => op.holds(cut(left, bits), right),
        Mode::CutRight(bits) => op.holds(left, cut(right, bits)),
        Mode::Signed(bits) => op.holds(signed(left, bits), signed(right, bits)),
        Mode::Answer(answer) => answer,
        _ => op.holds(left, right),
    }
}

/// A number of the model.
pub fn number<N: Number>(place: usize, guard: u64, number: N) -> N {
    if IS_SURVEY.get() {
        let differs = |mode| number_by(mode, number) != number;
        note(place, guard, N::BITS, number.low(), differs);
    }
    mode(place, guard).map_or(number, |mode| number_by(mode, number))
}

/// A comparison of the model.
pub fn compare<S: Side>(place: usize, guard: u64, left: S, op: Op, right: S) -> bool {
    let (left, right) = (left.number(), right.number());
    let holds = op.holds(left, right);
    if IS_SURVEY.get() {
        let greatest = left.low().max(right.low());
        let differs = |mode| compare_by(mode, left, op, right) != holds;
        note(place, guard, S::Number::BITS, greatest, differs);
    }
    mode(place, guard).map_or(holds, |mode| compare_by(mode, left, op, right))
}

/// A test of the model that is no comparison.
pub fn test(place: usize, guard: u64, holds: bool) -> bool {
    let by = |mode| match mode {
        Mode::Answer(answer) => answer,
        _ => holds,
    };
    if IS_SURVEY.get() {
        note(place, guard, 1, holds.into(), |mode| by(mode) != holds);
    }
    mode(place, guard).map_or(holds, by)
}
