//! The comparison over many random cases.

use std::collections::BTreeMap;
use std::fmt;
use std::thread;

use crate::{shrink, Case, Difference, Outcome, Random};

/// How often each call gave each answer: 0 for accepted, else the refusal's number.
#[derive(Clone, Debug, Default, PartialEq, Eq)]
pub struct Answers(BTreeMap<(&'static str, u64), u64>);

impl Answers {
    /// How many cases there were.
    pub fn total(&self) -> u64 {
        self.0.values().sum()
    }

    /// How often a call gave an answer.
    pub fn count(&self, call: &'static str, number: u64) -> u64 {
        self.0.get(&(call, number)).copied().unwrap_or(0)
    }
}

impl fmt::Display for Answers {
    fn fmt(&self, f: &mut fmt::Formatter) -> fmt::Result {
        for blank in Case::blanks() {
            let call = blank.call();
            let count = |&number: &u64| self.count(call, number);
            let numbers = blank.answer_numbers();
            let total: u64 = numbers.iter().map(count).sum();
            write!(f, "{call} {total}:")?;
            for number in numbers {
                write!(f, " [{number}] {}", count(number))?;
            }
            writeln!(f)?;
        }
        write!(f, "{} cases", self.total())
    }
}

/// The bytes of a large stack: the model's recursion over the deepest rows needs much.
const STACK: usize = 256 << 20;

/// Works on a thread with a large stack, so that the model can be asked about the deepest rows.
pub fn on_large_stack<T: Send>(work: impl FnOnce() -> T + Send) -> T {
    thread::scope(|scope| {
        let thread = thread::Builder::new().stack_size(STACK);
        let thread = thread.spawn_scoped(scope, work);
        let thread = thread.expect("a thread with a large stack");
        thread.join().expect("the work ends")
    })
}

/// Runs random cases of a seed through the model and through `library` while `goes_on`, which is
/// called before each case, and adds to the answers. Where the two differ, the case is made small.
pub fn run(
    seed: u64,
    library: impl Fn(&Case) -> Outcome + Send,
    goes_on: impl FnMut() -> bool + Send,
    answers: &mut Answers,
) -> Result<(), Box<Difference>> {
    on_large_stack(|| compare(seed, library, goes_on, answers))
}

/// The comparison itself.
fn compare(
    seed: u64,
    library: impl Fn(&Case) -> Outcome,
    mut goes_on: impl FnMut() -> bool,
    answers: &mut Answers,
) -> Result<(), Box<Difference>> {
    let mut random = Random::new(seed);
    while goes_on() {
        let case = Case::random(&mut random);
        let model = case.of_model();
        if library(&case) != model {
            let smallest = shrink(&case, |case| library(case) != case.of_model());
            return Err(Box::new(Difference {
                model: smallest.of_model(),
                library: library(&smallest),
                case: smallest,
            }));
        }
        let count = answers.0.entry((case.call(), model.answer.number()));
        *count.or_default() += 1;
    }
    Ok(())
}
