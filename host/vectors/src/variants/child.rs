// The program of a broken model: makes the calls of a file, in each way that a list says, and
// prints for each the first call whose outcome is another one.

mod driver;
mod flat;

use std::fs::File;
use std::io::{BufReader, Write};
use std::panic::{self, AssertUnwindSafe};
use std::{env, fs, io, thread};

use flat::Call;
use model::variant;

/// The calls of a file.
type Calls = flat::Calls<BufReader<File>>;

/// Whether the model, as it is switched, answers this call as the vector says.
fn holds(number: usize, call: &Call) -> bool {
    variant::begin(number);
    let outcome = panic::catch_unwind(AssertUnwindSafe(|| driver::of_model(call)));
    outcome.is_ok_and(|outcome| outcome == call.outcome)
}

/// Prints what is seen of each place of a list of modes: a line with the type's bits and the
/// greatest number; then for each kind or width and each mode a line with the calls that may tell.
fn survey(calls: &mut Calls, list: &str) {
    let mode = |mode: &str| mode.parse().expect("a mode");
    let modes = |line: &str| line.split_whitespace().map(mode).collect();
    variant::begin_survey(list.lines().map(modes).collect());
    let mut number = 0;
    while let Some(call) = calls.get(number).expect("a call") {
        assert!(holds(number, call), "{} is sound", call.name);
        number += 1;
    }
    for seen in variant::end_survey() {
        println!("place {} {}", seen.bits, seen.greatest);
        for (guard, sets) in &seen.calls {
            for (mode, set) in seen.modes.iter().zip(sets) {
                let set: Vec<String> = set.iter().map(u64::to_string).collect();
                println!("{mode} {guard} {}", set.join(" "));
            }
        }
    }
}

/// Whether a set has a number.
fn has(set: &[u64], number: usize) -> bool {
    set.get(number / 64)
        .is_some_and(|bits| bits >> (number % 64) & 1 == 1)
}

/// The name of the first call that may tell and whose outcome is another one.
fn caught_by(calls: &mut Calls, tells: impl Fn(usize) -> bool) -> Option<String> {
    let mut number = 0;
    while let Some(call) = calls.get(number).expect("a call") {
        if tells(number) && !holds(number, call) {
            return Some(call.name.clone());
        }
        number += 1;
    }
    None
}

/// Runs the listed variants from one on, each with the calls that may tell, or with all.
fn run(calls: &mut Calls, list: &str, from: usize) {
    for line in list.lines().skip(from) {
        let number = |text: &str| text.parse::<u64>().expect("a number");
        let mut set = None;
        if let [place, mode, guard, ref words @ ..] =
            line.split_whitespace().collect::<Vec<_>>()[..]
        {
            variant::set(
                number(place) as usize,
                mode.parse().expect("a mode"),
                number(guard),
            );
            set = Some(words.iter().map(|word| number(word)).collect::<Vec<u64>>());
        }
        let tells = |number| set.as_ref().is_none_or(|set| has(set, number));
        match caught_by(calls, tells) {
            Some(name) => println!("caught {name}"),
            None => println!("passed"),
        }
        io::stdout().flush().expect("standard output");
    }
}

fn main() {
    let arguments: Vec<String> = env::args().collect();
    let [_, calls, command, argument, ..] = &arguments[..] else {
        panic!("usage: child CALLS survey MODES | child CALLS run LIST FROM");
    };
    let calls = File::open(calls).expect("the calls");
    let mut calls = Calls::of(BufReader::new(calls)).expect("the calls");
    let list = fs::read_to_string(argument).expect("a list");
    let (is_survey, from) = (command == "survey", arguments.get(4));
    let from = from.map_or(0, |from| from.parse().expect("a number"));
    let work = move || {
        if is_survey {
            return survey(&mut calls, &list);
        }
        panic::set_hook(Box::new(|_| ()));
        run(&mut calls, &list, from);
    };
    let thread = thread::Builder::new().stack_size(64 << 20).spawn(work);
    if thread.expect("a thread").join().is_err() {
        std::process::exit(1);
    }
}
