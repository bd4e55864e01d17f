//! How many wrong implementations the vectors catch. The model is broken on purpose, one variant at
//! a time, by rules that are applied to its text: each comparison is another one, or always holds
//! or never; each number is one more, one less, has its lowest 8, 16 or 32 bits alone or is signed;
//! each width is another one; each refusal is checked later, or not at all; statements are
//! exchanged. Where a function knows a kind or a width, a place is broken for each of them alone,
//! too. A variant is caught when it gives another answer to a vector, or none.

mod build;
pub mod driver;
pub mod exceptions;
pub mod flat;
mod rules;
mod source;
pub mod switch;
mod token;

pub use rules::{Change, Place, Site, Thing};

use std::path::PathBuf;
use std::{fmt, fs, io};

use compare::{Answer, Field};

use crate::{Vector, FILES};
use build::{Folder, Seen};
use exceptions::{is_bounded, is_excepted, BY_HAND};
use flat::{Call, Given};
use rules::Edit;
use source::Source;
use switch::{Mode, NO_GUARD};

/// The files of the model: names and texts.
pub fn model_files() -> io::Result<Vec<(String, String)>> {
    let folder = PathBuf::from(env!("CARGO_MANIFEST_DIR")).join("../model/src");
    let mut files = Vec::new();
    for entry in fs::read_dir(folder)? {
        let path = entry?.path();
        let name = path.file_name().expect("a name").to_string_lossy();
        files.push((name.into_owned(), fs::read_to_string(&path)?));
    }
    files.sort();
    Ok(files)
}

/// The places of all files.
pub fn places(files: &[(String, String)]) -> Vec<Place> {
    let of_file = |(name, text): &(String, String)| Source::new(name, text).places();
    files.iter().flat_map(of_file).collect()
}

/// The changes of all files, by rule and by hand.
pub fn changes(files: &[(String, String)]) -> Vec<Change> {
    let of_file = |(name, text): &(String, String)| Source::new(name, text).changes();
    let mut changes: Vec<Change> = files.iter().flat_map(of_file).collect();
    for (file, pieces, what) in BY_HAND {
        let (_, text) = files.iter().find(|entry| entry.0 == file).expect("a file");
        let mut text = text
            .split("#[cfg(test)]")
            .next()
            .expect("a part")
            .to_string();
        for (from, to) in pieces {
            assert_eq!(text.matches(from).count(), 1, "{file}: {from}");
            text = text.replace(from, to);
        }
        let (function, line) = (String::new(), 0);
        let site = Site {
            file: file.to_string(),
            function,
            line,
            text: what.to_string(),
            nth: 0,
        };
        let rule = "by hand";
        changes.push(Change { rule, site, text });
    }
    changes
}

/// A vector as a call.
fn call_of(vector: &Vector) -> Call {
    let given = |field: &Field| match field {
        Field::Uint32(number) => Given::Number(u64::from(**number)),
        Field::Uint64(number) => Given::Number(**number),
        Field::Size(number) => Given::Number(**number as u64),
        Field::Bytes(bytes) => Given::Bytes(bytes.to_vec()),
        Field::Uint32s(words) => Given::Words(words.iter().map(|&word| word.into()).collect()),
        Field::Uint64s(words) => Given::Words(words.to_vec()),
    };
    let name = vector.name().to_string();
    match vector {
        Vector::Show(show) => Call {
            name,
            call: "show".to_string(),
            given: vec![Given::Bytes(show.input.clone())],
            outcome: (
                vec![0],
                vec![Given::Bytes(show.printed.clone().into_bytes())],
            ),
        },
        Vector::Call(line) => {
            let mut case = line.case.clone();
            let outcome = match &line.outcome.answer {
                Answer::Accepted(numbers) => {
                    let mut after = line.outcome.after();
                    let lent = after.lent().into_iter();
                    let after = lent.map(|(_, field)| given(&field)).collect();
                    ([&[0], &numbers[..]].concat(), after)
                }
                Answer::Refused { refusal, record } => {
                    let (kind, place) = match refusal.place {
                        route_record::Place::Word(word) => (1, word),
                        route_record::Place::Byte(byte) => (2, byte),
                        route_record::Place::Row(row) => (3, row),
                    };
                    (vec![refusal.number, kind, place, *record], vec![])
                }
            };
            Call {
                name,
                call: case.call().to_string(),
                given: case.fields().iter().map(|field| given(&field.1)).collect(),
                outcome,
            }
        }
    }
}

/// The calls of all committed files, the shortest first.
pub fn calls() -> io::Result<Vec<Call>> {
    let mut calls = Vec::new();
    for file in &FILES {
        for line in fs::read_to_string(file.path())?.lines() {
            let vector = Vector::parse(line).map_err(io::Error::other)?;
            calls.push(call_of(&vector));
        }
    }
    let length = |given: &Given| match given {
        Given::Number(_) => 1,
        Given::Bytes(bytes) => bytes.len(),
        Given::Words(words) => words.len(),
    };
    calls.sort_by_key(|call| call.given.iter().map(length).sum::<usize>());
    Ok(calls)
}

/// The files with every place but the dropped ones made a call of `variant`; and, for each place,
/// its file and the bytes that it takes there.
fn switched(
    files: &[(String, String)],
    places: &[Place],
    is_dropped: &[bool],
) -> (Vec<(String, String)>, Vec<(usize, std::ops::Range<usize>)>) {
    let mut taken = vec![(0, 0..0); places.len()];
    let mut texts = Vec::new();
    for (f, (name, text)) in files.iter().enumerate() {
        // Pieces in the order of the text: what ends before what begins, the inner end first and
        // the outer beginning first.
        let mut pieces: Vec<((usize, i32, i64, i64), usize, Edit)> = Vec::new();
        for (number, place) in places.iter().enumerate() {
            if place.site.file != *name || is_dropped[number] {
                continue;
            }
            let last = place.edits.len() - 1;
            let (start, end) = (place.edits[0].range.start, place.edits[last].range.start);
            for (k, edit) in place.edits.iter().enumerate() {
                let (at, index) = (edit.range.start, number as i64);
                let key = match k {
                    _ if k == last => (at, 0, -(start as i64), -index),
                    _ => (at, 1, -(end as i64), index),
                };
                let text = edit.text.replacen("{}", &number.to_string(), 1);
                let range = edit.range.clone();
                pieces.push((key, number, Edit { range, text }));
            }
        }
        pieces.sort_by_key(|piece| piece.0);
        let source = text.split("#[cfg(test)]").next().expect("a part");
        let (mut changed, mut at) = (String::new(), 0);
        for (key, number, edit) in &pieces {
            changed += &source[at..edit.range.start];
            if key.1 == 1 && taken[*number].1 == (0..0) {
                taken[*number] = (f, changed.len()..usize::MAX);
            }
            changed += &edit.text;
            at = edit.range.end;
            if key.1 == 0 {
                taken[*number].1.end = changed.len();
            }
        }
        texts.push((name.clone(), changed + &source[at..]));
    }
    (texts, taken)
}

/// Builds the model with all places switched; drops those that the compiler refuses, which are no
/// numbers.
fn build_switched(
    folder: &Folder,
    files: &[(String, String)],
    places: &[Place],
) -> io::Result<Vec<bool>> {
    let mut is_dropped = vec![false; places.len()];
    loop {
        let (texts, taken) = switched(files, places, &is_dropped);
        let (errors, text) = match folder.build(&texts, true)? {
            Ok(()) => return Ok(is_dropped),
            Err(errors) => errors,
        };
        let before = is_dropped.iter().filter(|dropped| **dropped).count();
        for (file, line, column) in errors {
            let f = files.iter().position(|entry| entry.0 == file);
            let Some(f) = f else { continue };
            let lines = texts[f].1.split_inclusive('\n').take(line - 1);
            let at = lines.map(str::len).sum::<usize>() + column - 1;
            let around = taken.iter().enumerate().filter(|(number, (file, range))| {
                !is_dropped[*number] && *file == f && range.contains(&at)
            });
            if let Some((number, _)) = around.min_by_key(|entry| entry.1 .1.len()) {
                is_dropped[number] = true;
            }
        }
        if is_dropped.iter().filter(|dropped| **dropped).count() == before {
            return Err(io::Error::other(text));
        }
    }
}

/// A variant: what is broken where, and in which way.
#[derive(Clone, Debug)]
pub struct Variant {
    /// Where.
    pub site: Site,
    /// In which way.
    pub way: String,
    /// The vector that catches it, or why it has no answer.
    pub caught_by: Option<String>,
    /// Why it cannot change an answer, if it is so listed.
    pub excepted: Option<&'static str>,
}

impl fmt::Display for Variant {
    fn fmt(&self, f: &mut fmt::Formatter) -> fmt::Result {
        let Site {
            file,
            function,
            line,
            text,
            nth,
        } = &self.site;
        let text = text.split_whitespace().collect::<Vec<_>>().join(" ");
        write!(f, "{file}:{line} {function}: `{text}`#{nth}: {}", self.way)
    }
}

/// Whether a mode makes no variant: the type of the place, or a bound of its numbers, leaves them as
/// they are.
fn is_idle(place: &Place, mode: Mode, bits: u32) -> bool {
    let by_type = match mode {
        Mode::Cut(low) | Mode::Extend(low) => low >= bits,
        Mode::CutLeft(low) | Mode::CutRight(low) => low >= bits.min(64),
        Mode::Signed(low) => low > bits.min(64),
        _ => false,
    };
    by_type || is_bounded(place, mode)
}

/// Whether a place is broken for a kind or a width alone: a comparison or a test for a kind, where
/// it is not about the kind itself, and every place for a width.
fn is_alone(place: &Place, guard: u64) -> bool {
    let is_of_rule = matches!(place.thing, Thing::Comparison | Thing::Test);
    match place.guard {
        _ if guard == NO_GUARD => true,
        Some("kind") => is_of_rule && guard <= 10 && !place.site.text.contains("kind"),
        _ => true,
    }
}

/// Runs the variants that are switched while the model runs.
fn run_switched(files: &[(String, String)], calls: &[Call]) -> io::Result<Vec<Variant>> {
    let places = places(files);
    let folder = Folder::new("switched", calls)?;
    let is_dropped = build_switched(&folder, files, &places)?;
    let modes: Vec<Vec<Mode>> = places.iter().map(|place| place.modes.clone()).collect();
    let seen = folder.survey(&modes)?;
    let (mut list, mut variants) = (Vec::new(), Vec::new());
    for (number, place) in places
        .iter()
        .enumerate()
        .filter(|entry| !is_dropped[entry.0])
    {
        let Seen {
            bits,
            greatest,
            ways,
        } = &seen[number];
        exceptions::check_bound(place, *greatest)?;
        let is_variant =
            |way: &&(Mode, u64, _)| !is_idle(place, way.0, *bits) && is_alone(place, way.1);
        for (mode, guard, calls) in ways.iter().filter(is_variant) {
            let calls: Vec<String> = calls.iter().map(u64::to_string).collect();
            list.push(format!("{number} {mode} {guard} {}", calls.join(" ")));
            let way = match place.guard.filter(|_| *guard != NO_GUARD) {
                Some(name) => format!("{mode} for {name} {guard}"),
                None => mode.to_string(),
            };
            variants.push(Variant {
                excepted: is_excepted(&place.site, &way),
                site: place.site.clone(),
                way,
                caught_by: None,
            });
        }
        if ways.is_empty() {
            variants.push(Variant {
                excepted: is_excepted(&place.site, "never reached"),
                site: place.site.clone(),
                way: "never reached".to_string(),
                caught_by: None,
            });
            list.push(format!("{number} +1 0"));
        }
    }
    let results = folder.run(&list)?;
    for (variant, caught_by) in variants.iter_mut().zip(results) {
        variant.caught_by = caught_by;
    }
    Ok(variants)
}

/// Builds and runs one change; gives nothing where it does not compile.
fn run_change(
    folder: &Folder,
    files: &[(String, String)],
    change: &Change,
) -> io::Result<Option<Variant>> {
    let mut files = files.to_vec();
    for (name, text) in &mut files {
        if *name == change.site.file {
            text.clone_from(&change.text);
        }
    }
    if folder.build(&files, false)?.is_err() {
        return Ok(None);
    }
    let caught_by = folder.run(&["sound".to_string()])?.remove(0);
    Ok(Some(Variant {
        excepted: is_excepted(&change.site, change.rule),
        site: change.site.clone(),
        way: change.rule.to_string(),
        caught_by,
    }))
}

/// Runs the changes of the text, with this number of threads.
fn run_changes(
    files: &[(String, String)],
    calls: &[Call],
    mut changes: Vec<Change>,
    jobs: usize,
) -> io::Result<Vec<Variant>> {
    // The sound model, which the vectors must not catch.
    let sound = &files[0];
    changes.push(Change {
        rule: "sound",
        site: Site {
            file: sound.0.clone(),
            function: String::new(),
            line: 0,
            text: String::new(),
            nth: 0,
        },
        text: sound.1.clone(),
    });
    let next = std::sync::atomic::AtomicUsize::new(0);
    let work = |job: usize| -> io::Result<Vec<(usize, Variant)>> {
        let folder = Folder::new(&job.to_string(), calls)?;
        let mut variants = Vec::new();
        loop {
            let number = next.fetch_add(1, std::sync::atomic::Ordering::Relaxed);
            let Some(change) = changes.get(number) else {
                return Ok(variants);
            };
            let variant = run_change(&folder, files, change)?;
            variants.extend(variant.map(|variant| (number, variant)));
        }
    };
    let results: Vec<_> = std::thread::scope(|scope| {
        let threads: Vec<_> = (0..jobs)
            .map(|job| scope.spawn(move || work(job)))
            .collect();
        threads
            .into_iter()
            .map(|thread| thread.join().expect("a thread"))
            .collect()
    });
    let mut variants = Vec::new();
    for result in results {
        variants.extend(result?);
    }
    variants.sort_by_key(|variant| variant.0);
    let sound = variants
        .pop()
        .filter(|last| last.1.way == "sound" && last.1.caught_by.is_none());
    match sound {
        Some(_) => Ok(variants.into_iter().map(|variant| variant.1).collect()),
        None => Err(io::Error::other("the sound model is caught")),
    }
}

/// A way of running variants: its name, and what it gives.
type Stage = (&'static str, Vec<Variant>);

/// Runs all variants, with this number of threads: those that are switched while the model runs, and
/// those that are compiled one by one. Reports each stage when it is done.
pub fn run(jobs: usize, mut report: impl FnMut(Stage)) -> io::Result<()> {
    let (files, calls) = (model_files()?, calls()?);
    report(("switched", run_switched(&files, &calls)?));
    let changes = changes(&files);
    report(("compiled", run_changes(&files, &calls, changes, jobs)?));
    Ok(())
}

/// Runs the changes by hand alone, with this number of threads.
pub fn run_by_hand(jobs: usize) -> io::Result<Vec<Variant>> {
    let (files, calls) = (model_files()?, calls()?);
    let mut changes = changes(&files);
    changes.retain(|change| change.rule == "by hand");
    run_changes(&files, &calls, changes, jobs)
}
