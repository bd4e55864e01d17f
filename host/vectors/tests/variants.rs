//! The variants of the model that the vectors are to catch: the rules find their places in the
//! model's text, and the lists of exceptions name places that are there.

use std::collections::BTreeMap;
use std::thread::available_parallelism;

use compare::on_large_stack;
use vectors::variants::{self, driver, exceptions, Thing};

#[test]
fn each_rule_finds_places() {
    let files = variants::model_files().expect("the model");
    let places = variants::places(&files);
    for (thing, least) in [
        (Thing::Comparison, 30),
        (Thing::Test, 5),
        (Thing::Number, 200),
        (Thing::Constant, 60),
    ] {
        let found = places.iter().filter(|place| place.thing == thing).count();
        assert!(found >= least, "{thing:?}: {found}");
    }
    let mut by_rule: BTreeMap<&str, usize> = BTreeMap::new();
    for change in variants::changes(&files) {
        *by_rule.entry(change.rule).or_default() += 1;
    }
    for (rule, least) in [
        ("a refusal after what follows it", 10),
        ("a statement left out", 15),
        ("an alternative left out", 8),
        ("another number in a pattern or constant", 80),
        ("another operator", 60),
        ("by hand", 120),
        ("two statements exchanged", 10),
    ] {
        let found = by_rule.get(rule).copied().unwrap_or(0);
        assert!(found >= least, "{rule}: {found}");
    }
}

#[test]
fn each_exception_names_a_place() {
    let files = variants::model_files().expect("the model");
    let unknown = exceptions::unknown(&variants::places(&files), &variants::changes(&files));
    assert_eq!(unknown, Vec::<String>::new());
}

/// What the variants' programs do is right of the sound model.
#[test]
fn the_sound_model_is_not_caught() {
    on_large_stack(|| {
        for call in variants::calls().expect("the vectors") {
            assert!(driver::of_model(&call) == call.outcome, "{}", call.name);
        }
    });
}

/// Variants that no rule finds: orders, since the model has one test for three kinds, what counts
/// for same route, what a preview and what the chooser count, other answers than 9 to a cut record,
/// another order and another place of the chooser's answers, other capacities of a check, other
/// bytes, orders, places and stores of XDR, and other least lengths, other records that are read and
/// another count of yes or no.
#[test]
fn the_variants_by_hand_are_caught() {
    let jobs = available_parallelism().map_or(1, usize::from);
    let variants = variants::run_by_hand(jobs).expect("a run");
    let changes = variants::changes(&variants::model_files().expect("the model"));
    let by_hand = changes.iter().filter(|change| change.rule == "by hand");
    // One that does not compile is not run.
    assert_eq!(variants.len(), by_hand.count());
    for variant in variants {
        assert!(variant.caught_by.is_some(), "{variant}");
    }
}
