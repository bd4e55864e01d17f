//! The deepest readings, on a thread with a small stack. They have a program of their own, since a
//! stack that overflows ends it.

use std::thread;

use compare::{chain, chain_and_number, grammar_list, leaf, Case};
use route_record::{calls, Chosen, Parsed, Place, Refusal, SameRouteRefusal, Verdict, ROW_WORDS};

type Answer = Result<Parsed, Refusal>;
type SameRoute = Result<bool, SameRouteRefusal>;
type Choice = Result<Chosen, Refusal>;
type YesOrNo = Result<Verdict, Refusal>;

/// The bytes of stack within which a reading stays.
const STACK: usize = 64 * 1_024;

/// What the work gives on a thread with the small stack.
fn on_small_stack<T: Send>(work: impl FnOnce() -> T + Send) -> T {
    thread::scope(|scope| {
        let thread = thread::Builder::new().stack_size(STACK);
        let thread = thread.spawn_scoped(scope, work);
        let thread = thread.expect("a thread with a small stack");
        thread.join().expect("all calls return")
    })
}

/// The library's answers, with rows and as a check without and with a capacity named, whether the
/// record is the same route as itself, which grammar of a list accepts it, where the grammar stands
/// behind a union without cases, and whether the grammar accepts it.
fn answers(grammar: &[u32], record: &[u8]) -> ([Answer; 3], SameRoute, Choice, YesOrNo) {
    let mut words = vec![0; ROW_WORDS * 256];
    let lent = calls::demarshall(grammar, record, &mut words);
    let check = calls::check_whole(grammar, record);
    let named = calls::check_whole_with(grammar, record, 256);
    let same = calls::same_route(grammar, record, record);
    let list = grammar_list(&[&leaf(8)[..], grammar]);
    let readings = [lent, check, named];
    let chosen = calls::choose_grammar(&list, record);
    (readings, same, chosen, calls::accepts(grammar, record))
}

/// The answers to a chain of this kind, each value of which begins with these bytes, on the small
/// stack and compared with the model.
fn compare_chain(kind: u32, own: &[u8]) {
    let grammar = chain(kind);
    let end = 255 * own.len();
    let record = [own.repeat(255), vec![7, 0, 0, 0]].concat();
    let sound = Ok(Parsed {
        rows: 256,
        rest_index: end + 4,
    });
    let cut = Err(Refusal {
        number: 9,
        place: Place::Byte(end as u64),
    });
    for (length, expected) in [(end + 4, sound), (end + 3, cut)] {
        let record = &record[..length];
        let case = Case::CheckWhole {
            grammar: grammar.clone(),
            record: record.to_vec(),
        };
        let answer: Result<[u64; 2], Refusal> = case.compare().answer.result();
        let parsed = |parsed: Parsed| [parsed.rows as u64, parsed.rest_index as u64];
        assert_eq!(answer, expected.map(parsed));
        let answers = on_small_stack(|| answers(&grammar, record));
        let same = expected.map(|_| true).map_err(SameRouteRefusal::First);
        let (number, begun) = (1, 1 + 256);
        let chosen = expected.map(|_| Chosen { number, begun });
        let (number, place) = (22, Place::Byte(0));
        let chosen = chosen.map_err(|_| Refusal { number, place });
        // A cut record is too short to be read, unless the root may be an empty array.
        let accepted = expected.is_ok();
        let begun = if accepted || kind == 3 { 256 } else { 0 };
        let verdict = Ok(Verdict { accepted, begun });
        assert_eq!(answers, ([expected; 3], same, chosen, verdict));
    }
}

/// Whether records of a tuple of a chain of this kind, each value of which begins with these bytes,
/// and of a number are the same route, on the small stack and compared with the model. The chain
/// has 255 levels.
fn compare_first_field(kind: u32, own: &[u8]) {
    let grammar = chain_and_number(kind);
    let end = 254 * own.len() + 4;
    let record = |field: u8, behind: u8| {
        [&own.repeat(254), &[field, 0, 0, 0][..], &[behind, 0, 0, 0]].concat()
    };
    let cut = |at: usize| {
        let place = Place::Byte(at as u64);
        Err(SameRouteRefusal::Second(Refusal { number: 9, place }))
    };
    let first = record(1, 7);
    for (second, expected) in [
        (record(2, 7), Ok(true)),
        (record(1, 8), Ok(false)),
        (first[..end - 1].to_vec(), cut(end - 4)),
        (first[..end + 3].to_vec(), cut(end)),
    ] {
        let case = Case::SameRoute {
            grammar: grammar.clone(),
            first: first.clone(),
            second: second.clone(),
        };
        case.compare();
        let answer = on_small_stack(|| calls::same_route(&grammar, &first, &second));
        assert_eq!(answer, expected);
    }
}

#[test]
fn arrays() {
    compare_chain(3, &1u64.to_le_bytes());
    compare_first_field(3, &1u64.to_le_bytes());
}

#[test]
fn tuples() {
    compare_chain(4, &[]);
    compare_first_field(4, &[]);
}

#[test]
fn unions() {
    compare_chain(8, &0u64.to_le_bytes());
    compare_first_field(8, &0u64.to_le_bytes());
}
