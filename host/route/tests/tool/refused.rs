//! Refusals: what is printed.

use route_record::{Place, MAX_BYTES};

use crate::run::{file, folder, printed, refused, refused_grammar, route};

#[test]
fn a_refusal_is_one_line_with_number_place_and_words() {
    let got = route(&["tree", "-g", "u32", "--hex", "-"], b"070000");
    let line = "refused 9 at byte 0: the value that starts there is cut short\n";
    assert_eq!(got, printed(1, line));
}

#[test]
fn every_command_refuses_a_refused_grammar() {
    let folder = folder("refused");
    let record = &file(&folder, "record", "");
    let grammar = "1, 11 0 0, 0";
    let node =
        "word 1 is the kind of node 0: kind 11, first 0, count 0; child words 0 (table length 5)";
    let refusal = refused_grammar(3, 1, node);
    for (command, records) in [
        ("check", &[][..]),
        ("check", &[record]),
        ("tree", &[record]),
        ("same", &[record, record]),
        ("accepts", &[record]),
        ("size", &[record]),
        ("preview", &[record, record]),
        ("export", &[record]),
        ("import", &[record]),
        ("words", &[]),
    ] {
        let arguments = ["-g", grammar]
            .into_iter()
            .chain(records.iter().map(|r| r.as_str()));
        let arguments: Vec<&str> = [command].into_iter().chain(arguments).collect();
        assert_eq!(route(&arguments, b""), refusal, "{command}");
    }

    // Among several it is named, whether one before it accepts the record or not.
    let of_number = |number| printed(1, &format!("grammar {number}: {}", refusal.stdout));
    let got = route(&["choose", "-g", grammar, "-g", grammar, record], b"");
    assert_eq!(got, of_number(0));
    for before in ["constant", "u32"] {
        let arguments = ["choose", "-g", before, "-g", grammar, record];
        assert_eq!(route(&arguments, b""), of_number(1), "{before}");
    }
    let grammar = &file(&folder, "grammar", grammar);
    let sound = &file(&folder, "sound", "constant");
    let got = route(&["choose", sound, sound, grammar, record], b"");
    assert_eq!(got, of_number(2));
}

#[test]
fn a_record_longer_than_the_library_reads() {
    const COUNT: usize = MAX_BYTES - 8;
    let most = [&COUNT.to_le_bytes()[..], &[0; COUNT]].concat();
    let got = route(&["check", "-g", "bytes", "-"], &most);
    assert_eq!(got, printed(0, "accepted: rows 1, bytes 1048576\n"));
    let got = route(&["tree", "-g", "bytes", "-"], &[&most[..], &[0]].concat());
    assert_eq!(got, refused(6, Place::Byte(0)));
    let got = route(&["choose", "-gu32", "-gbytes", "-"], &most);
    assert_eq!(got, printed(0, "grammar 1, values begun 2\n"));
    let longer = [&most[..], &[0]].concat();
    let got = route(&["choose", "-gu32", "-gbytes", "-"], &longer);
    assert_eq!(got, refused(6, Place::Byte(0)));
    let got = route(&["accepts", "-gbytes", "-"], &most);
    assert_eq!(got, printed(0, "yes, values begun 1\n"));
    let got = route(&["accepts", "-gbytes", "-"], &longer);
    assert_eq!(got, printed(3, "no, values begun 0\n"));
    for command in ["export", "import"] {
        let got = route(&[command, "-gbytes", "-"], &longer);
        assert_eq!(got, refused(6, Place::Byte(0)), "{command}");
    }
}
