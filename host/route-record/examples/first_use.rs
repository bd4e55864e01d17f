// A route is written, read back and cut short.

use std::error::Error;

use route_record::{Grammar, Refusal, Value};

fn main() -> Result<(), Box<dyn Error>> {
    let grammar = "tuple(u32, bytes)".parse::<Grammar>()?;
    let route = Value::build(|value| {
        value.tuple(|fields| {
            fields.uint32(7);
            fields.byte_array(b"AB");
        });
    })?;
    let record = grammar.marshall_vec(&route)?;
    let value = grammar.demarshall_vec(&record)?;
    assert_eq!(value.root().child(0).and_then(|row| row.number()), Some(7));
    let refusal = grammar.demarshall_vec(&record[..13]).unwrap_err();
    assert_eq!(refusal.number, Refusal::BYTES_MISSING);
    assert_eq!(
        refusal.to_string(),
        "refused 9 at byte 4: the value that starts there is cut short"
    );
    Ok(())
}
