//! Vectors as a broken model reads them: calls with their answers, in bytes.

use std::io::{self, Read, Write};

/// What a call is given, or what a buffer holds.
#[derive(Clone, Debug, PartialEq, Eq)]
#[allow(missing_docs)]
pub enum Given {
    Number(u64),
    Bytes(Vec<u8>),
    Words(Vec<u64>),
}

/// A call with its answer.
#[derive(Clone, Debug, PartialEq, Eq)]
pub struct Call {
    /// What the vector shows.
    pub name: String,
    /// The name of the call, `show` for a run of the show program.
    pub call: String,
    /// What it is given, in the order of the vector's fields.
    pub given: Vec<Given>,
    /// What comes of it.
    pub outcome: Outcome,
}

/// What comes of a call: its answer, and what the lent buffers of an accepted one hold or what is
/// printed. The answer is 0 and the numbers given, or a refusal's number, kind of place (1 word, 2
/// byte, 3 row), place and record.
pub type Outcome = (Vec<u64>, Vec<Given>);

fn put_number(to: &mut impl Write, number: u64) -> io::Result<()> {
    to.write_all(&number.to_le_bytes())
}

fn put_bytes(to: &mut impl Write, bytes: &[u8]) -> io::Result<()> {
    put_number(to, bytes.len() as u64)?;
    to.write_all(bytes)
}

fn put_words(to: &mut impl Write, words: &[u64]) -> io::Result<()> {
    put_number(to, words.len() as u64)?;
    words.iter().try_for_each(|&word| put_number(to, word))
}

fn take_number(from: &mut impl Read) -> io::Result<u64> {
    let mut bytes = [0; 8];
    from.read_exact(&mut bytes)?;
    Ok(u64::from_le_bytes(bytes))
}

fn take_bytes(from: &mut impl Read) -> io::Result<Vec<u8>> {
    let mut bytes = vec![0; take_number(from)? as usize];
    from.read_exact(&mut bytes)?;
    Ok(bytes)
}

fn take_words(from: &mut impl Read) -> io::Result<Vec<u64>> {
    let length = take_number(from)?;
    (0..length).map(|_| take_number(from)).collect()
}

fn take_text(from: &mut impl Read) -> io::Result<String> {
    String::from_utf8(take_bytes(from)?).map_err(io::Error::other)
}

impl Given {
    fn put(&self, to: &mut impl Write) -> io::Result<()> {
        match self {
            Given::Number(number) => put_words(to, &[0, *number]),
            Given::Bytes(bytes) => put_words(to, &[1]).and_then(|()| put_bytes(to, bytes)),
            Given::Words(words) => put_words(to, &[2]).and_then(|()| put_words(to, words)),
        }
    }

    fn take(from: &mut impl Read) -> io::Result<Given> {
        match take_words(from)?[..] {
            [0, number] => Ok(Given::Number(number)),
            [1] => take_bytes(from).map(Given::Bytes),
            _ => take_words(from).map(Given::Words),
        }
    }
}

/// Writes calls.
pub fn put(to: &mut impl Write, calls: &[Call]) -> io::Result<()> {
    put_number(to, calls.len() as u64)?;
    for call in calls {
        put_bytes(to, call.name.as_bytes())?;
        put_bytes(to, call.call.as_bytes())?;
        put_number(to, call.given.len() as u64)?;
        call.given.iter().try_for_each(|given| given.put(to))?;
        let (answer, after) = &call.outcome;
        put_words(to, answer)?;
        put_number(to, after.len() as u64)?;
        after.iter().try_for_each(|given| given.put(to))?;
    }
    Ok(())
}

/// Reads how many there are, and these.
fn take_all(from: &mut impl Read) -> io::Result<Vec<Given>> {
    let count = take_number(from)?;
    (0..count).map(|_| Given::take(from)).collect()
}

/// Reads a call.
fn take_call(from: &mut impl Read) -> io::Result<Call> {
    let (name, call) = (take_text(from)?, take_text(from)?);
    let given = take_all(from)?;
    let outcome = (take_words(from)?, take_all(from)?);
    Ok(Call {
        name,
        call,
        given,
        outcome,
    })
}

/// Calls, each of which is read when it is first asked for: most variants are caught by one of the
/// first.
pub struct Calls<R> {
    from: R,
    left: u64,
    read: Vec<Call>,
}

impl<R: Read> Calls<R> {
    /// The calls that were written there.
    pub fn of(mut from: R) -> io::Result<Calls<R>> {
        let (left, read) = (take_number(&mut from)?, Vec::new());
        Ok(Calls { from, left, read })
    }

    /// The call of this number, if there are so many.
    pub fn get(&mut self, number: usize) -> io::Result<Option<&Call>> {
        while self.read.len() <= number && self.left > 0 {
            self.read.push(take_call(&mut self.from)?);
            self.left -= 1;
        }
        Ok(self.read.get(number))
    }
}
