//! Slices as JSON lists: texts of elements, and objects `{"repeat": TEXT, "times": NUMBER}` for
//! content that comes again.

use crate::json::{decimal, Fields, Json};

/// The most elements that a list may stand for.
const MOST_ELEMENTS: usize = 1 << 24;

/// How the elements of a slice are written.
pub struct Layout<T> {
    /// How many elements are one unit, which a text never divides.
    pub unit: usize,
    /// How many units stand in a text at most.
    pub units_in_text: usize,
    /// How often a unit comes at least, where it is written once and repeated.
    pub least_times: usize,
    /// The text of elements.
    pub show: fn(&[T]) -> String,
}

impl<T: PartialEq> Layout<T> {
    /// The values of a list that stands for the elements.
    pub fn list(&self, elements: &[T]) -> Vec<Json> {
        let (mut values, mut start, mut at) = (Vec::new(), 0, 0);
        while at < elements.len() {
            let end = elements.len().min(at + self.unit);
            let unit = &elements[at..end];
            let times = times_of_first(&elements[at..], unit.len());
            let behind = at + times * unit.len();
            if times >= self.least_times {
                self.add_texts(&mut values, &elements[start..at]);
                values.push(repeat((self.show)(unit), times));
                start = behind;
            }
            at = behind;
        }
        self.add_texts(&mut values, &elements[start..]);
        values
    }

    /// Adds texts of all elements.
    fn add_texts(&self, values: &mut Vec<Json>, elements: &[T]) {
        let texts = elements.chunks(self.unit * self.units_in_text);
        values.extend(texts.map(|part| Json::Text((self.show)(part))));
    }
}

/// How often the first unit comes, one behind the other. Long runs are compared in long steps.
fn times_of_first<T: PartialEq>(elements: &[T], unit: usize) -> usize {
    let (mut times, mut step) = (1, 1);
    while step > 0 {
        let next = elements.get(times * unit..(times + step) * unit);
        if next == Some(&elements[..step * unit]) {
            (times, step) = (times + step, 2 * step);
        } else {
            step /= 2;
        }
    }
    times
}

/// The object for a text that comes several times.
fn repeat(text: String, times: usize) -> Json {
    Json::Object(vec![
        ("repeat".to_string(), Json::Text(text)),
        ("times".to_string(), Json::Number(times as u64)),
    ])
}

/// Reads a list, each text by `elements_of`.
pub fn read_list<T: Copy>(
    json: Json,
    elements_of: impl Fn(&str) -> Result<Vec<T>, String>,
) -> Result<Vec<T>, String> {
    let Json::List(values) = json else {
        return Err(format!("{json} is no list"));
    };
    let mut elements = Vec::new();
    for value in values {
        let (text, times) = match value {
            Json::Text(text) => (text, 1),
            repeat => text_and_times(repeat)?,
        };
        let part = elements_of(&text)?;
        if part.is_empty() || times > (MOST_ELEMENTS - elements.len()) / part.len() {
            return Err(format!("`{text}` {times} times: no element, or too many"));
        }
        elements.extend(part.repeat(times));
    }
    Ok(elements)
}

/// What an object repeats, and how often.
fn text_and_times(json: Json) -> Result<(String, usize), String> {
    let mut fields = Fields::of(json)?;
    let text = fields.take_text("repeat")?;
    let times = fields.take_number("times")?;
    fields.finish()?;
    match times {
        0 => Err("repeated 0 times".to_string()),
        _ => Ok((text, times as usize)),
    }
}

/// Bytes in hexadecimal digits.
pub fn show_bytes(bytes: &[u8]) -> String {
    bytes.iter().map(|byte| format!("{byte:02X}")).collect()
}

/// The bytes of hexadecimal digits.
pub fn bytes_of(digits: &str) -> Result<Vec<u8>, String> {
    let is_digit = |byte: &u8| matches!(byte, b'0'..=b'9' | b'A'..=b'F');
    if digits.len() % 2 == 1 || !digits.bytes().all(|byte| is_digit(&byte)) {
        return Err(format!("`{digits}` are no bytes"));
    }
    let byte = |at| u8::from_str_radix(&digits[at..at + 2], 16).expect("two digits");
    Ok((0..digits.len()).step_by(2).map(byte).collect())
}

/// Numbers in decimal digits, with blanks between them.
pub fn show_numbers<N: ToString>(numbers: &[N]) -> String {
    let numbers: Vec<String> = numbers.iter().map(N::to_string).collect();
    numbers.join(" ")
}

/// A number of its type in decimal digits.
pub fn number_of<N: TryFrom<u64>>(digits: &str) -> Result<N, String> {
    let number: u64 = decimal(digits)?;
    N::try_from(number).map_err(|_| format!("`{digits}` is too large"))
}

/// The numbers of a text, with blanks between them.
pub fn numbers_of<N: TryFrom<u64>>(text: &str) -> Result<Vec<N>, String> {
    text.split(' ').map(number_of).collect()
}
