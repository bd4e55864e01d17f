//! Lists of grammars, and which grammar of one accepts a record.

use crate::{calls, Chosen, Grammar, Refusal};

/// From 1 to 16 grammars, of which the first that accepts a record is chosen.
///
/// ```
/// use route_record::{Chosen, Grammar, GrammarList, Refusal};
///
/// let texts = ["u32", "array(constant)", "tuple(u32, bytes)"];
/// let grammars = texts.map(|text| text.parse::<Grammar>().unwrap());
/// let list = GrammarList::new(&grammars)?;
///
/// // The uint32 is read and bytes are left over, the array counts too many elements, and the tuple
/// // has three rows.
/// let record = [7, 0, 0, 0, 2, 0, 0, 0, 0, 0, 0, 0, 0x41, 0x42];
/// let chosen = list.choose(&record)?;
/// assert_eq!(chosen, Chosen { number: 2, begun: 1 + 1 + 3 });
/// assert_eq!(grammars[chosen.number].demarshall_vec(&record)?.row_count(), 3);
///
/// let refusal = list.choose(&record[..13]).unwrap_err();
/// assert_eq!(refusal.number, Refusal::NO_GRAMMAR_ACCEPTS);
/// # Ok::<(), route_record::Refusal>(())
/// ```
#[derive(Clone, Debug, PartialEq, Eq, Hash)]
pub struct GrammarList {
    words: Vec<u32>,
}

impl GrammarList {
    /// The list of these grammars, whose words are copied. Refused by 21 as
    /// [`calls::choose_grammar`] refuses, when there are none or more than 16.
    ///
    /// ```
    /// use route_record::{Grammar, GrammarList};
    ///
    /// let grammars = ["u32", "u64"].map(|text| text.parse::<Grammar>().unwrap());
    /// let list = GrammarList::new(&grammars)?;
    /// assert_eq!(list.words(), [2, 5, 1, 1, 0, 0, 0, 5, 1, 2, 0, 0, 0]);
    ///
    /// assert_eq!(GrammarList::new(&[]).unwrap_err().number, 21);
    /// # Ok::<(), route_record::Refusal>(())
    /// ```
    pub fn new(grammars: &[Grammar]) -> Result<GrammarList, Refusal> {
        // A count that no word holds is refused as the greatest word is.
        let word = |count: usize| u32::try_from(count).unwrap_or(u32::MAX);
        let mut words = vec![word(grammars.len())];
        for grammar in grammars {
            words.push(word(grammar.words().len()));
            words.extend(grammar.words());
        }
        // Whatever the record is, the library checks the list before it.
        match calls::choose_grammar(&words, &[]) {
            Err(refusal) if refusal.number != Refusal::NO_GRAMMAR_ACCEPTS => Err(refusal),
            _ => Ok(GrammarList { words }),
        }
    }

    /// The words of the list: the count of grammars, then each grammar behind its word count.
    pub fn words(&self) -> &[u32] {
        &self.words
    }

    /// The first grammar that accepts the record whole, as [`Grammar::check_whole_with`] does with
    /// 4,096 rows, and the values begun by the tries. Refused by 6 and 22 as
    /// [`calls::choose_grammar`] refuses.
    ///
    /// ```
    /// use route_record::{Grammar, GrammarList};
    ///
    /// let grammars = ["u32", "tuple(u32)"].map(|text| text.parse::<Grammar>().unwrap());
    /// let list = GrammarList::new(&grammars)?;
    /// assert_eq!(list.choose(&[7, 0, 0, 0])?.number, 0);
    ///
    /// let refusal = list.choose(&[7, 0, 0]).unwrap_err();
    /// let words = "refused 22 at byte 0: no grammar of the list accepts the record whole";
    /// assert_eq!(refusal.to_string(), words);
    /// # Ok::<(), route_record::Refusal>(())
    /// ```
    pub fn choose(&self, record: &[u8]) -> Result<Chosen, Refusal> {
        calls::choose_grammar(&self.words, record)
    }
}
