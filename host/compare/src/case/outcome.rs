//! What comes of a case.

use route_record::{Place, Refusal};

use super::Case;
use crate::Difference;

/// What a call answers.
#[derive(Clone, Debug, PartialEq, Eq)]
pub enum Answer {
    /// Accepted, with the numbers that the call gives. Same route and `accepts` give 1 for yes and 0
    /// for no; a signed number is given as its 64-bit pattern in two's complement.
    Accepted(Vec<u64>),
    /// Refused.
    Refused {
        /// Number and place.
        refusal: Refusal,
        /// The record that same route names, 1 or 2, and 0 for neither; 0 for all other calls.
        record: u64,
    },
}

impl Answer {
    /// The answer of a call that names no record.
    pub(super) fn of<const N: usize>(result: Result<[u64; N], Refusal>) -> Answer {
        match result {
            Ok(given) => Answer::Accepted(given.to_vec()),
            Err(refusal) => Answer::Refused { refusal, record: 0 },
        }
    }

    /// The N numbers of an accepted call that gives so many, else the refusal.
    pub fn result<const N: usize>(self) -> Result<[u64; N], Refusal> {
        match self {
            Answer::Accepted(given) => Ok(given.try_into().expect("N numbers")),
            Answer::Refused { refusal, .. } => Err(refusal),
        }
    }

    /// The five words of the C answer.
    pub fn c_words(&self) -> [u64; 5] {
        match self {
            Answer::Accepted(given) => {
                let given = |place| given.get(place).copied().unwrap_or(0);
                [0, 0, 0, given(0), given(1)]
            }
            Answer::Refused { refusal, record } => {
                let (kind, place) = match refusal.place {
                    Place::Word(word) => (1, word),
                    Place::Byte(byte) => (2, byte),
                    Place::Row(row) => (3, row),
                };
                [refusal.number, kind, place, 0, *record]
            }
        }
    }

    /// 0 for an accepted call, else the refusal's number.
    pub fn number(&self) -> u64 {
        match self {
            Answer::Accepted(_) => 0,
            Answer::Refused { refusal, .. } => refusal.number,
        }
    }
}

/// What comes of a case: the answer, and everything that the call was given as it is afterwards,
/// the margins around the lent buffers included. So two outcomes are equal only if the buffers are,
/// and if nothing outside them and nothing that is only read was changed differently. Outcomes
/// of previews are equal only if the writings beside them answer and change alike, too, and that of an
/// accepted whole reading equals the model's only if the reading of a front part beside it is sound.
#[derive(Clone, Debug, PartialEq, Eq)]
pub struct Outcome {
    /// The answer.
    pub answer: Answer,
    /// The case after the call, with margins around the lent buffers.
    after: Case,
    /// Of a preview, the answer that is right by the writing beside it; its own, if there is none.
    by_writing: Option<Answer>,
    /// Of an accepted whole reading, the reading of a front part of the record beside it, if that is
    /// not sound.
    unsound_front: Option<Box<Difference>>,
}

impl Outcome {
    /// The outcome of a call that gets the case with margins around the lent buffers.
    pub fn of(case: &Case, call: impl FnOnce(&mut Case) -> Answer) -> Outcome {
        let mut after = case.clone();
        for (_, lent) in after.lent() {
            lent.add_margins();
        }
        let answer = call(&mut after);
        let by_writing = matches!(case, Case::Preview { .. }).then(|| answer.clone());
        Outcome {
            answer,
            after,
            by_writing,
            unsound_front: None,
        }
    }

    /// The outcome by an implementation of the calls: of a preview, beside what its writing does to a
    /// copy of the output; of an accepted whole reading, beside the reading of a front part.
    pub fn by(case: &Case, call: impl Fn(&mut Case) -> Answer) -> Outcome {
        let outcome = Outcome::of(case, &call);
        if let Some(writing) = case.previewed() {
            return outcome.beside(&Outcome::of(&writing, &call));
        }
        let is_accepted = outcome.answer.number() == 0;
        match is_accepted.then(|| case.front_part()).flatten() {
            Some(front) => outcome.beside_front(Difference {
                model: front.of_model(),
                library: Outcome::of(&front, &call),
                case: front,
            }),
            None => outcome,
        }
    }

    /// The outcome of a preview beside that of the writing that it is about. A sound preview gives
    /// the writing's refusal, or its size and how many bytes of the output it changes.
    pub fn beside(self, writing: &Outcome) -> Outcome {
        let (Case::Preview { out: before, .. }, Case::MarshallVal { out: after, .. }) =
            (&self.after, writing.after())
        else {
            panic!("a preview and a writing");
        };
        let bytes = before.iter().zip(&after);
        let changed = bytes.filter(|(before, after)| before != after).count();
        let by_writing = match &writing.answer {
            Answer::Accepted(size) => Answer::Accepted([&size[..], &[changed as u64]].concat()),
            refused => refused.clone(),
        };
        Outcome {
            by_writing: Some(by_writing),
            ..self
        }
    }

    /// The outcome of an accepted whole reading beside that of a proper front part of its record,
    /// which is sound if library and model refuse it with 9 at the same byte and change nothing.
    pub fn beside_front(self, front: Difference) -> Outcome {
        let is_sound = front.library == front.model && front.library.is_refused_with_9(&front.case);
        Outcome {
            unsound_front: (!is_sound).then(|| Box::new(front)),
            ..self
        }
    }

    /// Whether the case was refused with 9 at a byte, and everything that the call was given is as it
    /// was, the margins around the lent buffers included.
    pub fn is_refused_with_9(&self, case: &Case) -> bool {
        let Answer::Refused { refusal, record: 0 } = self.answer else {
            return false;
        };
        refusal.number == Refusal::BYTES_MISSING
            && matches!(refusal.place, Place::Byte(_))
            && *self == Outcome::with(self.answer.clone(), case)
    }

    /// The reading of a front part beside an accepted whole reading, if it is not sound.
    pub fn unsound_front(&self) -> Option<&Difference> {
        self.unsound_front.as_deref()
    }

    /// The answer that is right by the writing beside a preview, if the preview gives another.
    pub fn contradiction(&self) -> Option<&Answer> {
        let by_writing = self.by_writing.as_ref();
        by_writing.filter(|&answer| *answer != self.answer)
    }

    /// The outcome of a call with this answer that leaves the case like this.
    pub fn with(answer: Answer, after: &Case) -> Outcome {
        Outcome::of(after, |_| answer)
    }

    /// The case after the call, without the margins.
    pub fn after(&self) -> Case {
        let mut after = self.after.clone();
        for (_, lent) in after.lent() {
            lent.remove_margins();
        }
        after
    }
}
