//! The comparison: the model and another station do the same, and after every call their answers
//! and all that is lent to them have to be equal.

use crate::act::{Act, Buffers};
use crate::coverage::Coverage;
use crate::model::Model;
use crate::numbers::is_refusal;
use crate::side::{Answer, Side};
use crate::station::{word, Station};

pub struct Pair<'s> {
    pub model: Side<'s>,
    pub other: Side<'s>,
    pub coverage: Coverage,
}

/// What was found to differ, in words.
pub type Difference = String;

impl<'s> Pair<'s> {
    pub fn new(other: &'s dyn Station) -> Pair<'s> {
        let coverage = Coverage::default();
        Pair { model: Side::new(&Model), other: Side::new(other), coverage }
    }

    /// Both do it; the answer that both gave, if it was a call.
    pub fn act(&mut self, act: &Act) -> Result<Option<Answer>, Difference> {
        let before = act.entry().map(|_| self.model.buffers());
        let answer = self.model.act(act);
        let other = self.other.act(act);
        if let (Some(entry), Some(answer), Some(before)) = (act.entry(), &answer, before) {
            self.coverage.count(entry, answer.number);
            self.compare(answer, &other.expect("both made a call"), &before)?;
        }
        Ok(answer)
    }

    fn compare(&self, answer: &Answer, other: &Answer, before: &Buffers) -> Result<(), Difference> {
        if answer != other {
            return Err(format!("the model answers {answer:?}, the other {other:?}"));
        }
        if let Some(slice) = self.other.differs(&self.model.buffers()) {
            return Err(format!("the words that they leave differ in {slice}"));
        }
        if !self.other.canaries_are_whole() {
            return Err("a byte before a slice was written".to_string());
        }
        if is_refusal(answer.number) && (self.model.buffers() != *before || !answer.out_as_before) {
            return Err(format!("refusal {} has changed a slice", answer.number));
        }
        Ok(())
    }

    /// A word of the session, 0 where there is none.
    pub fn session(&self, word: usize) -> u64 {
        self.model.session.get(word).copied().unwrap_or(0)
    }

    /// The held part of the log, as far as there are bytes.
    pub fn held(&self) -> &[u8] {
        let bytes = self.session(word::HELD).saturating_mul(8);
        let len = self.model.log.len();
        &self.model.log[..len.min(bytes.try_into().unwrap_or(len))]
    }
}
