//! What an update or a training leaves behind.

use crate::run::{lent, Pattern, Same};
use nuqtelya::Event;
use oracle::{Answer, Refusal};

/// The answer, the codebook or the codewords, and the lent buffers.
pub struct Left<T, W> {
    pub answer: Answer<T>,
    pub words: Vec<W>,
    pub work: Vec<f64>,
    pub counts: Vec<u32>,
    pub events: Vec<Event>,
}

/// The lengths of float work, integer work and event slots.
#[derive(Clone, Copy)]
pub struct Lent {
    pub work: usize,
    pub counts: usize,
    pub slots: usize,
}

impl Lent {
    /// Refused by a check: every buffer is as it was.
    pub fn untouched<T, W>(self, refusal: Refusal, words: Vec<W>) -> Left<T, W> {
        let (work, counts, events) = (lent(self.work), lent(self.counts), lent(self.slots));
        Left { answer: Err(refusal), words, work, counts, events }
    }

    /// Refused once updating has begun: work and event slots hold zeros.
    pub fn zeroed<T, W>(self, refusal: Refusal, words: Vec<W>) -> Left<T, W> {
        let events = vec![Event::default(); self.slots];
        Left { answer: Err(refusal), words, work: vec![0.0; self.work], counts: vec![0; self.counts], events }
    }

    /// Completed: the work holds zeros, and the slots after the events are as they were.
    pub fn completed<T, W>(self, result: T, words: Vec<W>, mut events: Vec<Event>) -> Left<T, W> {
        events.resize(self.slots, Event::PATTERN);
        Left { answer: Ok(result), words, work: vec![0.0; self.work], counts: vec![0; self.counts], events }
    }
}

impl<T: Same, W: Same> Same for Left<T, W> {
    fn same(&self, other: &Self) -> bool {
        self.answer.same(&other.answer)
            && self.words.same(&other.words)
            && self.work.same(&other.work)
            && self.counts.same(&other.counts)
            && self.events.same(&other.events)
    }
    fn hex(&self) -> String {
        format!(
            "{}\n    codewords {}\n    work {}\n    counts {}\n    events {}",
            self.answer.hex(),
            self.words.hex(),
            self.work.hex(),
            self.counts.hex(),
            self.events.hex()
        )
    }
    fn number(&self) -> u32 {
        self.answer.number()
    }
}
