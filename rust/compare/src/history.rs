//! The model of sets: for each word of a gathering, the set of values that accepted blocks have carried.
use std::collections::BTreeSet;

use crate::model::{self, Refused, PIXEL};
use crate::tally::Held;

/// A history: what each word was carried with.
#[derive(Clone)]
pub struct History {
    values: Vec<BTreeSet<u16>>,
}

impl History {
    pub fn fresh() -> Self {
        Self { values: vec![BTreeSet::new(); 832] }
    }

    pub fn take(&mut self, block: &[u8]) -> Result<(), Refused> {
        let first = model::block(block)?;
        for (i, word) in block[5..].chunks_exact(2).enumerate() {
            self.values[first + i].insert(u16::from_be_bytes([word[0], word[1]]));
        }
        Ok(())
    }

    pub fn join(&mut self, other: &History) {
        for (mine, theirs) in self.values.iter_mut().zip(&other.values) {
            mine.extend(theirs);
        }
    }

    pub fn word(&self, word: usize) -> (u8, u16) {
        let values = &self.values[word];
        match values.len() {
            0 => (0, 0),
            1 => (1, *values.iter().next().expect("one value")),
            _ => (2, 0),
        }
    }

    pub fn bytes(&self) -> Vec<u8> {
        let mut bytes = Vec::with_capacity(2496);
        for word in 0..832 {
            bytes.extend_from_slice(&self.word(word).1.to_be_bytes());
        }
        for word in 0..832 {
            bytes.push(self.word(word).0);
        }
        bytes
    }

    pub fn count(&self, mark: u8) -> usize {
        (0..832).filter(|word| self.word(*word).0 == mark).count()
    }

    /// Any bytes, read as a history that gives the same state.
    pub fn read(bytes: &[u8]) -> Self {
        let mut history = Self::fresh();
        for word in 0..832 {
            match bytes[1664 + word] {
                0 => {}
                1 => {
                    history.values[word].insert(u16::from_be_bytes([bytes[2 * word], bytes[2 * word + 1]]));
                }
                _ => {
                    history.values[word].extend(&[0, 1]);
                }
            }
        }
        history
    }

    /// Refusal 9 or 10 among some words, which are rising: the lowest in conflict, or else the lowest missing.
    pub fn fault(&self, words: impl Iterator<Item = usize> + Clone) -> Result<(), Refused> {
        let lowest = |mark| words.clone().find(|word| self.word(*word).0 == mark);
        let named = |number, word| Err(Refused { number, table: 0, place: word as u64 });
        match (lowest(2), lowest(0)) {
            (Some(word), _) => named(9, word),
            (None, Some(word)) => named(10, word),
            (None, None) => Ok(()),
        }
    }

    /// What a pixel gets by itself, and what that is held to: the sets, or an image with the words that it needs.
    pub fn pixel(&self, pixel: usize) -> (Held, Result<[u8; PIXEL], Refused>) {
        match self.fault(model::needed(pixel).into_iter()) {
            Err(refused) => (Held::Sets, Err(refused)),
            Ok(()) => (Held::Pixels, model::single(&self.bytes()[..1664])(pixel)),
        }
    }
}
