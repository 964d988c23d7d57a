//! Labels: kept once, waiting until a statement binds them (document 01, "Rules of writing":
//! "All waiting labels are bound at once").

use super::Refusal;
use std::collections::HashMap;

/// "labels at most 512, a label at most 64 bytes".
pub const LABELS_LIMIT: usize = 512;
pub const NAME_LIMIT: usize = 64;

#[derive(Debug, Default)]
pub struct Labels<'s> {
    /// Each label's place in the order of definition.
    places: HashMap<&'s [u8], usize>,
    /// The values of the labels bound so far. The rest wait: they are always the latest ones.
    values: Vec<u16>,
}

impl<'s> Labels<'s> {
    /// Keeps a line's label as waiting: 10 is judged before 9.
    pub fn keep(&mut self, name: &'s [u8]) -> Result<(), Refusal> {
        let place = self.places.len();
        if name.len() > NAME_LIMIT || place == LABELS_LIMIT {
            return Err(Refusal::LabelNotKept);
        }
        if self.places.contains_key(name) {
            return Err(Refusal::LabelAgain);
        }
        self.places.insert(name, place);
        Ok(())
    }

    pub fn are_waiting(&self) -> bool {
        self.values.len() < self.places.len()
    }

    pub fn bind_waiting(&mut self, value: u16) {
        self.values.resize(self.places.len(), value);
    }

    pub fn value(&self, name: &[u8]) -> Option<u16> {
        let place = *self.places.get(name)?;
        self.values.get(place).copied()
    }
}
