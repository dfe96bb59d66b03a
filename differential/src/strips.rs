//! The two strips, over memory that holds something before.

use crate::meaning::{Plain, Strip};
use crate::ours::Datum;

pub struct TextStrip {
    pub memory: Vec<u8>,
    pub filled: usize,
}

impl Strip for TextStrip {
    fn put(&mut self, value: Plain) -> bool {
        let line = match value {
            Plain::Number(number) => format!("{number}\n"),
            Plain::Truth(truth) => format!("{truth}\n"),
        };
        let Some(place) = self.memory.get_mut(self.filled..self.filled + line.len()) else { return false };
        place.copy_from_slice(line.as_bytes());
        self.filled += line.len();
        true
    }
}

pub struct DataStrip {
    pub memory: Vec<Datum>,
    pub filled: usize,
}

impl Strip for DataStrip {
    fn put(&mut self, value: Plain) -> bool {
        let Some(place) = self.memory.get_mut(self.filled) else { return false };
        *place = match value {
            Plain::Number(number) => Datum { sort: 0, number },
            Plain::Truth(truth) => Datum { sort: 1, number: i32::from(truth) },
        };
        self.filled += 1;
        true
    }
}
