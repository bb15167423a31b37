//! Open and locked tables of stations.

use crate::fault::{Fault, refuse_if};

pub const MAX_STATIONS: usize = 16;

#[derive(Clone, Debug, Default)]
pub struct OpenTable {
    faulty: Vec<bool>,
}

#[derive(Clone, Debug)]
pub struct Table {
    pub faulty: Vec<bool>,
    pub t: usize,
}

impl OpenTable {
    pub fn add(&mut self, mark: u32) -> Result<(), Fault> {
        refuse_if(self.faulty.len() >= MAX_STATIONS, 1)?;
        refuse_if(mark > 1, 2)?;
        self.faulty.push(mark == 1);
        Ok(())
    }

    pub fn lock(&self, t: u32) -> Result<Table, Fault> {
        let n = self.faulty.len();
        let t = t as usize;
        refuse_if(!(1..=7).contains(&t) || n < 2 * t + 1, 3)?;
        refuse_if(self.faulty.iter().filter(|f| **f).count() > t, 4)?;
        Ok(Table { faulty: self.faulty.clone(), t })
    }
}

impl Table {
    pub fn n(&self) -> usize {
        self.faulty.len()
    }

    pub fn is_correct(&self, station: u8) -> bool {
        self.faulty.get(station as usize) == Some(&false)
    }
}
