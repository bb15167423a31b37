//! Who sits in which committee.

use crate::fault::{Fault, refuse_if};
use crate::table::Table;

pub const TOP: u32 = 999_999;

#[derive(Clone, Debug)]
pub struct Policy {
    pub n: usize,
    pub t: usize,
    seating: Seating,
}

#[derive(Clone, Debug)]
enum Seating {
    Rotating,
    /// The masks with t + 1 ones in rising order.
    Full(Vec<u16>),
}

impl Policy {
    pub fn rotating(table: &Table) -> Result<Self, Fault> {
        let (n, t) = (table.n(), table.t);
        refuse_if(n < t * t + t + 1, 5)?;
        Ok(Policy { n, t, seating: Seating::Rotating })
    }

    pub fn full(table: &Table) -> Self {
        let (n, t) = (table.n(), table.t);
        let all = (0..1u32 << n).filter(|m| m.count_ones() as usize == t + 1);
        Policy { n, t, seating: Seating::Full(all.map(|m| m as u16).collect()) }
    }

    /// Of so many committees in a row one has none of any t stations.
    pub fn turn(&self) -> usize {
        match &self.seating {
            Seating::Rotating => self.t * self.t + self.t + 1,
            Seating::Full(masks) => masks.len(),
        }
    }

    pub fn sits(&self, station: usize, c: u32) -> bool {
        if station >= self.n || c > TOP {
            return false;
        }
        let c = c as usize;
        match &self.seating {
            Seating::Rotating => (station + self.n - c % self.n) % self.n <= self.t,
            Seating::Full(masks) => masks[c % masks.len()] >> station & 1 == 1,
        }
    }

    pub fn committee(&self, c: u32) -> Vec<usize> {
        (0..self.n).filter(|i| self.sits(*i, c)).collect()
    }
}
