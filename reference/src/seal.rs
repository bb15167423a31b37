//! The keyed seal and the sheet seal.

use crate::table::MAX_STATIONS;

pub type Statement = [u8; 24];

#[derive(Clone, Debug)]
pub enum Seal {
    Keyed([u64; MAX_STATIONS]),
    Sheet(Vec<u64>),
}

impl Seal {
    /// The one right tag of a station on a statement.
    pub fn tag(&self, station: u8, statement: &Statement) -> u64 {
        let station = station as usize;
        if station >= MAX_STATIONS {
            return 0;
        }
        match self {
            Seal::Keyed(keys) => keyed(keys[station], statement),
            Seal::Sheet(words) => sheet(words, station, statement),
        }
    }

    pub fn is_right(&self, station: u8, statement: &Statement, tag: u64) -> bool {
        self.tag(station, statement) == tag
    }
}

fn keyed(key: u64, statement: &Statement) -> u64 {
    statement.chunks_exact(8).fold(key, |h, chunk| {
        let word = u64::from_be_bytes(chunk.try_into().expect("chunks of eight bytes"));
        (h ^ word).rotate_left(13).wrapping_add(key)
    })
}

fn sheet(words: &[u64], station: usize, statement: &Statement) -> u64 {
    statement.iter().enumerate().fold(0, |tag, (p, byte)| {
        let word = words.get(256 * station + *byte as usize).copied().unwrap_or(0);
        tag ^ word.rotate_left(p as u32)
    })
}
