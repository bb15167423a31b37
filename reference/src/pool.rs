//! The slots in which frames lie, for all stations.

use crate::frame::MAX_BYTES;
use crate::seal::Statement;

#[derive(Clone, Copy, Debug, PartialEq, Eq)]
pub enum Source {
    Step = 0,
    Outside = 1,
}

#[derive(Clone, Debug)]
pub struct Slot {
    pub len: usize,
    pub bytes: [u8; MAX_BYTES],
    pub by: Source,
    pub taken: bool,
}

impl Slot {
    pub const EMPTY: Slot = Slot { len: 0, bytes: [0; MAX_BYTES], by: Source::Step, taken: false };

    pub fn is_free(&self) -> bool {
        self.len == 0
    }

    /// The frame as it is read; a length above the greatest counts as that.
    pub fn frame(&self) -> &[u8] {
        &self.bytes[..self.len.min(MAX_BYTES)]
    }
}

/// Whether a call may begin: each may issue three frames.
pub fn is_roomy(pool: &[Slot]) -> bool {
    pool.iter().filter(|slot| slot.is_free()).take(3).count() == 3
}

/// Puts a frame into the lowest free slot.
pub fn enter(pool: &mut [Slot], frame: &[u8], by: Source) {
    if let Some(slot) = pool.iter_mut().find(|slot| slot.is_free()) {
        *slot = Slot { len: frame.len(), by, ..Slot::EMPTY };
        slot.bytes[..frame.len()].copy_from_slice(frame);
    }
}

/// Whether a frame that a step put into the pool begins with the statement.
pub fn is_issued(pool: &[Slot], statement: &Statement) -> bool {
    pool.iter().any(|slot| slot.by == Source::Step && slot.frame().starts_with(statement))
}
