//! What comes from outside: frames of faulty stations, replays, damaged copies, forgeries and misshapen frames.

use crate::frame::{self, Frame, Kind, LAST_NUMBER, MAX_BYTES, Pair};
use crate::pool::Source;
use crate::random::Maker;
use crate::rule::{self, Entry};
use crate::seal::Statement;

/// One frame from outside, chosen by what lies in a maker's pool and where its stations stand.
pub struct Attack<'a> {
    maker: &'a mut Maker,
    /// Whether right tags of correct stations are used on whatever they never said.
    forges: bool,
}

impl<'a> Attack<'a> {
    pub fn of(maker: &'a mut Maker) -> Self {
        let forges = maker.rng.one_in(5);
        Attack { maker, forges }
    }

    pub fn line(mut self) -> Option<String> {
        let bytes = match self.maker.rng.below(12) {
            0..=2 => self.proposal().encode(),
            3..=5 => self.decision().encode(),
            6..=8 => self.reselect().encode(),
            9 => self.replay()?,
            10 => self.damaged()?,
            _ => self.misshapen(),
        };
        Some(frame::hex(&bytes))
    }

    fn below(&mut self, bound: usize) -> usize {
        self.maker.rng.below(bound)
    }

    /// Who is to have said it: a faulty station, if there is one.
    fn sender(&mut self) -> u8 {
        let faulty = self.maker.stations(true);
        match self.maker.rng.pick(&faulty) {
            Some(q) if !self.forges && !self.maker.rng.one_in(8) => *q as u8,
            _ => self.below(self.maker.n()) as u8,
        }
    }

    fn batch(&mut self) -> u16 {
        let i = self.maker.correct();
        let now = self.maker.station(i).booked as u16 + 1;
        self.maker.rng.one_of(&[now, now, now, now, now, now + 1, now.saturating_sub(1).max(1)])
    }

    /// The right entry of a batch, or one that is off in some field.
    fn entry(&mut self, batch: u16) -> Entry {
        let setup = &self.maker.hall().setup;
        let book = rule::clerk(setup.rule, &self.maker.desk.buffers.intake);
        let mut entry = book.get(batch as usize - 1).copied().unwrap_or_default();
        match self.below(8) {
            0 => entry.grower ^= 1,
            1 => entry.amount = entry.amount.wrapping_add(1000),
            2 => entry.carry ^= 1,
            3 => entry.figure ^= 1 << 31,
            _ => {}
        }
        entry
    }

    /// The frame with the tag of its sender: the right one, unless it is a correct station's and nothing is forged.
    fn sealed(&mut self, mut frame: Frame) -> Frame {
        frame.tag = self.tag(frame.sender, &frame.statement());
        frame
    }

    fn tag(&mut self, station: u8, statement: &Statement) -> u64 {
        if let Some(tag) = self.said(station, statement) {
            return tag;
        }
        let setup = &self.maker.hall().setup;
        let right = setup.seal.tag(station, statement);
        let faulty = !setup.table.is_correct(station);
        let wrong = self.maker.rng.one_of(&[right ^ 1, right ^ 1 << 63, 0, right.swap_bytes()]);
        if self.forges || faulty && !self.maker.rng.one_in(12) { right } else { wrong }
    }

    /// The tag of a statement that a step issued.
    fn said(&self, station: u8, statement: &Statement) -> Option<u64> {
        let pool = &self.maker.desk.buffers.pool;
        let issued = pool.iter().any(|slot| slot.by == Source::Step && slot.frame().starts_with(statement));
        issued.then(|| self.maker.hall().setup.seal.tag(station, statement))
    }

    fn proposal(&mut self) -> Frame {
        let (sender, batch) = (self.sender(), self.batch());
        let entry = self.entry(batch);
        self.sealed(Frame { kind: Kind::Propose, sender, batch, number: 0, entry, tag: 0, pairs: Vec::new() })
    }

    /// A decision whose pairs are as good as can be had: issued proposals and faulty stations first.
    fn decision(&mut self) -> Frame {
        let (sender, batch) = (self.sender(), self.batch());
        let entry = self.entry(batch);
        let mut frame = Frame { kind: Kind::Decision, sender, batch, number: 0, entry, tag: 0, pairs: Vec::new() };
        let quorum = self.maker.hall().setup.table.t + 1;
        let mut stations: Vec<u8> = (0..self.maker.n() as u8).collect();
        let mixed = self.maker.rng.one_in(3);
        stations.sort_by_cached_key(|q| {
            let good =
                !self.maker.hall().setup.table.is_correct(*q) || self.said(*q, &frame.pair_statement(*q)).is_some();
            (!good && !mixed, self.maker.rng.next())
        });
        stations.truncate(quorum);
        stations.sort_unstable();
        for station in stations {
            let tag = self.tag(station, &frame.pair_statement(station));
            frame.pairs.push(Pair { station, tag });
        }
        self.sealed(frame)
    }

    fn reselect(&mut self) -> Frame {
        let (sender, batch) = (self.sender(), self.batch());
        let i = self.maker.correct();
        let own = self.maker.station(i).number;
        let number = self.maker.rng.one_of(&[own + 1, own + 1, own + 1, own + 1, own, own + 2, 1, LAST_NUMBER]) as u16;
        self.reselect_frame(sender, batch, number.max(1))
    }

    fn reselect_frame(&mut self, sender: u8, batch: u16, number: u16) -> Frame {
        let entry = Entry::default();
        let mut frame = Frame { kind: Kind::Reselect, sender, batch, number, entry, tag: 0, pairs: Vec::new() };
        let c = u32::from(number);
        let leaves = self.maker.hall().setup.policy.sits(sender as usize, c - 1);
        if leaves == self.maker.rng.one_in(6) {
            let left = self.maker.hall().setup.policy.committee(c - 1);
            let station = match self.maker.rng.below(4) {
                // one whose tag can be had, whether or not it sits there
                0 => self.sender(),
                1 => self.below(self.maker.n()) as u8,
                _ => self.maker.rng.one_of(&left) as u8,
            };
            let tag = self.tag(station, &frame.pair_statement(station));
            frame.pairs.push(Pair { station, tag });
        }
        self.sealed(frame)
    }

    fn replay(&mut self) -> Option<Vec<u8>> {
        let frames = self.maker.frames();
        if frames == 0 {
            return None;
        }
        let f = self.below(frames);
        Some(self.maker.desk.buffers.pool[f].frame().to_vec())
    }

    /// A copy of a frame with a bit turned, cut short or made longer.
    fn damaged(&mut self) -> Option<Vec<u8>> {
        let mut bytes = self.replay()?;
        match self.below(6) {
            0 => bytes.truncate(self.maker.rng.between(1, bytes.len())),
            1 if bytes.len() < MAX_BYTES => bytes.push(0),
            _ => {
                let at = self.below(bytes.len());
                bytes[at] ^= 1 << self.below(8);
            }
        }
        Some(bytes)
    }

    /// A frame that is wrong in just one field, and rightly sealed for all that.
    fn misshapen(&mut self) -> Vec<u8> {
        let frame = match self.below(3) {
            0 => self.proposal(),
            1 => self.decision(),
            _ => self.reselect(),
        };
        let mut bytes = frame.encode();
        self.break_field(&frame, &mut bytes);
        let setup = &self.maker.hall().setup;
        if bytes.len() >= 32 && !setup.table.is_correct(bytes[1]) {
            let statement: Statement = bytes[..24].try_into().expect("24 bytes");
            let tag = setup.seal.tag(bytes[1], &statement);
            bytes[24..32].copy_from_slice(&tag.to_be_bytes());
        }
        bytes
    }

    fn break_field(&mut self, frame: &Frame, bytes: &mut Vec<u8>) {
        let n = self.maker.n() as u8;
        let past = self.maker.hall().setup.batches as u16 + 1;
        match self.below(10) {
            0 => bytes[0] = self.maker.rng.one_of(&[0, 4, 255]),
            1 => bytes[1] = self.maker.rng.one_of(&[n, 16, 255]),
            2 => set16(bytes, 2, self.maker.rng.one_of(&[0, past, 65_535])),
            3 if frame.kind == Kind::Reselect => set16(bytes, 4, self.maker.rng.one_of(&[0, 20_001, 65_535])),
            3 => set16(bytes, 4, self.maker.rng.one_of(&[1, 256])),
            4 => bytes[6] = self.maker.rng.one_of(&[bytes[6] + 1, bytes[6].wrapping_sub(1), 2, 9]),
            5 => bytes[7] = self.maker.rng.one_of(&[1, 128]),
            6 => bytes[self.maker.rng.between(8, 23)] ^= 1,
            7 => self.break_length(bytes),
            _ => self.break_pairs(frame, bytes),
        }
    }

    fn break_length(&mut self, bytes: &mut Vec<u8>) {
        match self.below(3) {
            0 => bytes.truncate(self.maker.rng.between(1, 31)),
            1 => bytes.truncate(bytes.len() - 1),
            _ => bytes.resize((bytes.len() + self.maker.rng.one_of(&[1, 9])).min(MAX_BYTES), 0),
        }
    }

    /// Pairs in the wrong order, each right by itself, or a pair of no station or of the one before.
    fn break_pairs(&mut self, frame: &Frame, bytes: &mut [u8]) {
        let n = self.maker.n() as u8;
        let Some(last) = frame.pairs.len().checked_sub(1) else { return };
        if last == 0 {
            bytes[Frame::pair_place(0)] = n;
            return;
        }
        let k = self.maker.rng.between(1, last);
        let (before, own) = bytes[Frame::pair_place(k - 1)..].split_at_mut(9);
        match self.maker.rng.below(4) {
            0 => own[0] = before[0],
            1 => own[0] = self.maker.rng.one_of(&[n, 255]),
            _ => before.swap_with_slice(&mut own[..9]),
        }
    }
}

fn set16(bytes: &mut [u8], at: usize, value: u16) {
    bytes[at..at + 2].copy_from_slice(&value.to_be_bytes());
}

/// The line of a faulty station's reselect frame without pair.
pub fn plain_reselect(maker: &Maker, sender: usize, batch: u16, number: u32) -> String {
    let entry = Entry::default();
    let (sender, number) = (sender as u8, number as u16);
    let mut frame = Frame { kind: Kind::Reselect, sender, batch, number, entry, tag: 0, pairs: Vec::new() };
    frame.tag = maker.hall().setup.seal.tag(sender, &frame.statement());
    frame::hex(&frame.encode())
}
