//! Frames and lines.

use crate::fault::Fault;
use crate::rule::Entry;
use crate::seal::Statement;

pub const MAX_BYTES: usize = 104;
pub const LAST_NUMBER: u32 = 20_000;

#[derive(Clone, Copy, Debug, PartialEq, Eq)]
pub enum Kind {
    Propose = 1,
    Decision = 2,
    Reselect = 3,
}

#[derive(Clone, Copy, Debug, PartialEq, Eq)]
pub struct Pair {
    pub station: u8,
    pub tag: u64,
}

#[derive(Clone, Debug, PartialEq, Eq)]
pub struct Frame {
    pub kind: Kind,
    pub sender: u8,
    pub batch: u16,
    pub number: u16,
    pub entry: Entry,
    pub tag: u64,
    pub pairs: Vec<Pair>,
}

/// What a frame's form is judged by.
#[derive(Clone, Copy, Debug)]
pub struct Form {
    pub n: usize,
    pub t: usize,
    pub batches: u32,
}

/// The first 24 bytes of a frame.
pub fn statement(kind: Kind, sender: u8, batch: u16, number: u16, count: u8, entry: &Entry) -> Statement {
    let mut bytes = [0; 24];
    bytes[0] = kind as u8;
    bytes[1] = sender;
    bytes[2..4].copy_from_slice(&batch.to_be_bytes());
    bytes[4..6].copy_from_slice(&number.to_be_bytes());
    bytes[6] = count;
    bytes[8..12].copy_from_slice(&entry.grower.to_be_bytes());
    bytes[12..16].copy_from_slice(&entry.amount.to_be_bytes());
    bytes[16..20].copy_from_slice(&entry.carry.to_be_bytes());
    bytes[20..24].copy_from_slice(&entry.figure.to_be_bytes());
    bytes
}

impl Frame {
    pub fn statement(&self) -> Statement {
        statement(self.kind, self.sender, self.batch, self.number, self.pairs.len() as u8, &self.entry)
    }

    /// The statement that a pair of this frame stands for.
    pub fn pair_statement(&self, station: u8) -> Statement {
        match self.kind {
            Kind::Reselect => statement(Kind::Reselect, station, self.batch, self.number, 0, &Entry::default()),
            _ => statement(Kind::Propose, station, self.batch, 0, 0, &self.entry),
        }
    }

    /// Where pair k begins.
    pub fn pair_place(k: usize) -> usize {
        32 + 9 * k
    }

    pub fn encode(&self) -> Vec<u8> {
        let mut bytes = self.statement().to_vec();
        bytes.extend_from_slice(&self.tag.to_be_bytes());
        for pair in &self.pairs {
            bytes.push(pair.station);
            bytes.extend_from_slice(&pair.tag.to_be_bytes());
        }
        bytes
    }

    pub fn decode(bytes: &[u8], form: &Form) -> Result<Self, Fault> {
        let malformed = |place| Err(Fault::at(16, place));
        if bytes.len() < 32 {
            return malformed(bytes.len());
        }
        let kind = match bytes[0] {
            1 => Kind::Propose,
            2 => Kind::Decision,
            3 => Kind::Reselect,
            _ => return malformed(0),
        };
        let sender = bytes[1];
        if sender as usize >= form.n {
            return malformed(1);
        }
        let batch = be16(bytes, 2);
        if batch == 0 || u32::from(batch) > form.batches {
            return malformed(2);
        }
        let number = be16(bytes, 4);
        let count = bytes[6] as usize;
        let (number_fits, count_fits) = match kind {
            Kind::Propose => (number == 0, count == 0),
            Kind::Decision => (number == 0, count == form.t + 1),
            Kind::Reselect => (number >= 1 && u32::from(number) <= LAST_NUMBER, count <= 1),
        };
        if !number_fits {
            return malformed(4);
        }
        if !count_fits {
            return malformed(6);
        }
        if bytes[7] != 0 {
            return malformed(7);
        }
        if kind == Kind::Reselect && bytes[8..24].iter().any(|b| *b != 0) {
            return malformed(8);
        }
        if bytes.len() != Self::pair_place(count) {
            return malformed(bytes.len());
        }
        let pairs = decode_pairs(&bytes[32..], form.n)?;
        let entry =
            Entry { grower: be32(bytes, 8), amount: be32(bytes, 12), carry: be32(bytes, 16), figure: be32(bytes, 20) };
        Ok(Frame { kind, sender, batch, number, entry, tag: be64(bytes, 24), pairs })
    }
}

fn decode_pairs(bytes: &[u8], n: usize) -> Result<Vec<Pair>, Fault> {
    let mut pairs: Vec<Pair> = Vec::with_capacity(bytes.len() / 9);
    for (k, chunk) in bytes.chunks_exact(9).enumerate() {
        let station = chunk[0];
        let rises = pairs.last().is_none_or(|before| before.station < station);
        if station as usize >= n || !rises {
            return Err(Fault::at(16, Frame::pair_place(k)));
        }
        pairs.push(Pair { station, tag: be64(chunk, 1) });
    }
    Ok(pairs)
}

fn be16(bytes: &[u8], at: usize) -> u16 {
    u16::from_be_bytes([bytes[at], bytes[at + 1]])
}

fn be32(bytes: &[u8], at: usize) -> u32 {
    u32::from_be_bytes(bytes[at..at + 4].try_into().expect("four bytes"))
}

fn be64(bytes: &[u8], at: usize) -> u64 {
    u64::from_be_bytes(bytes[at..at + 8].try_into().expect("eight bytes"))
}

fn digit(byte: u8) -> Option<u8> {
    match byte {
        b'0'..=b'9' => Some(byte - b'0'),
        b'a'..=b'f' => Some(byte - b'a' + 10),
        _ => None,
    }
}

/// The bytes that a line spells.
pub fn read_line(line: &[u8]) -> Result<Vec<u8>, Fault> {
    let len = line.len();
    if !(2..=2 * MAX_BYTES).contains(&len) || !len.is_multiple_of(2) {
        return Err(Fault::at(28, len));
    }
    match line.iter().position(|b| digit(*b).is_none()) {
        Some(place) => Err(Fault::at(28, place)),
        None => Ok(unhex(line).unwrap_or_default()),
    }
}

/// The bytes of an even number of lower-case hexadecimal digits.
pub fn unhex(text: &[u8]) -> Option<Vec<u8>> {
    if !text.len().is_multiple_of(2) {
        return None;
    }
    text.chunks_exact(2).map(|two| Some(digit(two[0])? << 4 | digit(two[1])?)).collect()
}

pub fn hex(bytes: &[u8]) -> String {
    const DIGITS: &[u8; 16] = b"0123456789abcdef";
    let mut text = String::with_capacity(2 * bytes.len());
    for byte in bytes {
        text.push(char::from(DIGITS[usize::from(byte >> 4)]));
        text.push(char::from(DIGITS[usize::from(byte & 15)]));
    }
    text
}
