//! A refusal by its number, with the layer that follows from it and a place.

#[derive(Clone, Copy, Debug, PartialEq, Eq)]
pub struct Fault {
    pub number: u8,
    pub place: usize,
}

impl Fault {
    /// A refusal that has a place in a line or in a frame.
    pub fn at(number: u8, place: usize) -> Self {
        Fault { number, place }
    }

    /// Where it comes from: 1 the line, 2 the frame, 3 the seals, 4 all else.
    pub fn layer(&self) -> u8 {
        match self.number {
            28 => 1,
            16 => 2,
            19 | 21 | 27 => 3,
            _ => 4,
        }
    }
}

/// A refusal without a place, if the test holds.
pub fn refuse_if(test: bool, number: u8) -> Result<(), Fault> {
    if test { Err(Fault::at(number, 0)) } else { Ok(()) }
}

impl std::fmt::Display for Fault {
    fn fmt(&self, f: &mut std::fmt::Formatter<'_>) -> std::fmt::Result {
        let words = WORDS.get(self.number as usize).unwrap_or(&"unknown");
        write!(f, "refused {} layer {} place {} ({words})", self.number, self.layer(), self.place)
    }
}

/// What the refusals say to people, by number.
const WORDS: [&str; 31] = [
    "no refusal",
    "sixteen stations stand",
    "no such mark",
    "t does not fit n",
    "more than t are faulty",
    "too few stations for the policy",
    "the hall is out of range",
    "a buffer's length is wrong",
    "no such station",
    "the station is faulty",
    "at work",
    "the intake is used up",
    "the batch is unlawful",
    "the pool is full",
    "idle",
    "no such frame",
    "malformed",
    "an earlier batch",
    "a later batch",
    "the sender's tag is wrong",
    "a vote is held",
    "a pair is wrong",
    "not the sender's to send",
    "the number is passed",
    "the number is ahead",
    "not a member",
    "the last number",
    "forged",
    "a bad line",
    "not booked",
    "the buffer is short",
];
