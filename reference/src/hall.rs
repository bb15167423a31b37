//! The hall: stations' records, their steps, and the calls.

use crate::fault::{Fault, refuse_if};
use crate::frame::{self, Form, Frame, Kind, LAST_NUMBER, Pair};
use crate::policy::Policy;
use crate::pool::{self, Slot, Source};
use crate::rule::{Batch, Entry, Rule};
use crate::seal::Seal;
use crate::table::Table;

#[derive(Clone, Copy, Debug, PartialEq, Eq)]
pub struct Vote {
    pub entry: Entry,
    pub tag: u64,
}

/// What the hall keeps of one station. It is idle while the batch at work is not lawful.
#[derive(Clone, Debug, Default)]
pub struct Station {
    pub booked: usize,
    pub work: Batch,
    pub number: u32,
    pub proposed: bool,
    pub votes: Vec<Option<Vote>>,
}

impl Station {
    pub fn is_idle(&self) -> bool {
        !self.work.is_lawful()
    }

    fn batch(&self) -> u16 {
        (self.booked + 1) as u16
    }
}

#[derive(Clone, Copy, Debug, Default, PartialEq, Eq)]
pub struct Marks {
    pub reselected: bool,
    pub proposed: bool,
    pub decided: bool,
}

/// What the caller lends to each call.
#[derive(Clone, Debug, Default)]
pub struct Buffers {
    pub intake: Vec<Batch>,
    pub pool: Vec<Slot>,
    pub books: Vec<Entry>,
}

#[derive(Clone, Debug)]
pub struct Hall {
    pub setup: Setup,
    pub stations: Vec<Station>,
}

#[derive(Clone, Debug)]
pub struct Setup {
    pub table: Table,
    pub rule: Rule,
    pub policy: Policy,
    pub seal: Seal,
    pub batches: usize,
    pub slots: usize,
}

impl Setup {
    fn form(&self) -> Form {
        Form { n: self.table.n(), t: self.table.t, batches: self.batches as u32 }
    }

    /// 6 and 7, which come first in every call.
    fn admit(&self, buffers: &Buffers) -> Result<(), Fault> {
        let agree = self.policy.n == self.table.n() && self.policy.t == self.table.t;
        refuse_if(!agree || !(1..=1000).contains(&self.batches) || !(3..=65_536).contains(&self.slots), 6)?;
        let fit = buffers.intake.len() == self.batches
            && buffers.pool.len() == self.slots
            && buffers.books.len() == self.table.n() * self.batches;
        refuse_if(!fit, 7)
    }

    /// 8 and 9: the station is there and correct.
    fn stands(&self, i: u32) -> Result<usize, Fault> {
        let i = i as usize;
        refuse_if(i >= self.table.n(), 8)?;
        refuse_if(self.table.faulty[i], 9)?;
        Ok(i)
    }
}

impl Hall {
    pub fn new(setup: Setup) -> Self {
        let n = setup.table.n();
        let stations = vec![Station { votes: vec![None; n], ..Station::default() }; n];
        Hall { setup, stations }
    }

    pub fn open(&mut self, buffers: &mut Buffers, i: u32) -> Result<Marks, Fault> {
        self.setup.admit(buffers)?;
        let i = self.setup.stands(i)?;
        let station = &self.stations[i];
        refuse_if(!station.is_idle(), 10)?;
        refuse_if(station.booked >= self.setup.batches, 11)?;
        let batch = buffers.intake[station.booked];
        refuse_if(!batch.is_lawful(), 12)?;
        refuse_if(!pool::is_roomy(&buffers.pool), 13)?;
        let mut step = self.step(i, buffers);
        step.take_up(batch);
        let proposed = step.sits(0);
        if proposed {
            step.propose();
        }
        Ok(Marks { proposed, ..Marks::default() })
    }

    pub fn deliver(&mut self, buffers: &mut Buffers, i: u32, f: u32) -> Result<Marks, Fault> {
        self.setup.admit(buffers)?;
        let i = self.setup.stands(i)?;
        let station = &self.stations[i];
        refuse_if(station.is_idle(), 14)?;
        let f = f as usize;
        refuse_if(buffers.pool.get(f).is_none_or(Slot::is_free), 15)?;
        refuse_if(!pool::is_roomy(&buffers.pool), 13)?;
        let frame = Frame::decode(buffers.pool[f].frame(), &self.setup.form())?;
        refuse_if(frame.batch < station.batch(), 17)?;
        refuse_if(frame.batch > station.batch(), 18)?;
        if !self.setup.seal.is_right(frame.sender, &frame.statement(), frame.tag) {
            return Err(Fault::at(19, 24));
        }
        match frame.kind {
            Kind::Propose => refuse_if(station.votes[frame.sender as usize].is_some(), 20)?,
            Kind::Decision => self.check_pairs(&frame)?,
            Kind::Reselect => self.check_reselect(&frame, station.number)?,
        }
        buffers.pool[f].taken = true;
        let mut step = self.step(i, buffers);
        Ok(match frame.kind {
            Kind::Propose => step.take_proposal(&frame),
            Kind::Decision => step.take_decision(&frame),
            Kind::Reselect => step.take_reselect(&frame),
        })
    }

    pub fn ring(&mut self, buffers: &mut Buffers, i: u32) -> Result<Marks, Fault> {
        self.setup.admit(buffers)?;
        let i = self.setup.stands(i)?;
        let station = &self.stations[i];
        refuse_if(station.is_idle(), 14)?;
        refuse_if(!self.setup.policy.sits(i, station.number), 25)?;
        refuse_if(station.number == LAST_NUMBER, 26)?;
        refuse_if(!pool::is_roomy(&buffers.pool), 13)?;
        Ok(self.step(i, buffers).reselect(None))
    }

    pub fn inject(&mut self, buffers: &mut Buffers, line: &[u8]) -> Result<Marks, Fault> {
        self.setup.admit(buffers)?;
        let bytes = frame::read_line(line)?;
        refuse_if(!pool::is_roomy(&buffers.pool), 13)?;
        if let Ok(frame) = Frame::decode(&bytes, &self.setup.form()) {
            self.check_forged(&buffers.pool, &frame)?;
        }
        pool::enter(&mut buffers.pool, &bytes, Source::Outside);
        Ok(Marks::default())
    }

    pub fn read(&self, buffers: &Buffers, i: u32, k: u32) -> Result<Entry, Fault> {
        self.setup.admit(buffers)?;
        let i = self.setup.stands(i)?;
        let k = k as usize;
        refuse_if(k == 0 || k > self.stations[i].booked, 29)?;
        Ok(buffers.books[i * self.setup.batches + k - 1])
    }

    /// The line of frame f, if a buffer of `room` bytes can hold it.
    pub fn write(&self, buffers: &Buffers, f: u32, room: usize) -> Result<String, Fault> {
        self.setup.admit(buffers)?;
        let slot = buffers.pool.get(f as usize).filter(|slot| !slot.is_free());
        let slot = slot.ok_or(Fault::at(15, 0))?;
        refuse_if(room < 2 * slot.frame().len(), 30)?;
        Ok(frame::hex(slot.frame()))
    }

    fn step<'a>(&'a mut self, i: usize, buffers: &'a mut Buffers) -> Step<'a> {
        Step {
            setup: &self.setup,
            i,
            station: &mut self.stations[i],
            pool: &mut buffers.pool,
            books: &mut buffers.books,
        }
    }

    fn check_pairs(&self, frame: &Frame) -> Result<(), Fault> {
        for (k, pair) in frame.pairs.iter().enumerate() {
            if !self.setup.seal.is_right(pair.station, &frame.pair_statement(pair.station), pair.tag) {
                return Err(Fault::at(21, Frame::pair_place(k)));
            }
        }
        Ok(())
    }

    fn check_reselect(&self, frame: &Frame, own: u32) -> Result<(), Fault> {
        let policy = &self.setup.policy;
        let c = u32::from(frame.number);
        let (left, called) = (policy.sits(frame.sender as usize, c - 1), policy.sits(frame.sender as usize, c));
        let has_pair = !frame.pairs.is_empty();
        let rightly_sent = if left { !has_pair } else { called && has_pair };
        refuse_if(!rightly_sent, 22)?;
        self.check_pairs(frame)?;
        if let Some(k) = frame.pairs.iter().position(|pair| !policy.sits(pair.station as usize, c - 1)) {
            return Err(Fault::at(21, Frame::pair_place(k)));
        }
        refuse_if(c <= own, 23)?;
        refuse_if(c > own + 1, 24)
    }

    /// 27: a right tag of a correct station on a statement that no step issued.
    fn check_forged(&self, pool: &[Slot], frame: &Frame) -> Result<(), Fault> {
        let own = (frame.sender, frame.tag, frame.statement(), 24);
        let pairs = frame.pairs.iter().enumerate();
        let pairs = pairs.map(|(k, p)| (p.station, p.tag, frame.pair_statement(p.station), Frame::pair_place(k)));
        for (station, tag, statement, place) in std::iter::once(own).chain(pairs) {
            let sealed = self.setup.table.is_correct(station) && self.setup.seal.is_right(station, &statement, tag);
            if sealed && !pool::is_issued(pool, &statement) {
                return Err(Fault::at(27, place));
            }
        }
        Ok(())
    }
}

/// A step of one station: its own record, and the pool and the books that it writes to.
struct Step<'a> {
    setup: &'a Setup,
    i: usize,
    station: &'a mut Station,
    pool: &'a mut [Slot],
    books: &'a mut [Entry],
}

impl Step<'_> {
    fn sits(&self, c: u32) -> bool {
        self.setup.policy.sits(self.i, c)
    }

    fn take_up(&mut self, batch: Batch) {
        self.station.work = batch;
        self.station.number = 0;
        self.station.proposed = false;
        self.station.votes.fill(None);
    }

    /// Seals and issues a frame, and gives its tag.
    fn issue(&mut self, kind: Kind, number: u32, entry: Entry, pairs: Vec<Pair>) -> u64 {
        let sender = self.i as u8;
        let mut frame =
            Frame { kind, sender, batch: self.station.batch(), number: number as u16, entry, tag: 0, pairs };
        frame.tag = self.setup.seal.tag(sender, &frame.statement());
        pool::enter(self.pool, &frame.encode(), Source::Step);
        frame.tag
    }

    fn propose(&mut self) -> Entry {
        let carry = match self.station.booked {
            0 => 0,
            booked => self.books[self.i * self.setup.batches + booked - 1].carry,
        };
        let entry = self.setup.rule.entry(carry, &self.station.work);
        let tag = self.issue(Kind::Propose, 0, entry, Vec::new());
        self.station.proposed = true;
        self.station.votes[self.i] = Some(Vote { entry, tag });
        entry
    }

    fn decide(&mut self, entry: Entry, pairs: Vec<Pair>) {
        self.books[self.i * self.setup.batches + self.station.booked] = entry;
        self.issue(Kind::Decision, 0, entry, pairs);
        self.station.booked += 1;
        self.station.work = Batch::default();
    }

    /// Decides an entry that t + 1 stations voted for.
    fn settle(&mut self, entry: Entry) -> bool {
        let votes = self.station.votes.iter().enumerate();
        let support = votes.filter_map(|(q, vote)| vote.filter(|v| v.entry == entry).map(|v| (q, v)));
        let quorum = self.setup.table.t + 1;
        let pairs: Vec<Pair> = support.take(quorum).map(|(q, v)| Pair { station: q as u8, tag: v.tag }).collect();
        let decided = pairs.len() == quorum;
        if decided {
            self.decide(entry, pairs);
        }
        decided
    }

    fn reselect(&mut self, proof: Option<Pair>) -> Marks {
        let left = self.station.number;
        let called = left + 1;
        self.station.number = called;
        if self.sits(left) {
            self.issue(Kind::Reselect, called, Entry::default(), Vec::new());
        } else if self.sits(called) {
            self.issue(Kind::Reselect, called, Entry::default(), proof.into_iter().collect());
        }
        let proposed = self.sits(called) && !self.station.proposed;
        let decided = proposed && {
            let entry = self.propose();
            self.settle(entry)
        };
        Marks { reselected: true, proposed, decided }
    }

    fn take_proposal(&mut self, frame: &Frame) -> Marks {
        let sender = frame.sender as usize;
        let own = self.station.votes[self.i];
        self.station.votes[sender] = Some(Vote { entry: frame.entry, tag: frame.tag });
        if self.settle(frame.entry) {
            return Marks { decided: true, ..Marks::default() };
        }
        let number = self.station.number;
        let fellows = self.sits(number) && self.setup.policy.sits(sender, number);
        let differs = own.is_some_and(|vote| vote.entry != frame.entry);
        if self.station.proposed && number < LAST_NUMBER && fellows && differs {
            return self.reselect(None);
        }
        Marks::default()
    }

    fn take_decision(&mut self, frame: &Frame) -> Marks {
        self.decide(frame.entry, frame.pairs.clone());
        Marks { decided: true, ..Marks::default() }
    }

    fn take_reselect(&mut self, frame: &Frame) -> Marks {
        let sender = Pair { station: frame.sender, tag: frame.tag };
        self.reselect(Some(frame.pairs.first().copied().unwrap_or(sender)))
    }
}
