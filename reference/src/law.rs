//! The law, held against what a program printed for a script.
//!
//! All that is judged here is counted over the calls and their answers, or seen in a frame that was shown. No record of
//! a hall is looked at, so that what is wrong in the steps cannot be wrong in the judge too.

use std::collections::{HashMap, HashSet};
use std::fmt;

use crate::frame::{self, Form, Frame, Kind, LAST_NUMBER, MAX_BYTES};
use crate::policy::Policy;
use crate::rule::{self, Batch, Entry, Rule};
use crate::seal::Seal;
use crate::table::{MAX_STATIONS, OpenTable, Table};
use crate::transcript;

/// From how many places of one log rounds are looked for, at most.
const MOST_STARTS: usize = 1000;

/// What was looked at, so that one can see the check was not empty.
#[derive(Default, Debug, Clone)]
pub struct Checked {
    pub halls: usize,
    pub calls: usize,
    pub bookings: usize,
    pub certificates: usize,
    /// Bookings whose certificate was looked for; that takes a transcript which shows all frames.
    pub certified: usize,
    pub proposals: usize,
    pub rounds: usize,
    /// Instances of the law's `BookedInRounds` whose premises held, rounds and all.
    pub promises: usize,
}

impl Checked {
    pub fn add(&mut self, other: &Checked) {
        self.halls += other.halls;
        self.calls += other.calls;
        self.bookings += other.bookings;
        self.certificates += other.certificates;
        self.certified += other.certified;
        self.proposals += other.proposals;
        self.rounds += other.rounds;
        self.promises += other.promises;
    }
}

impl fmt::Display for Checked {
    fn fmt(&self, f: &mut fmt::Formatter<'_>) -> fmt::Result {
        write!(f, "halls {} calls {} bookings {}", self.halls, self.calls, self.bookings)?;
        write!(f, " certificates {} certified {}", self.certificates, self.certified)?;
        write!(f, " proposals {} rounds {} promises {}", self.proposals, self.rounds, self.promises)
    }
}

/// The law over what a program printed; the first breach in words, with the line's number.
pub fn check(transcript: &[u8]) -> Result<Checked, String> {
    let mut judge = Judge::default();
    match judge.transcript(transcript) {
        Ok(()) => Ok(judge.checked),
        Err(breach) => Err(breach.to_string()),
    }
}

/// Where and how the law is broken. Without a line it is that at hand.
struct Breach {
    line: Option<usize>,
    words: String,
}

impl Breach {
    fn at(line: usize, words: String) -> Self {
        Breach { line: Some(line), words }
    }
}

impl From<String> for Breach {
    fn from(words: String) -> Self {
        Breach { line: None, words }
    }
}

impl fmt::Display for Breach {
    fn fmt(&self, f: &mut fmt::Formatter<'_>) -> fmt::Result {
        write!(f, "line {}: {}", self.line.unwrap_or(0), self.words)
    }
}

fn ensure(holds: bool, words: impl FnOnce() -> String) -> Result<(), String> {
    if holds { Ok(()) } else { Err(words()) }
}

// ---- What is printed

/// An answer without the words for people.
#[derive(Clone, Copy)]
enum Answer<'a> {
    /// With the words behind `ok`.
    Done(&'a [u8]),
    Refused(u32),
    Error,
}

impl<'a> Answer<'a> {
    fn read(text: &'a [u8]) -> Result<Self, String> {
        let words: Vec<&[u8]> = text.split(|b| *b == b' ').collect();
        match words.as_slice() {
            [b"ok"] => Ok(Answer::Done(b"")),
            [b"ok", ..] => Ok(Answer::Done(&text[3..])),
            [b"refused", x, b"layer", _, b"place", ..] => Ok(Answer::Refused(number(x)?)),
            [b"error", ..] => Ok(Answer::Error),
            _ => Err("this is no answer".into()),
        }
    }

    /// That of an Open, Deliver, Ring or Inject.
    fn outcome(self) -> Result<Outcome, String> {
        match self {
            Answer::Done(words) => Ok(Outcome::Accepted(Marks::read(words)?)),
            Answer::Refused(x) => Ok(Outcome::Refused(x)),
            Answer::Error => Err("an error is no answer of a hall".into()),
        }
    }
}

fn number(word: &[u8]) -> Result<u32, String> {
    let digits = std::str::from_utf8(word).ok().filter(|text| text.bytes().all(|b| b.is_ascii_digit()));
    digits.and_then(|text| text.parse().ok()).ok_or_else(|| "a number is none".into())
}

fn numbers(text: &[u8]) -> Result<Vec<u32>, String> {
    text.split(|b| *b == b' ').map(number).collect()
}

fn entry(numbers: &[u32]) -> Result<Entry, String> {
    match *numbers {
        [grower, amount, carry, figure] => Ok(Entry { grower, amount, carry, figure }),
        _ => Err("an entry has four numbers".into()),
    }
}

/// The words of a seal.
fn seal_words(words: &[&[u8]], most: usize) -> Result<Vec<u64>, String> {
    ensure(words.len() <= most, || "a seal has too many words".into())?;
    words.iter().map(|word| seal_word(word).ok_or_else(|| "a word of a seal is none".into())).collect()
}

fn seal_word(word: &[u8]) -> Option<u64> {
    Some(u64::from_be_bytes(frame::unhex(word)?.try_into().ok()?))
}

/// A slot as it was shown.
struct Shown {
    len: usize,
    outside: bool,
    taken: bool,
    bytes: Vec<u8>,
}

impl Shown {
    fn read(words: &[u8]) -> Result<Self, String> {
        let words: Vec<&[u8]> = words.split(|b| *b == b' ').collect();
        let [len, who, taken, hex] = words.as_slice() else { return Err("a slot has four parts".into()) };
        let (len, who, taken) = (number(len)? as usize, number(who)?, number(taken)?);
        let bytes = frame::unhex(hex).filter(|bytes| bytes.len() == MAX_BYTES).ok_or("a slot has 104 bytes")?;
        ensure(len <= MAX_BYTES && who <= 1 && taken <= 1, || "a part of the slot is too large".into())?;
        Ok(Shown { len, outside: who == 1, taken: taken == 1, bytes })
    }
}

#[derive(Clone, Copy, Default, PartialEq, Eq)]
struct Marks {
    reselected: bool,
    proposed: bool,
    decided: bool,
}

impl Marks {
    const NONE: Marks = Marks { reselected: false, proposed: false, decided: false };

    fn read(words: &[u8]) -> Result<Self, String> {
        let mut rest = words.split(|b| *b == b' ').filter(|word| !word.is_empty()).peekable();
        let mut is_next = |mark: &[u8]| rest.next_if(|word| *word == mark).is_some();
        // in the order in which they are printed
        let [reselected, proposed, decided] = [is_next(b"reselected"), is_next(b"proposed"), is_next(b"decided")];
        ensure(rest.next().is_none(), || "these are no marks".into())?;
        Ok(Marks { reselected, proposed, decided })
    }
}

// ---- What a hall is joined from

/// All that the next hall will have a copy of.
#[derive(Default)]
struct Parts {
    open: Option<OpenTable>,
    table: Option<Table>,
    rule: Option<Rule>,
    policy: Option<Policy>,
    seal: Option<Seal>,
    intake: Vec<Batch>,
}

impl Parts {
    /// Follows an accepted command that has to do with no hall.
    fn take(&mut self, words: &[&[u8]]) -> Result<(), String> {
        match words {
            [b"table"] => (self.open, self.table) = (Some(OpenTable::default()), None),
            [b"add", mark] => self.add(number(mark)?)?,
            [b"lock", t] => self.lock(number(t)?)?,
            [b"rule", b"oil"] => self.rule = Some(Rule::Oil),
            [b"rule", b"levy"] => self.rule = Some(Rule::Levy),
            [b"policy", b"rotating"] => {
                let policy = Policy::rotating(self.table()?);
                self.policy = Some(policy.map_err(|_| "the table has too few stations for this policy")?);
            }
            [b"policy", b"full"] => self.policy = Some(Policy::full(self.table()?)),
            [b"seal", b"keyed", words @ ..] => self.seal = Some(keyed(words)?),
            [b"seal", b"sheet", words @ ..] => self.seal = Some(Seal::Sheet(seal_words(words, 256 * MAX_STATIONS)?)),
            [b"batch", grower, fruit, oil] => {
                let batch = Batch { grower: number(grower)?, fruit: number(fruit)?, oil: number(oil)? };
                self.intake.push(batch);
            }
            // these only show something
            [b"seats" | b"tag" | b"line" | b"frame" | b"batches", ..] => {}
            _ => return Err("there is no such command".into()),
        }
        Ok(())
    }

    fn add(&mut self, mark: u32) -> Result<(), String> {
        let open = self.open.as_mut().ok_or("there is no open table")?;
        open.add(mark).map_err(|_| "the table does not take this station".into())
    }

    fn lock(&mut self, t: u32) -> Result<(), String> {
        let open = self.open.take().ok_or("there is no open table")?;
        self.table = Some(open.lock(t).map_err(|_| "the table cannot be locked so")?);
        Ok(())
    }

    fn table(&self) -> Result<&Table, String> {
        self.table.as_ref().ok_or_else(|| "there is no locked table".into())
    }

    fn hall(&self, batches: u32, slots: u32) -> Result<Hall, String> {
        let table = self.table()?.clone();
        let rule = self.rule.ok_or("there is no rule")?;
        let policy = self.policy.clone().ok_or("there is no policy")?;
        let seal = self.seal.clone().ok_or("there is no seal")?;
        Ok(Hall::new(Terms { table, rule, policy, seal, batches, slots }, &self.intake))
    }

    /// The entries that are printed in front of `clerk`, and their count.
    fn clerk(&self, printed: &[Vec<u32>], count: &[u8]) -> Result<(), String> {
        let book = rule::clerk(self.rule.ok_or("there is no rule")?, &self.intake);
        ensure(number(count)? as usize == book.len(), || format!("the clerk has {} entries", book.len()))?;
        let lines = book.iter().zip(1..).map(|(e, k)| vec![k, e.grower, e.amount, e.carry, e.figure]);
        ensure(lines.eq(printed.iter().cloned()), || "this is not the clerk's book".into())
    }
}

fn keyed(words: &[&[u8]]) -> Result<Seal, String> {
    let mut keys = [0; MAX_STATIONS];
    let given = seal_words(words, MAX_STATIONS)?;
    keys[..given.len()].copy_from_slice(&given);
    Ok(Seal::Keyed(keys))
}

// ---- The transcript

#[derive(Default)]
struct Judge {
    parts: Parts,
    /// The hall that is judged, if one stands of which the law speaks.
    hall: Option<Hall>,
    /// The hall that stands has lost something that its calls had written.
    left: bool,
    /// What was printed in front of the next line.
    entries: Vec<Vec<u32>>,
    checked: Checked,
}

impl Judge {
    fn transcript(&mut self, transcript: &[u8]) -> Result<(), Breach> {
        for (line, number) in transcript.split(|b| *b == b'\n').zip(1..) {
            let judged = self.line(line, number);
            judged.map_err(|breach| Breach { line: breach.line.or(Some(number)), ..breach })?;
        }
        self.close()
    }

    fn line(&mut self, line: &[u8], at: usize) -> Result<(), Breach> {
        if line.is_empty() {
            return Ok(());
        }
        let Some((command, answer)) = transcript::parts(line) else { return Ok(self.entry_line(line)?) };
        let entries = std::mem::take(&mut self.entries);
        let answer = Answer::read(answer)?;
        if let (b"clerk", Answer::Done(count)) = (command, answer) {
            return Ok(self.parts.clerk(&entries, count)?);
        }
        ensure(entries.is_empty(), || "entries are printed in front of no book".into())?;
        match (command.strip_prefix(b"inject "), answer) {
            (_, Answer::Error) => Ok(()),
            (Some(text), _) => Ok(self.inject(text, answer, at)?),
            (None, _) => self.command(command, answer, at),
        }
    }

    fn entry_line(&mut self, line: &[u8]) -> Result<(), String> {
        let words = line.strip_prefix(b"entry ").ok_or("a line without an answer")?;
        self.entries.push(numbers(words)?);
        Ok(())
    }

    /// Any command but `clerk` and `inject`, answered by other than an error.
    fn command(&mut self, command: &[u8], answer: Answer, at: usize) -> Result<(), Breach> {
        let words: Vec<&[u8]> = command.split(|b| *b == b' ').collect();
        match (words.as_slice(), answer) {
            ([b"open", i], _) => self.call(Call::Open(place(i)?), answer, at)?,
            ([b"deliver", i, f], _) => self.call(Call::Deliver(place(i)?, place(f)?), answer, at)?,
            ([b"ring", i], _) => self.call(Call::Ring(place(i)?), answer, at)?,
            ([b"read", i, k], _) => {
                if let Some(hall) = self.judged()? {
                    hall.read(place(i)?, place(k)?, answer)?;
                }
            }
            ([b"slot", f], Answer::Done(words)) => {
                if let Some(hall) = self.judged()? {
                    hall.slot(place(f)?, &Shown::read(words)?)?;
                }
            }
            ([b"write", f, _], Answer::Done(words)) => {
                if let Some(hall) = self.judged()? {
                    hall.written(place(f)?, words)?;
                }
            }
            ([b"hall", b, p], Answer::Done(_)) => self.make(number(b)?, number(p)?)?,
            ([b"buffers", i, q, e], Answer::Done(_)) => {
                self.lend(Lengths { intake: place(i)?, pool: place(q)?, books: place(e)? })?;
            }
            (words, Answer::Done(_)) => self.parts.take(words)?,
            // what is refused changes nothing
            _ => {}
        }
        Ok(())
    }

    /// The hall that is judged, none if the one that stands is judged no more.
    fn judged(&mut self) -> Result<Option<&mut Hall>, String> {
        ensure(self.left || self.hall.is_some(), || "there is no hall".into())?;
        Ok(self.hall.as_mut())
    }

    fn call(&mut self, call: Call, answer: Answer, line: usize) -> Result<(), String> {
        let event = Event { call, outcome: answer.outcome()?, line };
        self.judged()?.map_or(Ok(()), |hall| hall.call(event))
    }

    fn inject(&mut self, text: &[u8], answer: Answer, line: usize) -> Result<(), String> {
        self.call(Call::Inject, answer, line)?;
        match (self.hall.as_mut(), answer) {
            (Some(hall), Answer::Done(_)) => hall.injected(text),
            _ => Ok(()),
        }
    }

    fn make(&mut self, batches: u32, slots: u32) -> Result<(), Breach> {
        self.close()?;
        let hall = self.parts.hall(batches, slots)?;
        hall.sound_in_turn()?;
        self.hall = Some(hall);
        Ok(())
    }

    fn lend(&mut self, lengths: Lengths) -> Result<(), Breach> {
        let Some(hall) = self.judged()? else { return Ok(()) };
        if hall.loses_by(lengths) {
            self.close()?;
            self.left = true;
        } else {
            hall.lengths = lengths;
        }
        Ok(())
    }

    /// What can be judged of a hall only when its calls are all known.
    fn close(&mut self) -> Result<(), Breach> {
        self.left = false;
        let Some(mut hall) = self.hall.take() else { return Ok(()) };
        hall.booked_certified()?;
        let rounds = Rounds::new(&hall).booked_in_rounds()?;
        self.checked.add(&hall.checked);
        self.checked.add(&rounds);
        Ok(())
    }
}

/// A number of a station, a batch or a slot.
fn place(word: &[u8]) -> Result<usize, String> {
    Ok(number(word)? as usize)
}

// ---- The log of a hall

#[derive(Clone, Copy)]
enum Call {
    Open(usize),
    Deliver(usize, usize),
    Ring(usize),
    Inject,
}

impl Call {
    fn station(self) -> Option<usize> {
        match self {
            Call::Open(i) | Call::Deliver(i, _) | Call::Ring(i) => Some(i),
            Call::Inject => None,
        }
    }
}

#[derive(Clone, Copy)]
enum Outcome {
    Accepted(Marks),
    Refused(u32),
}

#[derive(Clone, Copy)]
struct Event {
    call: Call,
    outcome: Outcome,
    line: usize,
}

impl Event {
    /// Whether a full round may hold it.
    fn is_calm(&self) -> bool {
        !matches!(self.call, Call::Ring(_)) && !matches!(self.outcome, Outcome::Refused(6 | 7 | 13))
    }
}

/// What the law counts of one station.
#[derive(Clone, Copy, Default)]
struct Counts {
    opened: usize,
    booked: usize,
    number: u32,
}

impl Counts {
    fn is_at_work(&self) -> bool {
        self.booked < self.opened
    }

    /// The counts after one more accepted call of the station.
    fn after(self, call: Call, marks: Marks) -> Self {
        let booked = self.booked + usize::from(marks.decided);
        match call {
            Call::Open(_) => Counts { opened: self.opened + 1, booked, number: 0 },
            _ => Counts { booked, number: self.number + u32::from(marks.reselected), ..self },
        }
    }
}

/// One station as the log has it. Calls are meant by their places in the log.
#[derive(Default)]
struct Station {
    counts: Counts,
    /// The call that booked each batch, from batch 1 on.
    bookings: Vec<usize>,
    /// The call that worked a batch out.
    worked_out: HashMap<usize, usize>,
}

impl Station {
    fn has_booked(&self, batch: usize, before: usize) -> bool {
        batch == 0 || self.bookings.get(batch - 1).is_some_and(|call| *call < before)
    }
}

/// One frame in the pool; the log tells all but its bytes.
struct Put {
    outside: bool,
    /// The call that put it there.
    call: usize,
    /// The call since which it is live.
    live: Option<usize>,
    taken: bool,
    /// Known once they were shown.
    bytes: Option<Vec<u8>>,
    /// Sender and batch, if the bytes are a certificate.
    certifies: Option<(usize, usize)>,
}

/// The committees of one batch that the next ones are called upon for.
#[derive(Default)]
struct Excuses {
    /// Those in which a member rang.
    rung: HashSet<u32>,
    /// All below this number are excused. It only rises, so that each number is looked at once.
    below: u32,
}

impl Excuses {
    fn reach(&mut self, c: u32, sound: &[bool]) -> bool {
        while self.below < c && (!sound[self.below as usize] || self.rung.contains(&self.below)) {
            self.below += 1;
        }
        self.below >= c
    }
}

#[derive(Clone, Copy, PartialEq, Eq)]
struct Lengths {
    intake: usize,
    pool: usize,
    books: usize,
}

/// What a hall is joined from.
struct Terms {
    table: Table,
    rule: Rule,
    policy: Policy,
    seal: Seal,
    batches: u32,
    slots: u32,
}

impl Terms {
    fn agree(&self) -> bool {
        self.policy.n == self.table.n() && self.policy.t == self.table.t
    }

    fn in_range(&self) -> bool {
        self.agree() && (1..=1000).contains(&self.batches) && (3..=65_536).contains(&self.slots)
    }

    fn is_correct(&self, i: usize) -> bool {
        self.table.faulty.get(i) == Some(&false)
    }

    fn correct(&self) -> impl Iterator<Item = usize> {
        (0..self.table.n()).filter(|i| self.is_correct(*i))
    }

    fn is_sound(&self, c: u32) -> bool {
        !(0..self.table.n()).any(|i| !self.is_correct(i) && self.policy.sits(i, c))
    }

    fn own_lengths(&self) -> Lengths {
        let (batches, pool) = (self.batches as usize, self.slots as usize);
        Lengths { intake: batches, pool, books: self.table.n() * batches }
    }

    /// The certificate that these bytes are, if all its tags are right.
    fn certificate(&self, bytes: &[u8]) -> Option<Frame> {
        let form = Form { n: self.table.n(), t: self.table.t, batches: self.batches };
        let frame = Frame::decode(bytes, &form).ok().filter(|frame| frame.kind == Kind::Decision)?;
        let sent = self.seal.is_right(frame.sender, &frame.statement(), frame.tag);
        let mut pairs = frame.pairs.iter();
        let paired = pairs.all(|p| self.seal.is_right(p.station, &frame.pair_statement(p.station), p.tag));
        (sent && paired).then_some(frame)
    }
}

/// A hall as its log has it.
struct Hall {
    terms: Terms,
    lengths: Lengths,
    clerk: Vec<Entry>,
    /// Which committees have no faulty member.
    sound: Vec<bool>,
    stations: Vec<Station>,
    excuses: HashMap<usize, Excuses>,
    frames: Vec<Put>,
    log: Vec<Event>,
    checked: Checked,
}

impl Hall {
    fn new(terms: Terms, intake: &[Batch]) -> Self {
        let own = terms.own_lengths();
        Hall {
            lengths: Lengths { intake: intake.len(), ..own },
            // an intake of the right length has no others, but for zeros that fill it up and are not lawful
            clerk: rule::clerk(terms.rule, &intake[..own.intake.min(intake.len())]),
            sound: (0..=LAST_NUMBER).map(|c| terms.is_sound(c)).collect(),
            stations: (0..terms.table.n()).map(|_| Station::default()).collect(),
            excuses: HashMap::new(),
            frames: Vec::new(),
            log: Vec::new(),
            checked: Checked { halls: 1, ..Checked::default() },
            terms,
        }
    }

    /// Whether buffers of these lengths drop what the hall's own held.
    fn loses_by(&self, next: Lengths) -> bool {
        let own = self.terms.own_lengths();
        let cuts = |next: usize, own: usize, now: usize| next < own && next < now;
        cuts(next.intake, own.intake, self.lengths.intake)
            || cuts(next.pool, own.pool, self.lengths.pool)
            || cuts(next.books, own.books, self.lengths.books)
    }

    /// Whether calls may be accepted at all.
    fn is_in_place(&self) -> bool {
        self.terms.in_range() && self.lengths == self.terms.own_lengths()
    }

    fn sound_in_turn(&self) -> Result<(), String> {
        let turn = self.terms.policy.turn();
        let runs = self.sound.split(|sound| *sound).map(<[bool]>::len);
        let longest = runs.max().unwrap_or(0);
        ensure(!self.terms.agree() || longest < turn, || {
            format!("{longest} committees in a row have a faulty member, and a turn is {turn}")
        })
    }

    fn call(&mut self, event: Event) -> Result<(), String> {
        if let Outcome::Accepted(marks) = event.outcome {
            ensure(self.is_in_place(), || "accepted by a hall that is out of range or has other buffers".into())?;
            match event.call.station() {
                None => self.let_in(marks)?,
                Some(i) => self.step(i, event.call, marks)?,
            }
            let (frames, slots) = (self.frames.len(), self.lengths.pool);
            ensure(frames <= slots, || format!("{frames} frames are in a pool of {slots} slots"))?;
        }
        self.log.push(event);
        self.checked.calls += 1;
        Ok(())
    }

    fn let_in(&mut self, marks: Marks) -> Result<(), String> {
        ensure(marks == Marks::NONE, || "an Inject sets a mark".into())?;
        self.put(true);
        Ok(())
    }

    fn put(&mut self, outside: bool) {
        let call = self.log.len();
        let live = if outside { None } else { Some(call) };
        self.frames.push(Put { outside, call, live, taken: false, bytes: None, certifies: None });
    }

    /// An accepted call of station i.
    fn step(&mut self, i: usize, call: Call, marks: Marks) -> Result<(), String> {
        ensure(self.terms.is_correct(i), || format!("a call of station {i} is accepted, which is faulty or absent"))?;
        let before = self.stations[i].counts;
        shape(call, marks, before)?;
        let after = before.after(call, marks);
        ensure(after.number <= LAST_NUMBER, || format!("station {i} is past the last committee"))?;
        self.stations[i].counts = after;
        match call {
            Call::Deliver(_, f) => self.took(f)?,
            Call::Ring(_) => self.rang(i, before),
            _ => {}
        }
        self.issued(i, before, marks);
        if marks.proposed {
            self.checked.proposals += 1;
            self.lazy(i)?;
        }
        if marks.decided {
            self.checked.bookings += 1;
            self.booked(i)?;
        }
        Ok(())
    }

    fn took(&mut self, f: usize) -> Result<(), String> {
        let call = self.log.len();
        let put = self.frames.get_mut(f).ok_or_else(|| format!("frame {f} is accepted, and there is none"))?;
        put.taken = true;
        put.live.get_or_insert(call);
        Ok(())
    }

    fn rang(&mut self, i: usize, before: Counts) {
        if self.terms.policy.sits(i, before.number) {
            self.excuses.entry(before.opened).or_default().rung.insert(before.number);
        }
    }

    /// The frames that the steps of one call put into the pool, by its marks.
    fn issued(&mut self, i: usize, before: Counts, marks: Marks) {
        let seated = |c| self.terms.policy.sits(i, c);
        let announced = marks.reselected && (seated(before.number) || seated(before.number + 1));
        let count = usize::from(announced) + usize::from(marks.proposed) + usize::from(marks.decided);
        for _ in 0..count {
            self.put(false);
        }
    }

    /// Station i has worked its batch out: as a member, and with each committee before excused.
    fn lazy(&mut self, i: usize) -> Result<(), String> {
        let Counts { opened: batch, number: c, .. } = self.stations[i].counts;
        let again = self.stations[i].worked_out.insert(batch, self.log.len()).is_some();
        ensure(!again, || format!("station {i} works batch {batch} out again"))?;
        ensure(self.terms.policy.sits(i, c), || format!("station {i} works batch {batch} out without a seat in {c}"))?;
        let excuses = self.excuses.entry(batch).or_default();
        let excused = excuses.reach(c, &self.sound);
        ensure(excused, || {
            let idle = excuses.below;
            format!("station {i} works batch {batch} out in committee {c}, but committee {idle} is sound and none rang")
        })
    }

    fn booked(&mut self, i: usize) -> Result<(), String> {
        let call = self.log.len();
        self.stations[i].bookings.push(call);
        let (booked, most) = (self.stations[i].counts.booked, self.clerk.len());
        ensure(booked <= most, || format!("station {i} books batch {booked}, and the clerk has {most} entries"))
    }

    fn read(&self, i: usize, k: usize, answer: Answer) -> Result<(), String> {
        let correct = self.terms.is_correct(i);
        let held = if correct { self.stations[i].counts.booked } else { 0 };
        match answer {
            Answer::Done(words) => {
                ensure(self.is_in_place(), || "read from a hall that is out of range or has other buffers".into())?;
                ensure(correct, || format!("the book of station {i} is read, which is faulty or absent"))?;
                ensure((1..=held).contains(&k), || format!("entry {k} is read, and station {i} has booked {held}"))?;
                let clerks = self.clerk[k - 1];
                ensure(entry(&numbers(words)?)? == clerks, || format!("the clerk's entry {k} is {clerks:?}"))
            }
            Answer::Refused(x) if correct && self.is_in_place() => ensure(x == 29 && (k == 0 || k > held), || {
                format!("entry {k} is refused {x}, and station {i} has booked {held}")
            }),
            _ => Ok(()),
        }
    }

    /// The frame that was let in last is what its line spells.
    fn injected(&mut self, text: &[u8]) -> Result<(), String> {
        let bytes = frame::read_line(text).map_err(|_| "a bad line is let in")?;
        let last = self.frames.len() - 1;
        self.show(last, &bytes)
    }

    fn written(&mut self, f: usize, words: &[u8]) -> Result<(), String> {
        let hex = words.split(|b| *b == b' ').nth(1).ok_or("a line is missing")?;
        let bytes = frame::unhex(hex).ok_or("this is no line")?;
        ensure(f < self.frames.len(), || format!("frame {f} is written, and there is none"))?;
        self.show(f, &bytes)
    }

    fn slot(&mut self, f: usize, shown: &Shown) -> Result<(), String> {
        let Some(put) = self.frames.get(f) else {
            let free = shown.len == 0 && !shown.taken;
            return ensure(free, || format!("no call put a frame into slot {f}"));
        };
        ensure(shown.len > 0, || format!("a call put a frame into slot {f}, and it is free"))?;
        ensure(shown.outside == put.outside, || format!("who put frame {f} there is wrong"))?;
        ensure(shown.taken == put.taken, || format!("the taken mark of frame {f} is wrong"))?;
        let (bytes, behind) = shown.bytes.split_at(shown.len);
        ensure(behind.iter().all(|b| *b == 0), || format!("there is something behind frame {f}"))?;
        self.show(f, bytes)
    }

    /// The bytes of frame f are shown. They stay for good, so a certificate is held to the log up to its call.
    fn show(&mut self, f: usize, bytes: &[u8]) -> Result<(), String> {
        if let Some(before) = &self.frames[f].bytes {
            return ensure(before == bytes, || format!("frame {f} is not what it was"));
        }
        self.frames[f].bytes = Some(bytes.to_vec());
        if let Some(frame) = self.terms.certificate(bytes) {
            self.checked.certificates += 1;
            self.true_certificate(&frame, self.frames[f].call)?;
            self.frames[f].certifies = Some((frame.sender.into(), frame.batch.into()));
        }
        Ok(())
    }

    fn true_certificate(&self, frame: &Frame, call: usize) -> Result<(), String> {
        let batch = usize::from(frame.batch);
        let clerks =
            self.clerk.get(batch - 1).ok_or_else(|| format!("a certificate of batch {batch}, past the clerk"))?;
        ensure(frame.entry == *clerks, || format!("a certificate of batch {batch} with another entry"))?;
        for pair in &frame.pairs {
            let q = usize::from(pair.station);
            let worked_out = self.stations[q].worked_out.get(&batch).is_some_and(|at| *at <= call);
            ensure(!self.terms.is_correct(q) || worked_out, || {
                format!("a certificate names station {q}, which has not worked batch {batch} out")
            })?;
        }
        Ok(())
    }

    /// Each booking has a certificate of that station. Only a transcript that shows all frames can tell.
    fn booked_certified(&mut self) -> Result<(), Breach> {
        if self.frames.iter().any(|put| put.bytes.is_none()) {
            return Ok(());
        }
        let mut first = HashMap::new();
        for put in &self.frames {
            if let Some(what) = put.certifies {
                first.entry(what).or_insert(put.call);
            }
        }
        for i in self.terms.correct() {
            for (call, batch) in self.stations[i].bookings.iter().zip(1..) {
                self.checked.certified += 1;
                let certified = first.get(&(i, batch)).is_some_and(|put| put <= call);
                let words = || format!("station {i} books batch {batch}, and there is no certificate of it");
                ensure(certified, words).map_err(|words| Breach::at(self.log[*call].line, words))?;
            }
        }
        Ok(())
    }
}

/// Which marks an accepted call of a correct station may have.
fn shape(call: Call, marks: Marks, before: Counts) -> Result<(), String> {
    let Marks { reselected, proposed, decided } = marks;
    match call {
        Call::Open(i) => {
            ensure(!before.is_at_work(), || format!("station {i} opens a batch and is at work"))?;
            ensure(!reselected && !decided, || "an Open sets a mark other than proposed".into())
        }
        Call::Deliver(i, _) | Call::Ring(i) => {
            ensure(before.is_at_work(), || format!("station {i} has no batch at work"))?;
            let rings = matches!(call, Call::Ring(_));
            ensure(!rings || reselected, || "a Ring does not reselect".into())?;
            ensure(!proposed || reselected, || "proposed without reselected".into())?;
            ensure(!(reselected && decided) || proposed, || "reselected and decided without proposed".into())
        }
        Call::Inject => Ok(()),
    }
}

// ---- Progress

/// A place of the log from which on the law promises a booking.
struct Start {
    at: usize,
    batch: usize,
    rounds: u32,
}

/// Full rounds in the log of a hall.
struct Rounds<'a> {
    hall: &'a Hall,
    correct: Vec<usize>,
    /// For each place of the log, how many frames are live there.
    live: Vec<usize>,
    /// For each place of the log, where the next call is that no round may hold.
    calm_until: Vec<usize>,
    /// For each frame and station, the last round in which it was handed over; rounds are counted from 1 as tried.
    handed: Vec<u32>,
    tried: u32,
    checked: Checked,
}

impl<'a> Rounds<'a> {
    fn new(hall: &'a Hall) -> Self {
        Rounds {
            hall,
            correct: hall.terms.correct().collect(),
            live: live_counts(hall),
            calm_until: calm_stretches(&hall.log),
            handed: vec![0; hall.frames.len() * MAX_STATIONS],
            tried: 0,
            checked: Checked::default(),
        }
    }

    fn booked_in_rounds(mut self) -> Result<Checked, Breach> {
        let starts = self.starts();
        let apart = starts.len().div_ceil(MOST_STARTS).max(1);
        for start in starts.iter().step_by(apart) {
            if let Some(end) = self.ends(start) {
                self.checked.promises += 1;
                self.promise(start, end)?;
            }
        }
        Ok(self.checked)
    }

    fn promise(&self, start: &Start, end: usize) -> Result<(), Breach> {
        let Start { at, batch, rounds } = *start;
        let line = |at: usize| at.checked_sub(1).map_or(0, |last| self.hall.log[last].line);
        let late = self.correct.iter().find(|i| !self.hall.stations[**i].has_booked(batch, end));
        late.map_or(Ok(()), |i| {
            let since = line(at);
            let words = format!("station {i} has not booked batch {batch} in {rounds} full rounds since line {since}");
            Err(Breach::at(line(end), words))
        })
    }

    /// The places where the premises hold and that have as many calm calls behind them as the first round needs.
    fn starts(&self) -> Vec<Start> {
        let mut counts = vec![Counts::default(); self.hall.stations.len()];
        let mut starts = Vec::new();
        for at in 0..=self.hall.log.len() {
            let roomy = self.needed(at) <= self.calm_until[at] - at;
            starts.extend(self.start(at, &counts).filter(|_| roomy));
            let Some(Event { call, outcome: Outcome::Accepted(marks), .. }) = self.hall.log.get(at) else { continue };
            if let Some(i) = call.station() {
                counts[i] = counts[i].after(*call, *marks);
            }
        }
        starts
    }

    /// Only the lowest batch that a correct station is about can be one that all have opened and some have at work.
    fn start(&self, at: usize, counts: &[Counts]) -> Option<Start> {
        let correct = || self.correct.iter().map(|i| counts[*i]);
        let batch = correct().map(|c| c.opened).min()?;
        let numbers = || correct().filter(|c| c.opened == batch && c.is_at_work()).map(|c| c.number);
        let (low, high) = (numbers().min()?, numbers().max()?);
        self.hall.sound[high as usize].then_some(Start { at, batch, rounds: high - low + 1 })
    }

    /// Where so many rounds in a row end, each as short as can be; a shorter one never makes the next one longer.
    fn ends(&mut self, start: &Start) -> Option<usize> {
        let mut at = start.at;
        for _ in 0..start.rounds {
            at = self.round(at)?;
            self.checked.rounds += 1;
        }
        Some(at)
    }

    /// How many deliveries a round from here on has at least.
    fn needed(&self, from: usize) -> usize {
        self.live[from] * self.correct.len()
    }

    fn round(&mut self, from: usize) -> Option<usize> {
        let mut missing = self.needed(from);
        let until = self.calm_until[from];
        if missing == 0 {
            return Some(from);
        }
        if until - from < missing {
            return None;
        }
        self.tried += 1;
        let hall = self.hall;
        for (event, at) in hall.log[from..until].iter().zip(from..) {
            let Call::Deliver(i, f) = event.call else { continue };
            let live = hall.frames.get(f).and_then(|put| put.live).is_some_and(|since| since < from);
            if live && hall.terms.is_correct(i) && self.hands(i, f) {
                missing -= 1;
                if missing == 0 {
                    return Some(at + 1);
                }
            }
        }
        None
    }

    /// Whether this is the first time in the round at hand.
    fn hands(&mut self, i: usize, f: usize) -> bool {
        let last = &mut self.handed[f * MAX_STATIONS + i];
        std::mem::replace(last, self.tried) != self.tried
    }
}

fn live_counts(hall: &Hall) -> Vec<usize> {
    let mut counts = vec![0; hall.log.len() + 1];
    for since in hall.frames.iter().filter_map(|put| put.live) {
        counts[since + 1] += 1;
    }
    for at in 1..counts.len() {
        counts[at] += counts[at - 1];
    }
    counts
}

fn calm_stretches(log: &[Event]) -> Vec<usize> {
    let mut until = vec![log.len(); log.len() + 1];
    for (at, event) in log.iter().enumerate().rev() {
        until[at] = if event.is_calm() { until[at + 1] } else { at };
    }
    until
}

#[cfg(test)]
mod tests {
    use super::*;
    use crate::frame::Pair;

    /// Three stations, the first faulty, and two batches before an unlawful one. Slots are cut to their frames here.
    const RUN: &str = "\
table -> ok
add 1 -> ok
add 0 -> ok
add 0 -> ok
lock 1 -> ok
rule oil -> ok
policy rotating -> ok
seal keyed 0f1e2d3c4b5a6978 9d39247e33776d41 2af7398005aaa5c7 -> ok
batch 4711 500 93400 -> ok
batch 12 300 600 -> ok
batch 0 1 1 -> ok
entry 1 4711 93 400 1860
entry 2 12 1 0 33
clerk -> ok 2
hall 3 32 -> ok
open 1 -> ok proposed
open 2 -> ok
inject 0100000100000000000012670000005d000001900000270fd759dc5537be626e -> ok
deliver 2 1 -> ok
ring 1 -> ok reselected
deliver 1 0 -> refused 20 layer 4 place 0 (a vote is held)
deliver 1 1 -> ok
deliver 1 2 -> refused 23 layer 4 place 0 (the number is passed)
deliver 2 0 -> ok
deliver 2 1 -> refused 20 layer 4 place 0 (a vote is held)
deliver 2 2 -> ok reselected proposed decided
deliver 1 0 -> refused 20 layer 4 place 0 (a vote is held)
deliver 1 1 -> refused 20 layer 4 place 0 (a vote is held)
deliver 1 2 -> refused 23 layer 4 place 0 (the number is passed)
deliver 1 3 -> refused 23 layer 4 place 0 (the number is passed)
deliver 1 4 -> ok decided
deliver 1 5 -> refused 14 layer 4 place 0 (idle)
deliver 2 0 -> refused 14 layer 4 place 0 (idle)
deliver 2 1 -> refused 14 layer 4 place 0 (idle)
deliver 2 2 -> refused 14 layer 4 place 0 (idle)
deliver 2 3 -> refused 14 layer 4 place 0 (idle)
deliver 2 4 -> refused 14 layer 4 place 0 (idle)
deliver 2 5 -> refused 14 layer 4 place 0 (idle)
read 1 1 -> ok 4711 93 400 1860
read 1 2 -> refused 29 layer 4 place 0 (not booked)
open 1 -> ok proposed
open 2 -> ok
inject 01000002000000000000000c0000000100000000000000218327dc5483e0a336 -> ok
deliver 1 8 -> ok decided
deliver 2 9 -> ok decided
ring 1 -> refused 14 layer 4 place 0 (idle)
open 0 -> refused 9 layer 4 place 0 (the station is faulty)
open 1 -> refused 12 layer 4 place 0 (the batch is unlawful)
read 0 1 -> refused 9 layer 4 place 0 (the station is faulty)
read 1 2 -> ok 12 1 0 33
read 2 0 -> refused 29 layer 4 place 0 (not booked)
read 2 1 -> ok 4711 93 400 1860
read 2 2 -> ok 12 1 0 33
read 2 3 -> refused 29 layer 4 place 0 (not booked)
slot 0 -> ok 32 0 1 0101000100000000000012670000005d0000019000000744ea5f696f783f454a
slot 1 -> ok 32 1 1 0100000100000000000012670000005d000001900000270fd759dc5537be626e
slot 2 -> ok 32 0 1 03010001000100000000000000000000000000000000000075cd697143a6c513
slot 3 -> ok 41 0 0 030200010001010000000000000000000000000000000000e810486171ac088e0175cd697143a6c513
slot 4 -> ok 32 0 1 0102000100000000000012670000005d00000190000007445ba2c861be948847
slot 5 -> ok 50 0 0 0202000100000200000012670000005d00000190000007445b9fc8603e94884701ea5f696f783f454a025ba2c861be948847
slot 6 -> ok 50 0 0 0201000100000200000012670000005d0000019000000744ea606972f83f454a01ea5f696f783f454a025ba2c861be948847
slot 7 -> ok 32 0 0 01010002000000000000000c000000010000000000000021464d697047a2e393
slot 8 -> ok 32 1 1 01000002000000000000000c0000000100000000000000218327dc5483e0a336
slot 9 -> ok 50 0 1 02010002000002000000000c000000010000000000000021464e6971c7a2e393008327dc5483e0a33601464d697047a2e393
slot 10 -> ok 50 0 0 02020002000002000000000c000000010000000000000021f791c860edafe90e008327dc5483e0a33601464d697047a2e393
slot 11 -> ok 0 0 0 00
";

    const SECOND: Entry = Entry { grower: 12, amount: 1, carry: 0, figure: 33 };

    /// The line of a certificate of two stations, all tags right.
    fn certificate(sender: u8, batch: u16, entry: Entry, who: [u8; 2]) -> String {
        let mut keys = [0; MAX_STATIONS];
        keys[..3].copy_from_slice(&[0x0f1e2d3c4b5a6978, 0x9d39247e33776d41, 0x2af7398005aaa5c7]);
        let seal = Seal::Keyed(keys);
        let mut frame = Frame { kind: Kind::Decision, sender, batch, number: 0, entry, tag: 0, pairs: Vec::new() };
        frame.pairs =
            who.map(|station| Pair { station, tag: seal.tag(station, &frame.pair_statement(station)) }).into();
        frame.tag = seal.tag(sender, &frame.statement());
        frame::hex(&frame.encode())
    }

    /// The transcript with the slots filled up.
    fn whole(run: &str) -> String {
        let full = |line: &str| if line.starts_with("slot ") { fill(line) } else { line.to_string() + "\n" };
        run.lines().map(full).collect()
    }

    fn fill(line: &str) -> String {
        let (front, hex) = line.rsplit_once(' ').expect("a slot has several words");
        format!("{front} {hex:0<208}\n")
    }

    /// The run up to a line, and that line with it.
    fn up_to(line: &str) -> &'static str {
        let at = RUN.find(line).expect("the run has the line");
        &RUN[..at + line.len() + 1]
    }

    fn judge(run: &str) -> Result<Checked, String> {
        check(whole(run).as_bytes())
    }

    fn changed(run: &str, from: &str, to: &str) -> String {
        assert!(run.contains(from), "{from:?} is not in the run");
        run.replacen(from, to, 1)
    }

    #[track_caller]
    fn breaks(run: &str, words: &str) {
        let breach = judge(run).expect_err(words);
        assert!(breach.contains(words), "{breach}");
    }

    /// The run breaks the law once the first piece of this kind is another.
    #[track_caller]
    fn tampered(from: &str, to: &str, words: &str) {
        breaks(&changed(RUN, from, to), words);
    }

    #[test]
    fn a_good_run_keeps_the_law() {
        let checked = judge(RUN).expect("the law holds");
        assert_eq!((checked.halls, checked.calls, checked.bookings, checked.proposals), (1, 31, 4, 3));
        assert_eq!((checked.certificates, checked.certified), (4, 4));
        assert_eq!((checked.rounds, checked.promises), (8, 2));
    }

    #[test]
    fn each_hall_is_judged_alone() {
        let twice = RUN.to_string() + &RUN[RUN.find("hall 3").expect("a hall is made")..];
        let checked = judge(&twice).expect("the law holds");
        assert_eq!((checked.halls, checked.calls, checked.certified), (2, 62, 8));
    }

    #[test]
    fn a_breach_names_its_line() {
        let run = changed(RUN, "read 1 1 -> ok 4711 93", "read 1 1 -> ok 4711 94");
        let line = 1 + RUN.lines().position(|line| line.starts_with("read 1 1")).expect("it is read");
        assert!(judge(&run).expect_err("another entry").starts_with(&format!("line {line}: ")));
    }

    #[test]
    fn the_clerk_is_printed_as_he_books() {
        tampered("entry 2 12 1 0 33", "entry 2 12 2 0 33", "not the clerk's book");
        tampered("entry 2 12 1 0 33\n", "", "not the clerk's book");
        tampered("clerk -> ok 2", "clerk -> ok 3", "the clerk has 2 entries");
    }

    #[test]
    fn books_are_the_clerks() {
        tampered("read 2 1 -> ok 4711 93 400 1860", "read 2 1 -> ok 4711 93 400 1861", "the clerk's entry 1");
        tampered("read 1 2 -> refused 29 layer 4 place 0 (not booked)", "read 1 2 -> ok 12 1 0 33", "entry 2 is read");
        tampered("read 2 2 -> ok 12 1 0 33", "read 2 2 -> refused 29 layer 4 place 0", "entry 2 is refused 29");
        tampered("read 2 2 -> ok 12 1 0 33", "read 2 2 -> refused 9 layer 4 place 0", "entry 2 is refused 9");
        tampered("read 2 0 -> refused 29 layer 4 place 0 (not booked)", "read 2 0 -> ok 4711 93 400 1860", "entry 0");
        tampered(
            "read 0 1 -> refused 9 layer 4 place 0 (the station is faulty)",
            "read 0 1 -> ok 4711 93 400 1860",
            "faulty",
        );
    }

    #[test]
    fn nobody_books_past_the_clerk() {
        let run = changed(RUN, "open 1 -> refused 12 layer 4 place 0 (the batch is unlawful)", "open 1 -> ok\n");
        breaks(&changed(&run, "open 1 -> ok\n", "open 1 -> ok\ndeliver 1 8 -> ok decided"), "the clerk has 2 entries");
    }

    #[test]
    fn certificates_are_true() {
        let last = RUN.lines().find(|line| line.starts_with("slot 10 ")).expect("it is shown");
        let (_, line) = last.rsplit_once(' ').expect("a slot has several words");
        let other = Entry { amount: 2, ..SECOND };
        tampered(line, &certificate(2, 2, other, [0, 1]), "batch 2 with another entry");
        tampered(line, &certificate(2, 2, SECOND, [1, 2]), "station 2, which has not worked batch 2 out");
        tampered(line, &certificate(2, 3, Entry::default(), [0, 1]), "past the clerk");
    }

    #[test]
    fn certificates_from_outside_are_true_when_they_come() {
        let first = Entry { grower: 4711, amount: 93, carry: 400, figure: 1860 };
        let early = format!("open 2 -> ok\ninject {} -> ok", certificate(0, 1, first, [1, 2]));
        tampered("open 2 -> ok", &early, "station 2, which has not worked batch 1 out");
        let own = format!("open 2 -> ok\ninject {} -> ok", certificate(0, 1, first, [0, 1]));
        judge(&changed(up_to("open 2 -> ok"), "open 2 -> ok", &own)).expect("station 1 has worked it out");
    }

    #[test]
    fn bookings_have_certificates() {
        // a wrong tag of the sender, and a wrong one of a pair
        tampered("ea606972f83f454a", "ea606972f83f454b", "station 1 books batch 1");
        tampered("21f791c860edafe90e00", "21f791c860edafe90f00", "station 2 books batch 2");
        let other_sender = certificate(0, 2, SECOND, [0, 1]);
        let last = RUN.find("slot 10").expect("it is shown");
        let run = RUN[..last].to_string() + "slot 10 -> ok 50 0 0 " + &other_sender + "\nslot 11 -> ok 0 0 0 00\n";
        breaks(&run, "station 2 books batch 2");
        // without all frames one cannot tell
        assert_eq!(judge(&RUN[..last]).expect("the law holds").certified, 0);
    }

    #[test]
    fn slots_are_those_of_the_log() {
        tampered("slot 4 -> ok 32 0 1", "slot 4 -> ok 32 0 0", "the taken mark of frame 4");
        tampered("slot 7 -> ok 32 0 0", "slot 7 -> ok 32 0 1", "the taken mark of frame 7");
        tampered("slot 8 -> ok 32 1 1", "slot 8 -> ok 32 0 1", "who put frame 8");
        tampered("slot 7 -> ok 32 0 0", "slot 7 -> ok 32 1 0", "who put frame 7");
        tampered("slot 11 -> ok 0 0 0 00", "slot 11 -> ok 1 0 0 00", "no call put a frame into slot 11");
        tampered("slot 10 -> ok 50 0 0", "slot 10 -> ok 0 0 0", "a call put a frame into slot 10");
        tampered("slot 7 -> ok 32 0 0", "slot 7 -> ok 31 0 0", "behind frame 7");
        tampered("slot 1 -> ok 32 1 1 0100", "slot 1 -> ok 32 1 1 0101", "frame 1 is not what it was");
        tampered("hall 3 32", "hall 3 5", "6 frames are in a pool of 5 slots");
    }

    #[test]
    fn sound_in_turn() {
        tampered("add 0 -> ok", "add 1 -> ok", "the table cannot be locked so");
        let table = Table { faulty: vec![true, true, false], t: 1 };
        let policy = Policy::rotating(&table).expect("three are enough");
        let seal = Seal::Sheet(Vec::new());
        let terms = Terms { table, rule: Rule::Oil, policy, seal, batches: 1, slots: 3 };
        assert!(Hall::new(terms, &[]).sound_in_turn().is_err());
    }

    /// The run up to the end of the rounds in which station 1 must book.
    fn rounds() -> &'static str {
        up_to("deliver 2 5 -> refused 14 layer 4 place 0 (idle)")
    }

    #[test]
    fn rounds_let_all_book() {
        assert_eq!(judge(rounds()).expect("the law holds").promises, 2);
        let late = changed(rounds(), "deliver 1 4 -> ok decided", "deliver 1 4 -> ok");
        breaks(&late, "station 1 has not booked batch 1");
        let never = changed(&late, "reselected proposed decided", "reselected proposed");
        breaks(&never, "station 1 has not booked batch 1 in 2 full rounds");
    }

    #[test]
    fn what_is_no_round_promises_nothing() {
        let late = changed(rounds(), "deliver 1 4 -> ok decided", "deliver 1 4 -> ok");
        let keeps = |run: String| assert_eq!(judge(&run).expect("nothing is promised").promises, 0);
        let refused = " layer 4 place 0\ndeliver 1 5 ->";
        // a Ring of anyone, a full pool and other buffers end a round
        keeps(changed(&late, "deliver 1 5 ->", &format!("ring 0 -> refused 9{refused}")));
        keeps(changed(&late, "deliver 1 5 ->", &format!("inject 00 -> refused 13{refused}")));
        keeps(changed(&late, "deliver 1 5 ->", &format!("open 2 -> refused 7{refused}")));
        // so does a frame that one station is never handed
        keeps(changed(&late, "deliver 2 5 -> refused 14", "deliver 2 4 -> refused 14"));
        // a frame from outside that nobody took need not be handed to anyone, but one that was taken must be
        let more = changed(&late, "ring 1 ->", "inject 00 -> ok\nring 1 ->");
        let more = ["2", "3", "4", "5"].iter().rev().fold(more, |run, f| {
            let next = f.parse::<usize>().map_or(0, |f| f + 1);
            run.replace(&format!("deliver 1 {f} "), &format!("deliver 1 {next} "))
                .replace(&format!("deliver 2 {f} "), &format!("deliver 2 {next} "))
        });
        breaks(&more, "station 1 has not booked batch 1");
        keeps(changed(&more, "ring 1 ->", "deliver 1 2 -> ok\nring 1 ->"));
    }

    #[test]
    fn nobody_works_out_unasked() {
        tampered("open 2 -> ok", "open 2 -> ok proposed", "without a seat in 0");
        tampered(
            "deliver 2 0 -> ok",
            "deliver 2 0 -> ok reselected proposed\nring 2 -> ok reselected proposed",
            "again",
        );
        // with a correct station 0 it takes a Ring to leave committee 0
        let sound = changed(up_to("deliver 2 2 -> ok reselected proposed decided"), "add 1", "add 0");
        judge(&sound).expect("station 1 rang");
        let silent = changed(&sound, "ring 1 -> ok reselected", "deliver 1 1 -> ok reselected");
        breaks(&silent, "committee 0 is sound and none rang");
        // a Ring of an earlier batch does not count
        let next = "open 1 -> ok proposed\ndeliver 1 1 -> ok reselected\nopen 2 -> ok\ndeliver 2 2 -> ok reselected proposed\n";
        let run = changed(rounds(), "add 1", "add 0") + next;
        breaks(&run, "committee 0 is sound and none rang");
    }

    #[test]
    fn excuses_are_gone_through_once() {
        let mut excuses = Excuses::default();
        let sound = [false, true, false, true, false];
        assert!(excuses.reach(1, &sound) && !excuses.reach(2, &sound));
        excuses.rung.insert(3);
        assert!(!excuses.reach(4, &sound));
        excuses.rung.insert(1);
        assert!(excuses.reach(4, &sound) && excuses.below == 4);
    }

    #[test]
    fn marks_have_their_shape() {
        tampered("8327dc5483e0a336 -> ok", "8327dc5483e0a336 -> ok proposed", "an Inject sets a mark");
        tampered("open 2 -> ok", "open 2 -> ok decided", "an Open sets a mark");
        tampered("ring 1 -> ok reselected", "ring 1 -> ok", "a Ring does not reselect");
        tampered("deliver 2 0 -> ok", "deliver 2 0 -> ok proposed", "proposed without reselected");
        tampered("reselected proposed decided", "reselected decided", "decided without proposed");
        tampered("reselected proposed decided", "decided reselected", "these are no marks");
    }

    #[test]
    fn only_correct_stations_that_may_are_heard() {
        tampered("open 0 -> refused 9 layer 4 place 0 (the station is faulty)", "open 0 -> ok", "faulty or absent");
        tampered("open 0 -> refused 9 layer 4 place 0 (the station is faulty)", "open 3 -> ok", "faulty or absent");
        tampered("open 2 -> ok", "open 2 -> ok\nopen 2 -> ok", "opens a batch and is at work");
        tampered("deliver 1 5 -> refused 14 layer 4 place 0 (idle)", "deliver 1 5 -> ok decided", "no batch at work");
        tampered("ring 1 -> refused 14 layer 4 place 0 (idle)", "ring 1 -> ok reselected", "no batch at work");
        tampered("deliver 2 1 -> ok", "deliver 2 9 -> ok", "frame 9 is accepted, and there is none");
        tampered("hall 3 32", "hall 1001 32", "out of range");
        tampered("hall 3 32", "hall 4 32", "other buffers");
        tampered("hall 3 32 -> ok\n", "", "there is no hall");
        tampered("(idle)\nopen 0", "(idle)\ninject 0 -> ok\nopen 0", "a bad line is let in");
    }

    #[test]
    fn buffers_that_are_cut_end_the_judgement() {
        let wrong = "read 1 1 -> ok 1 1 1 1\nopen 0 -> ok\n";
        let checked = judge(&(RUN.to_string() + "buffers 3 31 9 -> ok\n" + wrong)).expect("the law says nothing of it");
        assert_eq!((checked.calls, checked.certified, checked.promises), (31, 4, 2));
        let longer = RUN.to_string() + "buffers 4 33 10 -> ok\nopen 0 -> refused 7 layer 4 place 0\n";
        breaks(&(longer.clone() + "read 1 1 -> ok 4711 93 400 1860\n"), "other buffers");
        let again = longer + "buffers 3 32 9 -> ok\nread 1 1 -> ok 4711 93 400 1860\n";
        assert_eq!(judge(&again).expect("nothing was lost").calls, 32);
        breaks(&(again + wrong), "the clerk's entry 1");
    }

    #[test]
    fn an_arrow_in_a_command_parts_nothing() {
        let run =
            RUN.to_string() + "inject a -> ok -> refused 28 layer 1 place 7 (a bad line)\n# -> ok -> error (none)\n";
        assert_eq!(judge(&run).expect("the law holds").calls, 32);
    }
}
