//! Scripts for the benchmark: good seasons, a season under attack, and a pool that is full.
//!
//! A desk answers each script while it is made, so that the script can name frames by their slots and go on from where
//! the stations stand.

use std::io::{self, Write};

use crate::desk::Desk;
use crate::frame::{self, Form, Frame, Kind, Pair};
use crate::hall::{Hall, Station};
use crate::pool::{Slot, Source};
use crate::rule::{self, Entry, Rule};
use crate::seal::Seal;

const MOST_SLOTS: usize = 65_536;
const SEED: u64 = 0x6f6c_6976_6573;

const USAGE: &str =
    "season good 4|7|16 [full] [BATCHES], season attack [BATCHES], season full fill|13|27 [SLOTS [INJECTS]]";

/// Prints the script that the words name.
pub fn print(words: &[&str], out: &mut impl Write) -> io::Result<()> {
    let script = named(words).ok_or(io::Error::other(USAGE))?;
    out.write_all(script.text().as_bytes())
}

fn named(words: &[&str]) -> Option<Script> {
    match words {
        ["good", n, "full", size @ ..] => Some(good(full_plan(n, batches(size)?)?)),
        ["good", n, size @ ..] => Some(good(rotating_plan(n, batches(size)?)?)),
        ["attack", size @ ..] => Some(Attack::season(batches(size)?)),
        ["full", end, size @ ..] => full(End::named(end)?, size),
        _ => None,
    }
}

fn batches(size: &[&str]) -> Option<usize> {
    match size {
        [] => Some(1000),
        [count] => count.parse().ok().filter(|count| (1..=1000).contains(count)),
        _ => None,
    }
}

/// A small generator (splitmix64): a script is the same each time it is made.
struct Dice(u64);

impl Dice {
    fn word(&mut self) -> u64 {
        self.0 = self.0.wrapping_add(0x9e37_79b9_7f4a_7c15);
        let z = (self.0 ^ self.0 >> 30).wrapping_mul(0xbf58_476d_1ce4_e5b9);
        let z = (z ^ z >> 27).wrapping_mul(0x94d0_49bb_1331_11eb);
        z ^ z >> 31
    }

    fn below(&mut self, bound: usize) -> usize {
        (self.word() % bound as u64) as usize
    }

    fn pick<T: Copy>(&mut self, of: &[T]) -> T {
        of[self.below(of.len())]
    }

    fn once_in(&mut self, times: usize) -> bool {
        self.below(times) == 0
    }
}

/// What a season is played with.
struct Plan {
    n: usize,
    t: usize,
    policy: &'static str,
    faulty: &'static [usize],
    batches: usize,
    /// How many slots the hall has; just enough where it is not said.
    slots: Option<usize>,
}

fn rotating_plan(n: &str, batches: usize) -> Option<Plan> {
    let (n, t) = match n {
        "4" => (4, 1),
        "7" => (7, 2),
        "16" => (16, 3),
        _ => return None,
    };
    Some(Plan { n, t, policy: "rotating", faulty: &[], batches, slots: None })
}

/// The full policy with as many faults as n allows.
fn full_plan(n: &str, batches: usize) -> Option<Plan> {
    let plan = rotating_plan(n, batches)?;
    Some(Plan { t: (plan.n - 1) / 2, policy: "full", ..plan })
}

/// A script in the making, and the desk that has answered it so far.
struct Script {
    desk: Desk,
    head: Vec<String>,
    calls: Vec<String>,
    dice: Dice,
    batches: usize,
    slots: Option<usize>,
    /// How many frames lie in the pool.
    frames: usize,
}

impl Script {
    fn start(plan: &Plan) -> Self {
        let mut dice = Dice(SEED);
        let mut head = vec![String::from("table")];
        head.extend((0..plan.n).map(|i| format!("add {}", u8::from(plan.faulty.contains(&i)))));
        head.push(format!("lock {}", plan.t));
        head.push(String::from("rule oil"));
        head.push(format!("policy {}", plan.policy));
        let keys: String = (0..plan.n).map(|_| format!(" {:016x}", dice.word())).collect();
        head.push(format!("seal keyed{keys}"));
        head.extend((0..plan.batches).map(|_| lawful_batch(&mut dice)));
        let mut desk = Desk::default();
        for line in &head {
            desk.answer(line.as_bytes(), &mut Vec::new());
        }
        // how many slots are just enough is known in the end
        let hall = hall_line(plan.batches, plan.slots.unwrap_or(MOST_SLOTS));
        desk.answer(hall.as_bytes(), &mut Vec::new());
        Script { desk, head, calls: Vec::new(), dice, batches: plan.batches, slots: plan.slots, frames: 0 }
    }

    fn say(&mut self, line: String) {
        self.calls.push(line);
    }

    /// Puts a call into the script and lets the desk answer it.
    fn call(&mut self, line: String) {
        self.desk.answer(line.as_bytes(), &mut Vec::new());
        self.say(line);
        while self.pool().get(self.frames).is_some_and(|slot| !slot.is_free()) {
            self.frames += 1;
        }
    }

    fn open(&mut self, i: usize) {
        self.call(format!("open {i}"));
    }

    fn deliver(&mut self, i: usize, f: usize) {
        self.call(format!("deliver {i} {f}"));
    }

    fn ring(&mut self, i: usize) {
        self.call(format!("ring {i}"));
    }

    fn inject(&mut self, bytes: &[u8]) {
        self.call(format!("inject {}", frame::hex(bytes)));
    }

    fn hall(&self) -> &Hall {
        self.desk.hall.as_ref().expect("the head makes a hall")
    }

    fn pool(&self) -> &[Slot] {
        &self.desk.buffers.pool
    }

    fn seal(&self) -> &Seal {
        &self.hall().setup.seal
    }

    fn station(&self, i: usize) -> &Station {
        &self.hall().stations[i]
    }

    fn correct(&self) -> Vec<usize> {
        (0..self.hall().stations.len()).filter(|i| !self.hall().setup.table.faulty[*i]).collect()
    }

    /// Asks each correct station for entries here and there, holds all books to the clerk's, and prints that.
    fn close(&mut self) {
        let book = rule::clerk(Rule::Oil, &self.desk.intake);
        for i in self.correct() {
            let own = &self.desk.buffers.books[i * self.batches..(i + 1) * self.batches];
            assert!(self.station(i).booked == self.batches && own == book, "station {i} has not booked the season");
            for _ in 0..self.batches.min(50) {
                let k = 1 + self.dice.below(self.batches);
                self.call(format!("read {i} {k}"));
            }
        }
        self.say(String::from("clerk"));
    }

    fn text(&self) -> String {
        // each call that may issue a frame asks for three free slots
        let slots = self.slots.unwrap_or(self.frames + 3);
        let hall = hall_line(self.batches, slots);
        let lines = self.head.iter().chain([&hall]).chain(&self.calls);
        lines.flat_map(|line| [line.as_str(), "\n"]).collect()
    }
}

fn hall_line(batches: usize, slots: usize) -> String {
    format!("hall {batches} {slots}")
}

fn lawful_batch(dice: &mut Dice) -> String {
    let (grower, fruit) = (1 + dice.below(9_999_999), 1 + dice.below(30_000));
    // a kilogram of fruit has at most 300 grams of oil
    let oil = dice.below(300 * fruit + 1);
    format!("batch {grower} {fruit} {oil}")
}

/// All stations are correct, and nothing is lost: one member of committee 0 gathers the proposals, and the others take
/// its decision.
fn good(plan: Plan) -> Script {
    let mut script = Script::start(&plan);
    let members = script.hall().setup.policy.committee(0);
    for batch in 0..plan.batches {
        let first = script.frames;
        (0..plan.n).for_each(|i| script.open(i));
        let gatherer = members[batch % members.len()];
        for (k, _) in members.iter().enumerate().filter(|(_, i)| **i != gatherer) {
            script.deliver(gatherer, first + k);
        }
        let decision = script.frames - 1;
        (0..plan.n).filter(|i| *i != gatherer).for_each(|i| script.deliver(i, decision));
    }
    script.close();
    script
}

/// A season of seven stations, two of them faulty.
struct Attack {
    script: Script,
    /// What the clerk books.
    book: Vec<Entry>,
    correct: Vec<usize>,
    faulty: &'static [usize],
    /// The batch that all work at, counted from 1.
    batch: usize,
    /// Where the frames of that batch begin.
    first: usize,
}

impl Attack {
    const ACTS: usize = 12;

    fn season(batches: usize) -> Script {
        // both sit in committee 0, so that no batch is booked without a reselection
        let plan = Plan { n: 7, t: 2, policy: "rotating", faulty: &[0, 2], batches, slots: None };
        let script = Script::start(&plan);
        let book = rule::clerk(Rule::Oil, &script.desk.intake);
        let correct = script.correct();
        let mut attack = Attack { script, book, correct, faulty: plan.faulty, batch: 0, first: 0 };
        for batch in 1..=batches {
            attack.play(batch);
        }
        attack.script.close();
        attack.script
    }

    fn play(&mut self, batch: usize) {
        (self.batch, self.first) = (batch, self.script.frames);
        for i in self.correct.clone() {
            self.script.open(i);
        }
        for _ in 0..Self::ACTS {
            self.act();
        }
        self.finish();
    }

    fn act(&mut self) {
        match self.script.dice.below(14) {
            0 => self.equivocate(),
            1 | 2 => self.mix_pairs(),
            3 | 4 => self.call_up(),
            5 => self.forge(),
            6 => self.maim(),
            7 => self.garble(),
            8 => self.replay(),
            9 => self.guess_tag(),
            10 => self.deliver_anything(),
            11 => self.blunder(),
            12 => self.ring(),
            _ => self.hand_on(),
        }
    }

    /// A faulty station tells two stations two things.
    fn equivocate(&mut self) {
        let sender = self.a_faulty();
        for _ in 0..2 {
            let entry = self.wrong_entry();
            let lie = self.sealed(self.proposal(sender, entry));
            self.send(&lie.encode());
        }
    }

    /// A decision of a wrong entry. The faulty stations' pairs are right; the correct one's tag is on another entry.
    fn mix_pairs(&mut self) {
        let lie = self.decision_with_mixed_pairs();
        self.send(&lie.encode());
    }

    fn decision_with_mixed_pairs(&mut self) -> Frame {
        let (sender, entry) = (self.a_faulty(), self.wrong_entry());
        let mut stations = self.faulty.to_vec();
        stations.push(self.a_correct());
        stations.sort_unstable();
        let pair = |q: usize| {
            let told = if self.faulty.contains(&q) { entry } else { self.right_entry() };
            self.pair(&self.proposal(q, told))
        };
        let pairs = stations.into_iter().map(pair).collect();
        self.sealed(Frame { kind: Kind::Decision, pairs, ..self.proposal(sender, entry) })
    }

    /// A faulty station calls a committee up, the next one or one beside it, with a pair or without.
    fn call_up(&mut self) {
        let (sender, witness, near) = (self.a_faulty(), self.a_faulty(), self.a_correct());
        let number = (self.script.station(near).number as usize + self.script.dice.below(3)).max(1);
        let mut call = self.reselect(sender, number);
        if self.script.dice.once_in(2) {
            call.pairs.push(self.pair(&self.reselect(witness, number)));
        }
        let call = self.sealed(call);
        self.send(&call.encode());
    }

    /// A correct station's right tag on what it never said, as the sender's or in a pair.
    fn forge(&mut self) {
        let (victim, entry) = (self.a_correct(), self.wrong_entry());
        let forged = match self.script.dice.below(3) {
            0 => self.proposal(victim, entry),
            1 => self.reselect(victim, 20_000),
            _ => {
                let mut decision = self.decision_with_mixed_pairs();
                let wrong = decision.entry;
                for pair in &mut decision.pairs {
                    *pair = self.pair(&self.proposal(pair.station as usize, wrong));
                }
                decision
            }
        };
        let forged = self.sealed(forged);
        self.send(&forged.encode());
    }

    /// A frame with one thing wrong in its form.
    fn maim(&mut self) {
        let mut bytes = self.decision_with_mixed_pairs().encode();
        match self.script.dice.below(4) {
            0 => bytes.truncate(1 + self.script.dice.below(bytes.len() - 1)),
            1 => bytes.extend([0; 9]),
            2 => bytes.swap(32, 41),
            _ => bytes[self.script.dice.below(8)] ^= 0xff,
        }
        self.send(&bytes);
    }

    /// A line that is none.
    fn garble(&mut self) {
        let mut line = frame::hex(&self.decision_with_mixed_pairs().encode());
        match self.script.dice.below(4) {
            0 => line.truncate(line.len() - 1),
            1 => line = line.repeat(2),
            2 => line = line.replace('0', "O"),
            _ => line.clear(),
        }
        self.script.call(format!("inject {line}"));
    }

    /// A frame of the pool comes in once more.
    fn replay(&mut self) {
        let f = self.first + self.script.dice.below(self.script.frames - self.first);
        self.script.call(format!("write {f} 208"));
        let bytes = self.script.pool()[f].frame().to_vec();
        self.send(&bytes);
    }

    fn guess_tag(&mut self) {
        let sender = self.a_correct();
        let tag = self.script.dice.word();
        let guess = Frame { tag, ..self.proposal(sender, self.right_entry()) };
        self.send(&guess.encode());
    }

    /// Some frame of this batch or of one before, or none at all.
    fn deliver_anything(&mut self) {
        let i = self.a_correct();
        let f = self.script.frames - self.script.dice.below(self.script.frames.min(60));
        self.script.deliver(i, f);
    }

    /// A call that asks for what there is not.
    fn blunder(&mut self) {
        let (i, bad) = (self.a_correct(), self.a_faulty());
        let f = self.first;
        let line = match self.script.dice.below(7) {
            0 if self.is_at_work(i) => format!("open {i}"),
            1 => format!("open {bad}"),
            2 => format!("deliver {bad} {f}"),
            3 => format!("ring {bad}"),
            4 => String::from("ring 7"),
            5 => format!("read {i} {}", self.batch + 1),
            _ => format!("write {f} 63"),
        };
        self.script.call(line);
    }

    fn ring(&mut self) {
        let i = self.a_correct();
        self.script.ring(i);
    }

    fn hand_on(&mut self) {
        let i = self.a_correct();
        if let Some(f) = self.useful(i) {
            self.script.deliver(i, f);
        }
    }

    /// Lets a line in and hands the frame to one station or two.
    fn send(&mut self, bytes: &[u8]) {
        let f = self.script.frames;
        self.script.inject(bytes);
        if self.script.frames == f {
            return;
        }
        for _ in 0..1 + self.script.dice.below(2) {
            let i = self.a_correct();
            self.script.deliver(i, f);
        }
    }

    /// Hands the correct stations each other's frames until all have booked the batch. Where these do not help, the
    /// first who may gives its committee up.
    fn finish(&mut self) {
        loop {
            let at_work: Vec<usize> = self.correct.iter().copied().filter(|i| self.is_at_work(*i)).collect();
            if at_work.is_empty() {
                return;
            }
            // the faulty ones go on when some have booked already
            if self.script.dice.once_in(4) {
                self.act();
            }
            let mut helped = false;
            for i in &at_work {
                if let Some(f) = self.useful(*i) {
                    self.script.deliver(*i, f);
                    helped = true;
                }
            }
            if !helped {
                let policy = &self.script.hall().setup.policy;
                let member = at_work.iter().find(|i| policy.sits(**i, self.script.station(**i).number));
                self.script.ring(*member.expect("the furthest number's committee has a correct member"));
            }
        }
    }

    fn is_at_work(&self, i: usize) -> bool {
        !self.script.station(i).is_idle()
    }

    /// A frame that a step issued in this batch and that station i will take: best a decision, else a proposal, else
    /// a reselect frame.
    fn useful(&self, i: usize) -> Option<usize> {
        let station = self.script.station(i);
        let rank = |f: &usize| {
            let frame = self.issued(*f)?;
            match frame.kind {
                Kind::Decision => Some(0),
                Kind::Propose => station.votes[frame.sender as usize].is_none().then_some(1),
                Kind::Reselect => (u32::from(frame.number) == station.number + 1).then_some(2),
            }
        };
        let ranked = (self.first..self.script.frames).filter_map(|f| Some((rank(&f)?, f)));
        ranked.min().map(|(_, f)| f).filter(|_| self.is_at_work(i))
    }

    fn issued(&self, f: usize) -> Option<Frame> {
        let slot = &self.script.pool()[f];
        let form = Form { n: 7, t: 2, batches: self.script.batches as u32 };
        Frame::decode(slot.frame(), &form).ok().filter(|_| slot.by == Source::Step)
    }

    fn a_correct(&mut self) -> usize {
        self.script.dice.pick(&self.correct)
    }

    fn a_faulty(&mut self) -> usize {
        self.script.dice.pick(self.faulty)
    }

    fn right_entry(&self) -> Entry {
        self.book[self.batch - 1]
    }

    fn wrong_entry(&mut self) -> Entry {
        let right = self.right_entry();
        Entry { amount: right.amount + 1 + self.script.dice.below(1000) as u32, ..right }
    }

    fn proposal(&self, sender: usize, entry: Entry) -> Frame {
        unsealed(Kind::Propose, sender, self.batch, 0, entry)
    }

    fn reselect(&self, sender: usize, number: usize) -> Frame {
        unsealed(Kind::Reselect, sender, self.batch, number, Entry::default())
    }

    fn sealed(&self, frame: Frame) -> Frame {
        sealed(self.script.seal(), frame)
    }

    /// The sender of a frame with its right tag.
    fn pair(&self, frame: &Frame) -> Pair {
        Pair { station: frame.sender, tag: self.script.seal().tag(frame.sender, &frame.statement()) }
    }
}

fn unsealed(kind: Kind, sender: usize, batch: usize, number: usize, entry: Entry) -> Frame {
    Frame { kind, sender: sender as u8, batch: batch as u16, number: number as u16, entry, tag: 0, pairs: Vec::new() }
}

fn sealed(seal: &Seal, frame: Frame) -> Frame {
    Frame { tag: seal.tag(frame.sender, &frame.statement()), ..frame }
}

/// What comes after a pool was filled up to three free slots.
enum End {
    Nothing,
    /// One more frame, and then lines for which there is no room.
    NoRoom,
    /// Lines with a correct station's tag on what it never said.
    Forged,
}

impl End {
    fn named(word: &str) -> Option<Self> {
        match word {
            "fill" => Some(End::Nothing),
            "13" => Some(End::NoRoom),
            "27" => Some(End::Forged),
            _ => None,
        }
    }
}

fn full(end: End, size: &[&str]) -> Option<Script> {
    let size: Option<Vec<usize>> = size.iter().map(|word| word.parse().ok()).collect();
    let (slots, injects) = match size?[..] {
        [] => (MOST_SLOTS, 10_000),
        [slots] => (slots, 1000),
        [slots, injects] => (slots, injects),
        _ => return None,
    };
    if !(16..=MOST_SLOTS).contains(&slots) {
        return None;
    }
    let mut script = fill(slots);
    match end {
        End::Nothing => {}
        End::NoRoom => (0..=injects).for_each(|_| tell(&mut script, 0)),
        End::Forged => (0..injects).for_each(|k| tell(&mut script, 1 + k % 2)),
    }
    Some(script)
}

/// Leaves three slots free. There are three stations, t is 1, and the first station is faulty: its proposals fill half
/// of the pool. The other two never hear of each other's proposals, and fill the other half with reselect frames. What
/// a call issues is known beforehand, so the desk, which would search a long pool for each, is not asked.
fn fill(slots: usize) -> Script {
    let plan = Plan { n: 3, t: 1, policy: "rotating", faulty: &[0], batches: 1, slots: Some(slots) };
    let mut script = Script::start(&plan);
    script.say(String::from("open 1"));
    script.say(String::from("open 2"));
    script.frames = 1;
    let mut number = 0;
    while script.frames < slots - 3 {
        let narrow = slots - 3 - script.frames < 3;
        if narrow || !script.dice.once_in(3) {
            tell(&mut script, 0);
            script.frames += 1;
        } else {
            go_on(&mut script, number);
            number += 1;
        }
    }
    script
}

/// A line with a proposal of the sender, rightly sealed, that it has not made before.
fn tell(script: &mut Script, sender: usize) {
    let amount = script.dice.word() as u32;
    let entry = Entry { grower: 1, amount, ..Entry::default() };
    let told = sealed(script.seal(), unsealed(Kind::Propose, sender, 1, 0, entry));
    script.say(format!("inject {}", frame::hex(&told.encode())));
}

/// Stations 1 and 2 leave committee `number`. One who sits there gives it up; the other follows if it does not sit there.
fn go_on(script: &mut Script, number: u32) {
    let policy = &script.hall().setup.policy;
    let (first, second) = if policy.sits(1, number) { (1, 2) } else { (2, 1) };
    let both = policy.sits(second, number);
    let call = script.frames;
    script.say(format!("ring {first}"));
    script.say(if both { format!("ring {second}") } else { format!("deliver {second} {call}") });
    // each issues a reselect frame, and station 2 proposes when it is first called up
    script.frames += if number == 0 { 3 } else { 2 };
}
