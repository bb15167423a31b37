//! Random scripts from a seed: honest stations, faulty ones that say anything, and callers that ask for nonsense.
//!
//! A maker runs each command at a desk of its own as it writes it, so that it knows which frames lie in the pool and
//! where each station stands, and can say what hurts.

use crate::attack::{self, Attack};
use crate::desk::Desk;
use crate::frame::LAST_NUMBER;
use crate::hall::{Hall, Station};
use crate::rng::Rng;
use crate::rule::Batch;

/// A script and what the reference prints for it.
pub struct Made {
    pub script: Vec<u8>,
    pub printed: Vec<u8>,
}

/// The script of a number under a seed. One in a hundred goes up to the last committee number.
pub fn script(seed: u64, index: u64) -> Made {
    let mut maker = Maker::new(Rng::new(seed, index));
    match index % 100 {
        0 => maker.climb(),
        k if k % 10 == 9 => maker.odd_words(),
        k if k % 10 == 8 => maker.odd_setups(),
        _ => maker.season(),
    }
    Made { script: maker.script, printed: maker.printed }
}

pub struct Maker {
    pub rng: Rng,
    pub desk: Desk,
    pub script: Vec<u8>,
    printed: Vec<u8>,
}

/// How many stations, how many may be faulty, and which policies can be built.
struct Size {
    n: usize,
    t: usize,
    rotating: bool,
}

impl Maker {
    fn new(rng: Rng) -> Self {
        Maker { rng, desk: Desk::default(), script: Vec::new(), printed: Vec::new() }
    }

    /// Writes a command and runs it. Whether it was done.
    pub fn say(&mut self, line: impl AsRef<[u8]>) -> bool {
        let line = line.as_ref();
        self.script.extend_from_slice(line);
        self.script.push(b'\n');
        let before = self.printed.len();
        self.desk.answer(line, &mut self.printed);
        let answer = &self.printed[before..];
        answer.windows(6).any(|w| w == b" -> ok")
    }

    pub fn hall(&self) -> &Hall {
        self.desk.hall.as_ref().expect("a hall was made")
    }

    pub fn station(&self, i: usize) -> &Station {
        &self.hall().stations[i]
    }

    pub fn n(&self) -> usize {
        self.hall().setup.table.n()
    }

    /// The stations of one kind.
    pub fn stations(&self, faulty: bool) -> Vec<usize> {
        let marks = self.hall().setup.table.faulty.iter().enumerate();
        marks.filter(|(_, mark)| **mark == faulty).map(|(i, _)| i).collect()
    }

    pub fn correct(&mut self) -> usize {
        let correct = self.stations(false);
        self.rng.one_of(&correct)
    }

    /// How many slots are filled; they are filled in order.
    pub fn frames(&self) -> usize {
        self.desk.buffers.pool.partition_point(|slot| !slot.is_free())
    }

    // ---- setting up

    fn size(&mut self) -> Size {
        let t = self.rng.one_of(&[1, 1, 1, 1, 2, 2, 2, 3, 3, 4, 7]);
        let n = match self.rng.below(3) {
            0 => 2 * t + 1,
            1 => (t * t + t + 1).min(16),
            _ => self.rng.between(2 * t + 1, 16),
        };
        Size { n: n.max(2 * t + 1), t, rotating: n > t * t + t }
    }

    fn table(&mut self, size: &Size, faulty: usize) {
        self.say("table");
        let mut marks = vec![0; size.n];
        for _ in 0..faulty {
            let i = self.rng.below(size.n);
            marks[i] = 1;
        }
        for mark in marks {
            self.say(format!("add {mark}"));
        }
        self.say(format!("lock {}", size.t));
    }

    fn rule_and_policy(&mut self, size: &Size) {
        let rule = self.rng.one_of(&["oil", "oil", "levy"]);
        self.say(format!("rule {rule}"));
        let rotating = size.rotating && !self.rng.one_in(3);
        self.say(if rotating { "policy rotating" } else { "policy full" });
    }

    fn seal(&mut self, n: usize) {
        let (kind, words) = match self.rng.below(12) {
            0 => ("keyed", self.rng.below(n + 1)),
            1 => ("sheet", self.rng.below(256 * n + 1)),
            2..=4 => ("sheet", 256 * n),
            _ => ("keyed", n),
        };
        let mut line = format!("seal {kind}");
        for _ in 0..words {
            line.push_str(&format!(" {:016x}", self.rng.next()));
        }
        self.say(line);
    }

    pub fn lawful_batch(&mut self) -> Batch {
        let grower = self.edge(1, 9_999_999);
        let fruit = self.edge(1, 30_000);
        let oil = self.edge(0, 9_000_000);
        Batch { grower, fruit, oil }
    }

    fn edge(&mut self, low: usize, high: usize) -> u32 {
        let any = self.rng.between(low, high);
        self.rng.one_of(&[low, high, any, any, any, any]) as u32
    }

    fn unlawful_batch(&mut self) -> Batch {
        let mut batch = self.lawful_batch();
        match self.rng.below(6) {
            0 => batch.grower = 0,
            1 => batch.grower = 10_000_000,
            2 => batch.fruit = 0,
            3 => batch.fruit = 30_001,
            4 => batch.oil = 9_000_001,
            _ => batch.oil = u32::MAX,
        }
        batch
    }

    fn intake(&mut self, count: usize) {
        let unlawful = if self.rng.one_in(5) { self.rng.below(count) } else { count };
        for k in 0..count {
            let batch = if k == unlawful { self.unlawful_batch() } else { self.lawful_batch() };
            self.say(format!("batch {} {} {}", batch.grower, batch.fruit, batch.oil));
        }
    }

    fn set_up(&mut self, slots: usize) {
        let size = self.size();
        let faulty = self.rng.between(0, size.t);
        self.table(&size, faulty);
        self.rule_and_policy(&size);
        self.seal(size.n);
        let batches = self.rng.between(1, 5);
        self.intake(batches);
        self.say(format!("batches {batches}"));
        self.say(format!("hall {batches} {slots}"));
    }

    // ---- a season

    /// A season: batches are opened, frames delivered, and now and then something else is called.
    fn season(&mut self) {
        let small = self.rng.one_in(6);
        let slots = if small { self.rng.between(3, 24) } else { self.rng.between(150, 400) };
        self.set_up(slots);
        let calls = if self.rng.one_in(2) { self.rng.between(5, 40) } else { self.rng.between(100, 400) };
        let malice = self.rng.one_of(&[0, 1, 3, 6]);
        let patience = self.rng.one_of(&[3, 20, 1000]);
        for _ in 0..calls {
            self.turn(malice);
            if self.rng.one_in(patience) {
                self.ring_some();
            }
        }
        if !small {
            self.rounds();
        }
        self.show();
    }

    /// One of the things that may happen; the more malice, the more comes from outside.
    fn turn(&mut self, malice: usize) {
        match self.rng.below(20 + malice) {
            0..=3 => self.open_some(),
            4..=12 => self.deliver_some(),
            13 | 14 => self.deliver_newest(),
            15 => self.ring_some(),
            16 => self.call_wrongly(),
            17 => self.look(),
            18 => self.inject_bad_line(),
            19 => self.lend_other_buffers(),
            _ => self.attack(),
        }
    }

    fn open_some(&mut self) {
        let idle: Vec<usize> = self.stations(false).into_iter().filter(|i| self.station(*i).is_idle()).collect();
        let i = match self.rng.pick(&idle) {
            Some(i) if !self.rng.one_in(12) => *i,
            _ => self.rng.below(self.n()),
        };
        self.say(format!("open {i}"));
    }

    /// A frame of the batch that the station works on, if there is one.
    fn deliver_some(&mut self) {
        let i = self.correct();
        let batch = self.station(i).booked + 1;
        let pool = &self.desk.buffers.pool;
        let about = |f: &usize| pool[*f].bytes[2..4] == (batch as u16).to_be_bytes();
        let fitting: Vec<usize> = (0..self.frames()).filter(about).collect();
        let f = match self.rng.pick(&fitting) {
            Some(f) if !self.rng.one_in(10) => *f,
            _ => self.rng.below(self.frames() + 1),
        };
        self.say(format!("deliver {i} {f}"));
    }

    pub fn deliver_newest(&mut self) {
        let newest = self.frames().saturating_sub(1);
        for i in self.stations(false) {
            self.say(format!("deliver {i} {newest}"));
        }
    }

    fn ring_some(&mut self) {
        let i = self.correct();
        self.say(format!("ring {i}"));
    }

    fn attack(&mut self) {
        if let Some(line) = Attack::of(self).line() {
            if self.rng.one_in(4) {
                self.say(format!("frame {line}"));
            }
            let done = self.say(format!("inject {line}"));
            if done && !self.rng.one_in(3) {
                self.deliver_newest();
            }
        }
    }

    /// Indices that name no station, no frame and no entry, and the like.
    fn call_wrongly(&mut self) {
        let n = self.n();
        let i = self.rng.one_of(&[0, 1, n - 1, n, n + 1, 255, 256, 4_294_967_295]);
        let slots = self.hall().setup.slots;
        let f = self.rng.one_of(&[0, slots - 1, slots, 65_536, 4_294_967_295]);
        let k = self.rng.between(0, 6);
        match self.rng.below(5) {
            0 => self.say(format!("open {i}")),
            1 => self.say(format!("deliver {i} {f}")),
            2 => self.say(format!("ring {i}")),
            3 => self.say(format!("read {i} {k}")),
            _ => self.say(format!("write {f} {}", 32 * k)),
        };
    }

    fn look(&mut self) {
        let frames = self.frames();
        let i = self.correct();
        let f = self.rng.below(frames + 1);
        match self.rng.below(5) {
            0 => self.say(format!("read {i} {}", self.station(i).booked)),
            1 => self.say(format!("slot {f}")),
            2 => self.say(format!("seats {}", self.station(i).number)),
            3 => {
                let len = self.rng.one_of(&[0, 63, 64, 81, 82, 99, 100, 208, 1025, 2_000_000]);
                self.say(format!("write {f} {len}"))
            }
            _ => self.frame_of_pool(f),
        };
    }

    fn frame_of_pool(&mut self, f: usize) -> bool {
        let line = crate::frame::hex(self.desk.buffers.pool.get(f).map_or(&[], |slot| slot.frame()));
        self.say(format!("frame {line}"))
    }

    fn inject_bad_line(&mut self) {
        let line = self.bad_line();
        let command: &[u8] = self.rng.one_of(&[b"inject ", b"line ", b"frame "]);
        self.say([command, line.as_slice()].concat());
    }

    /// Wrong lengths and wrong digits, among them those that look right to a person.
    fn bad_line(&mut self) -> Vec<u8> {
        let len = self.rng.one_of(&[0, 1, 2, 3, 63, 64, 65, 82, 207, 208, 209, 210, 300]);
        let mut line: Vec<u8> = (0..len).map(|_| self.rng.one_of(b"0123456789abcdef")).collect();
        if len > 0 && self.rng.one_in(2) {
            let at = self.rng.below(len);
            line[at] = self.rng.one_of(b"ABCDEFg/:`@ \0\r-\xff");
        }
        line
    }

    /// Longer buffers, on which calls are refused, and then the right ones again with all that they held.
    fn lend_other_buffers(&mut self) {
        let setup = &self.hall().setup;
        let (b, p, e) = (setup.batches, setup.slots, setup.table.n() * setup.batches);
        let which = self.rng.below(3);
        let more = |k: usize| usize::from(k == which);
        self.say(format!("buffers {} {} {}", b + more(0), p + more(1), e + more(2)));
        for command in ["open 0", "deliver 0 0", "ring 0", "inject 00", "inject 0", "read 0 1", "write 0 0"] {
            if self.rng.one_in(3) {
                self.say(command);
            }
        }
        self.say(format!("buffers {b} {p} {e}"));
    }

    // ---- full rounds

    /// All frames are delivered to all stations, a few times over, so that the law's promise falls due.
    fn rounds(&mut self) {
        for _ in 0..4 {
            for i in self.stations(false) {
                self.say(format!("open {i}"));
            }
            let frames = self.frames();
            if frames * self.n() > 800 {
                return;
            }
            for f in 0..frames {
                for i in self.stations(false) {
                    self.say(format!("deliver {i} {f}"));
                }
            }
        }
    }

    /// The pool and the books as they are, for whoever checks the law.
    fn show(&mut self) {
        for f in 0..=self.frames() {
            self.say(format!("slot {f}"));
        }
        for i in 0..self.n() {
            for k in 0..=self.station(i).booked + 1 {
                self.say(format!("read {i} {k}"));
            }
        }
        self.say("clerk");
    }

    // ---- the last committee number

    /// One station goes up to the last number, by Rings and by a faulty station's reselect frames.
    fn climb(&mut self) {
        let size = Size { n: 3, t: 1, rotating: true };
        self.table(&size, 1);
        self.rule_and_policy(&size);
        self.seal(3);
        let batch = self.lawful_batch();
        self.say(format!("batch {} {} {}", batch.grower, batch.fruit, batch.oil));
        self.say("hall 1 65536");
        for i in self.stations(false) {
            self.say(format!("open {i}"));
        }
        let policy = self.hall().setup.policy.clone();
        let highest = policy.committee(LAST_NUMBER);
        let correct = self.stations(false);
        let climber = correct.into_iter().find(|i| highest.contains(i)).expect("a committee has a correct member");
        while self.station(climber).number < LAST_NUMBER {
            self.climb_one(climber);
        }
        self.at_the_top(climber);
        self.show_last(20);
    }

    fn climb_one(&mut self, climber: usize) {
        let number = self.station(climber).number;
        if self.hall().setup.policy.sits(climber, number) {
            self.say(format!("ring {climber}"));
            return;
        }
        let faulty = self.stations(true)[0];
        let line = attack::plain_reselect(self, faulty, 1, number + 1);
        self.say(format!("inject {line}"));
        let newest = self.frames() - 1;
        self.say(format!("deliver {climber} {newest}"));
    }

    fn at_the_top(&mut self, climber: usize) {
        self.say(format!("ring {climber}"));
        let faulty = self.stations(true)[0];
        for number in [LAST_NUMBER, LAST_NUMBER + 1] {
            let line = attack::plain_reselect(self, faulty, 1, number);
            self.say(format!("inject {line}"));
            self.deliver_newest();
        }
        for _ in 0..60 {
            self.turn(40);
        }
    }

    fn show_last(&mut self, count: usize) {
        let frames = self.frames();
        for f in frames.saturating_sub(count)..=frames {
            self.say(format!("slot {f}"));
        }
        for i in 0..self.n() {
            self.say(format!("read {i} 1"));
        }
    }

    // ---- setups and words that are wrong

    /// Tables, policies and halls that are refused or do not fit each other, and calls on them.
    fn odd_setups(&mut self) {
        for _ in 0..self.rng.between(4, 12) {
            self.odd_table();
            self.odd_parts();
            let batches = self.desk.intake.len();
            let b = self.rng.one_of(&[0, 1, batches, batches, batches + 1, 1000, 1001, 100_000, 100_001]);
            let p = self.rng.one_of(&[0, 2, 3, 4, 8, 30, 65_536, 65_537, 100_001]);
            self.say(format!("hall {b} {p}"));
            self.odd_calls();
        }
        self.cut_buffers();
    }

    fn odd_table(&mut self) {
        if !self.rng.one_in(5) {
            self.say("table");
        }
        for _ in 0..self.rng.one_of(&[0, 2, 3, 4, 5, 7, 16, 17]) {
            let mark = self.rng.one_of(&["0", "0", "0", "0", "0", "0", "1", "2", "255", "256", "4294967295"]);
            self.say(format!("add {mark}"));
        }
        for _ in 0..self.rng.between(1, 3) {
            let t = self.rng.one_of(&[0, 1, 1, 1, 2, 3, 7, 8, 256, 4_294_967_295u32]);
            self.say(format!("lock {t}"));
        }
    }

    fn odd_parts(&mut self) {
        for _ in 0..self.rng.between(1, 5) {
            let seats = self.rng.one_of(&[0, 1, 20_000, 999_998, 999_999, 1_000_000, 4_294_967_295u32]);
            let batch = self.lawful_batch();
            match self.rng.below(8) {
                0 => self.say("rule oil"),
                1 => self.say("rule levy"),
                2 => self.say("policy rotating"),
                3 => self.say("policy full"),
                4 => self.say(format!("seats {seats}")),
                5 => self.say("clerk"),
                6 => self.say(format!("batch {} {} {}", batch.grower, batch.fruit, batch.oil)),
                _ => {
                    self.seal(3);
                    self.odd_tag()
                }
            };
        }
    }

    fn odd_tag(&mut self) -> bool {
        let i = self.rng.one_of(&[0, 1, 15, 16, 255, 256]);
        let digits = self.rng.one_of(&[48, 48, 48, 47, 46, 50]);
        let statement: String = (0..digits).map(|_| char::from(self.rng.one_of(b"0123456789abcdef"))).collect();
        self.say(format!("tag {i} {statement}"))
    }

    fn odd_calls(&mut self) {
        let calls = ["open 0", "open 1", "deliver 0 0", "deliver 1 0", "ring 0", "ring 1", "inject 00", "inject 0x"];
        let looks = ["read 0 1", "read 1 1", "write 0 64", "write 0 10", "slot 0", "slot 2", "frame 00", "batches 2"];
        for _ in 0..self.rng.between(2, 10) {
            let command = if self.rng.one_in(2) { self.rng.one_of(&calls) } else { self.rng.one_of(&looks) };
            self.say(command);
        }
    }

    /// Buffers that are cut and filled up again: what was cut off is zeros then.
    fn cut_buffers(&mut self) {
        let Some(hall) = &self.desk.hall else { return };
        let (b, p, e) = (hall.setup.batches, hall.setup.slots, hall.setup.table.n() * hall.setup.batches);
        let cut = self.rng.below(4);
        self.say(format!("buffers {} {} {}", b.min(cut), p.min(cut), e.min(cut)));
        self.odd_calls();
        self.say(format!("buffers {b} {p} {e}"));
        self.odd_calls();
        self.say("buffers 0 0 2000001");
        self.odd_calls();
    }

    /// Lines that are no commands, among those that are.
    fn odd_words(&mut self) {
        if self.rng.one_in(2) {
            self.set_up(40);
        }
        for _ in 0..self.rng.between(60, 160) {
            match self.rng.below(6) {
                0 => self.damaged_command(),
                1 => self.inject_bad_line(),
                2 => self.odd_parts(),
                3 => self.odd_calls(),
                4 => self.noise(),
                _ => self.odd_table(),
            }
        }
        self.long_lines();
    }

    fn damaged_command(&mut self) {
        let sound = [
            "table",
            "add 0",
            "lock 1",
            "rule oil",
            "policy full",
            "seal keyed 0123456789abcdef",
            "seal sheet",
            "batch 1 2 3",
            "clerk",
            "seats 3",
            "batches 7",
            "hall 1 8",
            "buffers 1 8 3",
            "open 0",
            "deliver 0 0",
            "ring 0",
            "read 0 1",
            "write 0 64",
            "slot 0",
            "line 00",
            "frame 00",
            "inject 00",
        ];
        let mut line = self.rng.one_of(&sound).as_bytes().to_vec();
        let at = self.rng.below(line.len());
        match self.rng.below(6) {
            0 => line.push(b' '),
            1 => line.insert(at, b' '),
            2 => line.truncate(at),
            3 => line.extend_from_slice(b" 1"),
            4 => line[at] = self.rng.one_of(b"0 9AZ-+.\0\r\t\xff"),
            _ => line.extend_from_slice(b"4294967296"),
        }
        if !line.contains(&b'\n') {
            self.say(line);
        }
    }

    fn noise(&mut self) {
        let len = self.rng.below(12);
        let mut line: Vec<u8> = (0..len).map(|_| (self.rng.next() & 255) as u8).collect();
        line.retain(|b| *b != b'\n');
        self.say(line);
        let remark = self.rng.one_of(&["", "#", "# deliver 0 0", " # no remark", "a -> ok", "line", "frame", "inject"]);
        self.say(remark);
    }

    /// Lines about as long as a line may be.
    fn long_lines(&mut self) {
        for first in [b'x', b'#'] {
            let len = self.rng.one_of(&[69_999, 70_000, 70_001, 70_002, 140_001]);
            self.say(vec![first; len]);
        }
        let words = self.rng.one_of(&[16, 17, 4096, 4097]);
        let kind = if words < 20 { "keyed" } else { "sheet" };
        let line = format!("seal {kind}{}", " 00000000000000ff".repeat(words));
        self.say(line);
    }
}
