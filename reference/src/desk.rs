//! The script language: one command a line, one answer each.

use std::io::Write;

use crate::fault::Fault;
use crate::frame::{self, Form, Frame, Kind};
use crate::hall::{Buffers, Hall, Marks, Setup};
use crate::policy::Policy;
use crate::pool::Slot;
use crate::rule::{self, Batch, Entry, Rule};
use crate::seal::Seal;
use crate::table::{MAX_STATIONS, OpenTable, Table};

/// A longer line is answered by an error.
pub const MAX_LINE: usize = 70_000;

/// Why a command is not done.
pub enum Denial {
    Error(&'static str),
    Refused(Fault),
}

impl From<Fault> for Denial {
    fn from(fault: Fault) -> Self {
        Denial::Refused(fault)
    }
}

type Done = Result<(), Denial>;

const UNKNOWN: Denial = Denial::Error("unknown command");
const WORDS: Denial = Denial::Error("wrong words");
const TOO_LONG: Denial = Denial::Error("the line is too long");

/// Whatever a script has put together so far.
#[derive(Default)]
pub struct Desk {
    open: Option<OpenTable>,
    pub table: Option<Table>,
    pub rule: Option<Rule>,
    pub policy: Option<Policy>,
    pub seal: Option<Seal>,
    pub intake: Vec<Batch>,
    batches: Option<u32>,
    pub hall: Option<Hall>,
    pub buffers: Buffers,
}

impl Desk {
    /// Answers a whole script.
    pub fn run(&mut self, script: &[u8], out: &mut impl Write) -> std::io::Result<()> {
        let script = script.strip_suffix(b"\n").unwrap_or(script);
        let mut answer = Vec::new();
        for line in script.split(|b| *b == b'\n') {
            answer.clear();
            self.answer(line, &mut answer);
            out.write_all(&answer)?;
        }
        Ok(())
    }

    /// Puts what is printed for one line behind `out`.
    pub fn answer(&mut self, line: &[u8], out: &mut Vec<u8>) {
        let too_long = line.len() > MAX_LINE;
        if line.is_empty() || line[0] == b'#' && !too_long {
            return;
        }
        let mut words = Vec::new();
        let mut before = Vec::new();
        let done = if too_long { Err(TOO_LONG) } else { self.command(line, &mut before, &mut words) };
        out.extend_from_slice(&before);
        out.extend_from_slice(&line[..line.len().min(MAX_LINE)]);
        out.extend_from_slice(b" -> ");
        match done {
            Ok(()) => {
                out.extend_from_slice(b"ok");
                out.extend_from_slice(&words);
            }
            Err(Denial::Error(reason)) => say(out, format_args!("error ({reason})")),
            Err(Denial::Refused(fault)) => say(out, format_args!("{fault}")),
        }
        out.push(b'\n');
    }

    /// Does a command. What stands behind `ok` goes into `out`, what is printed in front of the echo into `before`.
    fn command(&mut self, line: &[u8], before: &mut Vec<u8>, out: &mut Vec<u8>) -> Done {
        if let Some(blank) = line.iter().position(|b| *b == b' ') {
            let rest = &line[blank + 1..];
            match &line[..blank] {
                b"line" => return self.line(rest, out),
                b"frame" => return self.frame(rest, out),
                b"inject" => return self.inject(rest),
                _ => {}
            }
        }
        let words: Vec<&[u8]> = line.split(|b| *b == b' ').collect();
        match words.as_slice() {
            [b"table"] => self.start_table(),
            [b"add", mark] => self.add(number(mark)?),
            [b"lock", t] => self.lock(number(t)?),
            [b"rule", b"oil"] => self.choose_rule(Rule::Oil),
            [b"rule", b"levy"] => self.choose_rule(Rule::Levy),
            [b"policy", b"rotating"] => self.build_policy(Policy::rotating),
            [b"policy", b"full"] => self.build_policy(|table| Ok(Policy::full(table))),
            [b"seal", b"keyed", keys @ ..] => self.keyed(keys),
            [b"seal", b"sheet", sheet @ ..] => self.sheet(sheet),
            [b"batch", grower, fruit, oil] => self.batch(number(grower)?, number(fruit)?, number(oil)?),
            [b"clerk"] => self.clerk(before, out),
            [b"seats", c] => self.seats(number(c)?, out),
            [b"tag", i, hex] => self.tag(number(i)?, hex, out),
            [b"batches", count] => self.batch_count(number(count)?),
            [b"hall", b, p] => self.make_hall(number(b)?, number(p)?),
            [b"buffers", i, q, e] => self.lend(number(i)?, number(q)?, number(e)?),
            [b"open", i] => self.open(number(i)?, out),
            [b"deliver", i, f] => self.deliver(number(i)?, number(f)?, out),
            [b"ring", i] => self.ring(number(i)?, out),
            [b"read", i, k] => self.read(number(i)?, number(k)?, out),
            [b"write", f, len] => self.write(number(f)?, number(len)?, out),
            [b"slot", f] => self.slot(number(f)?, out),
            _ => Err(UNKNOWN),
        }
    }

    fn start_table(&mut self) -> Done {
        self.open = Some(OpenTable::default());
        self.table = None;
        Ok(())
    }

    fn add(&mut self, mark: u32) -> Done {
        let open = self.open.as_mut().ok_or(Denial::Error("no open table"))?;
        Ok(open.add(mark)?)
    }

    fn lock(&mut self, t: u32) -> Done {
        let open = self.open.as_ref().ok_or(Denial::Error("no open table"))?;
        self.table = Some(open.lock(t)?);
        self.open = None;
        Ok(())
    }

    fn choose_rule(&mut self, rule: Rule) -> Done {
        self.rule = Some(rule);
        Ok(())
    }

    fn build_policy(&mut self, build: impl Fn(&Table) -> Result<Policy, Fault>) -> Done {
        self.policy = Some(build(locked(&self.table)?)?);
        Ok(())
    }

    fn keyed(&mut self, keys: &[&[u8]]) -> Done {
        if keys.len() > MAX_STATIONS {
            return Err(WORDS);
        }
        let mut all = [0; MAX_STATIONS];
        for (key, word) in all.iter_mut().zip(keys) {
            *key = word64(word)?;
        }
        self.seal = Some(Seal::Keyed(all));
        Ok(())
    }

    fn sheet(&mut self, sheet: &[&[u8]]) -> Done {
        if sheet.len() > 4096 {
            return Err(WORDS);
        }
        let sheet: Result<Vec<u64>, Denial> = sheet.iter().map(|word| word64(word)).collect();
        self.seal = Some(Seal::Sheet(sheet?));
        Ok(())
    }

    fn batch(&mut self, grower: u32, fruit: u32, oil: u32) -> Done {
        self.intake.push(Batch { grower, fruit, oil });
        Ok(())
    }

    fn clerk(&mut self, before: &mut Vec<u8>, out: &mut Vec<u8>) -> Done {
        let rule = self.rule.ok_or(Denial::Error("no rule"))?;
        let book = rule::clerk(rule, &self.intake);
        for (k, entry) in book.iter().enumerate() {
            say(before, format_args!("entry {}", k + 1));
            say_entry(before, entry);
            before.push(b'\n');
        }
        say(out, format_args!(" {}", book.len()));
        Ok(())
    }

    fn seats(&mut self, c: u32, out: &mut Vec<u8>) -> Done {
        let policy = self.policy.as_ref().ok_or(Denial::Error("no policy"))?;
        for i in policy.committee(c) {
            say(out, format_args!(" {i}"));
        }
        Ok(())
    }

    fn tag(&mut self, i: u32, hex: &[u8], out: &mut Vec<u8>) -> Done {
        let bytes = frame::unhex(hex).ok_or(WORDS)?;
        let statement = bytes.try_into().map_err(|_| WORDS)?;
        if i as usize >= MAX_STATIONS {
            return Err(WORDS);
        }
        let seal = self.seal.as_ref().ok_or(Denial::Error("no seal"))?;
        say(out, format_args!(" {:016x}", seal.tag(i as u8, &statement)));
        Ok(())
    }

    fn line(&mut self, text: &[u8], out: &mut Vec<u8>) -> Done {
        say(out, format_args!(" {}", frame::read_line(text)?.len()));
        Ok(())
    }

    fn batch_count(&mut self, count: u32) -> Done {
        if !(1..=1000).contains(&count) {
            return Err(WORDS);
        }
        self.batches = Some(count);
        Ok(())
    }

    fn frame(&mut self, text: &[u8], out: &mut Vec<u8>) -> Done {
        let table = locked(&self.table)?;
        let batches = self.batches.ok_or(Denial::Error("no batch count"))?;
        let form = Form { n: table.n(), t: table.t, batches };
        let frame = Frame::decode(&frame::read_line(text)?, &form)?;
        let kind = match frame.kind {
            Kind::Propose => "propose",
            Kind::Decision => "decision",
            Kind::Reselect => "reselect",
        };
        let (sender, batch, number, pairs) = (frame.sender, frame.batch, frame.number, frame.pairs.len());
        say(out, format_args!(" {kind} sender {sender} batch {batch} number {number} pairs {pairs} entry"));
        say_entry(out, &frame.entry);
        say(out, format_args!(" tag {:016x}", frame.tag));
        for pair in &frame.pairs {
            say(out, format_args!(" pair {} {:016x}", pair.station, pair.tag));
        }
        Ok(())
    }

    fn make_hall(&mut self, batches: u32, slots: u32) -> Done {
        if batches > 100_000 || slots > 100_000 {
            return Err(WORDS);
        }
        let (batches, slots) = (batches as usize, slots as usize);
        let table = locked(&self.table)?.clone();
        let rule = self.rule.ok_or(Denial::Error("no rule"))?;
        let policy = self.policy.clone().ok_or(Denial::Error("no policy"))?;
        let seal = self.seal.clone().ok_or(Denial::Error("no seal"))?;
        self.buffers = Buffers {
            intake: self.intake.clone(),
            pool: vec![Slot::EMPTY; slots],
            books: vec![Entry::default(); table.n() * batches],
        };
        self.hall = Some(Hall::new(Setup { table, rule, policy, seal, batches, slots }));
        Ok(())
    }

    fn lend(&mut self, intake: u32, slots: u32, entries: u32) -> Done {
        if [intake, slots, entries].iter().any(|len| *len > 2_000_000) {
            return Err(WORDS);
        }
        if self.hall.is_none() {
            return Err(Denial::Error("no hall"));
        }
        self.buffers.intake.resize(intake as usize, Batch::default());
        self.buffers.pool.resize(slots as usize, Slot::EMPTY);
        self.buffers.books.resize(entries as usize, Entry::default());
        Ok(())
    }

    fn open(&mut self, i: u32, out: &mut Vec<u8>) -> Done {
        let (hall, buffers) = self.at_hall()?;
        say_marks(out, hall.open(buffers, i)?);
        Ok(())
    }

    fn deliver(&mut self, i: u32, f: u32, out: &mut Vec<u8>) -> Done {
        let (hall, buffers) = self.at_hall()?;
        say_marks(out, hall.deliver(buffers, i, f)?);
        Ok(())
    }

    fn ring(&mut self, i: u32, out: &mut Vec<u8>) -> Done {
        let (hall, buffers) = self.at_hall()?;
        say_marks(out, hall.ring(buffers, i)?);
        Ok(())
    }

    fn inject(&mut self, text: &[u8]) -> Done {
        let (hall, buffers) = self.at_hall()?;
        hall.inject(buffers, text)?;
        Ok(())
    }

    fn read(&mut self, i: u32, k: u32, out: &mut Vec<u8>) -> Done {
        let (hall, buffers) = self.at_hall()?;
        say_entry(out, &hall.read(buffers, i, k)?);
        Ok(())
    }

    fn write(&mut self, f: u32, len: u32, out: &mut Vec<u8>) -> Done {
        let (hall, buffers) = self.at_hall()?;
        let line = hall.write(buffers, f, len.min(1024) as usize)?;
        say(out, format_args!(" {} {line}", line.len()));
        Ok(())
    }

    fn slot(&mut self, f: u32, out: &mut Vec<u8>) -> Done {
        let (_, buffers) = self.at_hall()?;
        let slot = buffers.pool.get(f as usize).ok_or(Denial::Error("no such slot"))?;
        let (len, by, taken) = (slot.len, slot.by as u8, u8::from(slot.taken));
        say(out, format_args!(" {len} {by} {taken} {}", frame::hex(&slot.bytes)));
        Ok(())
    }

    fn at_hall(&mut self) -> Result<(&mut Hall, &mut Buffers), Denial> {
        match &mut self.hall {
            Some(hall) => Ok((hall, &mut self.buffers)),
            None => Err(Denial::Error("no hall")),
        }
    }
}

fn locked(table: &Option<Table>) -> Result<&Table, Denial> {
    table.as_ref().ok_or(Denial::Error("no locked table"))
}

fn say(out: &mut Vec<u8>, words: std::fmt::Arguments<'_>) {
    // writing to memory does not fail
    let _ = out.write_fmt(words);
}

fn say_entry(out: &mut Vec<u8>, entry: &Entry) {
    say(out, format_args!(" {} {} {} {}", entry.grower, entry.amount, entry.carry, entry.figure));
}

fn say_marks(out: &mut Vec<u8>, marks: Marks) {
    let named = [(marks.reselected, " reselected"), (marks.proposed, " proposed"), (marks.decided, " decided")];
    for (_, name) in named.iter().filter(|(set, _)| *set) {
        out.extend_from_slice(name.as_bytes());
    }
}

/// A decimal number of 32 bits.
fn number(word: &[u8]) -> Result<u32, Denial> {
    if word.is_empty() {
        return Err(WORDS);
    }
    word.iter().try_fold(0u32, |value, byte| {
        if !byte.is_ascii_digit() {
            return Err(WORDS);
        }
        let digit = u32::from(byte - b'0');
        value.checked_mul(10).and_then(|v| v.checked_add(digit)).ok_or(WORDS)
    })
}

/// Sixteen hexadecimal digits.
fn word64(word: &[u8]) -> Result<u64, Denial> {
    let bytes = frame::unhex(word).ok_or(WORDS)?;
    Ok(u64::from_be_bytes(bytes.try_into().map_err(|_| WORDS)?))
}
