//! Times the console and this program on the same scripts, and prints what comes out as tables.

use std::fs::{self, File};
use std::hint::black_box;
use std::io::{self, Write};
use std::path::Path;
use std::process::{Command, Output, Stdio};
use std::thread;
use std::time::{Duration, Instant};

use crate::frame::MAX_BYTES;
use crate::pool::{Slot, Source};

const RUNS: usize = 5;
/// Long runs even out by themselves what else the machine does.
const LONG_RUNS: usize = 3;
const LONG: Duration = Duration::from_secs(3);

const SLOTS: usize = 65_536;
const PASSES: usize = 101;

const CALLS: [&str; 6] = ["open", "deliver", "ring", "inject", "read", "write"];

/// Times two programs on scripts. A script that goes on where another one ends stands for what it adds to that one.
pub fn run(console: &str, reference: &str, scripts: &[&str], out: &mut impl Write) -> io::Result<()> {
    let mut loads = Vec::new();
    for script in scripts {
        loads.push(Load::measure([console, reference], script)?);
    }
    let rows: Vec<Row> = loads.iter().map(|load| Row::of(load, &loads)).collect();
    print_rows(&rows, out)?;
    let added: Vec<&Row> = rows.iter().filter(|row| row.is_added).collect();
    if !added.is_empty() {
        print_added(&added, out)?;
    }
    Ok(())
}

/// A script, and how long the console and the reference take for it.
struct Load {
    name: String,
    script: Vec<u8>,
    calls: usize,
    refused: usize,
    times: [Duration; 2],
}

impl Load {
    fn measure(programs: [&str; 2], path: &str) -> io::Result<Self> {
        let script = fs::read(path)?;
        let begun = Instant::now();
        let refused = check(programs, path)?;
        let runs = if begun.elapsed() > LONG { LONG_RUNS } else { RUNS };
        let mut all = [Vec::new(), Vec::new()];
        for _ in 0..runs {
            // by turns, so that what else the machine does falls on both
            for (times, program) in all.iter_mut().zip(programs) {
                times.push(time(program, path)?);
            }
        }
        let name = Path::new(path).file_stem().unwrap_or_default().to_string_lossy().into_owned();
        let calls = script.split(|b| *b == b'\n').filter(|line| is_call(line)).count();
        Ok(Load { name, script, calls, refused, times: all.map(median) })
    }
}

fn is_call(line: &[u8]) -> bool {
    let command = line.split(|b| *b == b' ').next().unwrap_or_default();
    CALLS.iter().any(|call| call.as_bytes() == command)
}

fn median(mut times: Vec<Duration>) -> Duration {
    times.sort_unstable();
    times[times.len() / 2]
}

fn time(program: &str, path: &str) -> io::Result<Duration> {
    let mut command = Command::new(program);
    command.stdin(File::open(path)?).stdout(Stdio::null());
    let begun = Instant::now();
    let status = command.status()?;
    let time = begun.elapsed();
    if status.success() { Ok(time) } else { Err(io::Error::other(format!("{program} ended with {status} on {path}"))) }
}

/// Holds both programs to printing the same, and counts the refusals.
fn check(programs: [&str; 2], path: &str) -> io::Result<usize> {
    let [console, reference] = thread::scope(|scope| {
        let running = programs.map(|program| scope.spawn(move || answers(program, path)));
        running.map(|run| run.join().expect("a thread that runs a program does not panic"))
    });
    let (console, reference) = (console?.stdout, reference?.stdout);
    let (mut left, mut right) = (console.split(|b| *b == b'\n'), reference.split(|b| *b == b'\n'));
    let mut refused = 0;
    loop {
        match (left.next(), right.next()) {
            (None, None) => return Ok(refused),
            (Some(a), Some(b)) if plain(a) == plain(b) => refused += usize::from(is_refused(a)),
            (a, b) => {
                let [a, b] = [a, b].map(|line| String::from_utf8_lossy(line.unwrap_or(b"nothing")).into_owned());
                return Err(io::Error::other(format!("{path}: one prints\n{a}\nthe other\n{b}")));
            }
        }
    }
}

fn answers(program: &str, path: &str) -> io::Result<Output> {
    Command::new(program).stdin(File::open(path)?).stderr(Stdio::inherit()).output()
}

/// A line without the words for people, which stand in parentheses at its end.
fn plain(line: &[u8]) -> &[u8] {
    let words = if line.ends_with(b")") { line.windows(2).rposition(|two| two == b" (") } else { None };
    &line[..words.unwrap_or(line.len())]
}

fn is_refused(line: &[u8]) -> bool {
    const ARROW: &[u8] = b" -> refused ";
    line.windows(ARROW.len()).any(|part| part == ARROW)
}

/// A row of the table: a whole load, or what a load adds to another.
struct Row {
    name: String,
    calls: usize,
    refused: usize,
    seconds: [f64; 2],
    is_added: bool,
}

impl Row {
    fn of(load: &Load, loads: &[Load]) -> Self {
        let whole = Row {
            name: load.name.clone(),
            calls: load.calls,
            refused: load.refused,
            seconds: load.times.map(|time| time.as_secs_f64()),
            is_added: false,
        };
        let begins = |base: &&Load| base.script.len() < load.script.len() && load.script.starts_with(&base.script);
        match loads.iter().find(begins) {
            Some(base) => whole.less(base),
            None => whole,
        }
    }

    fn less(self, base: &Load) -> Self {
        let [console, reference] = self.seconds;
        Row {
            name: format!("{} after {}", self.name, base.name),
            calls: self.calls - base.calls,
            refused: self.refused - base.refused,
            seconds: [console - base.times[0].as_secs_f64(), reference - base.times[1].as_secs_f64()],
            is_added: true,
        }
    }

    /// Microseconds of one call in either program.
    fn micros(&self) -> [f64; 2] {
        self.seconds.map(|seconds| 1e6 * seconds / self.calls as f64)
    }
}

fn print_rows(rows: &[Row], out: &mut impl Write) -> io::Result<()> {
    writeln!(out, "| Load | Calls | Refused | Console, calls/s | Reference, calls/s | Ratio |")?;
    writeln!(out, "|---|--:|--:|--:|--:|--:|")?;
    for row in rows {
        let [console, reference] = row.seconds.map(|seconds| row.calls as f64 / seconds);
        let (calls, refused, ratio) = (grouped(row.calls as f64), grouped(row.refused as f64), console / reference);
        let (console, reference) = (grouped(console), grouped(reference));
        writeln!(out, "| {} | {calls} | {refused} | {console} | {reference} | {ratio:.2} |", row.name)?;
    }
    Ok(())
}

/// What one call takes beside what it takes to read the pool.
fn print_added(rows: &[&Row], out: &mut impl Write) -> io::Result<()> {
    let pass = 1e6 * reading_time().as_secs_f64();
    writeln!(out, "\nReading all bytes of {} slots once: {pass:.0} µs.\n", grouped(SLOTS as f64))?;
    writeln!(out, "| One call of | Console, µs | of a reading | Reference, µs | of a reading |")?;
    writeln!(out, "|---|--:|--:|--:|--:|")?;
    for row in rows {
        let [console, reference] = row.micros();
        let (a, b) = (console / pass, reference / pass);
        writeln!(out, "| {} | {console:.1} | {a:.2} | {reference:.1} | {b:.2} |", row.name)?;
    }
    Ok(())
}

/// How long it takes to look at each byte and at the length of each slot of a full pool.
fn reading_time() -> Duration {
    let slot = Slot { len: MAX_BYTES, bytes: [1; MAX_BYTES], by: Source::Outside, taken: false };
    let pool = vec![slot; SLOTS];
    let pass = || {
        let begun = Instant::now();
        black_box(black_box(&pool).iter().map(sum).sum::<usize>());
        begun.elapsed()
    };
    median((0..PASSES).map(|_| pass()).collect())
}

fn sum(slot: &Slot) -> usize {
    slot.len + slot.bytes.iter().map(|b| usize::from(*b)).sum::<usize>()
}

/// A number with commas between its thousands.
fn grouped(number: f64) -> String {
    let digits = format!("{number:.0}");
    let mut text = String::new();
    for (k, digit) in digits.chars().enumerate() {
        if k > 0 && (digits.len() - k).is_multiple_of(3) {
            text.push(',');
        }
        text.push(digit);
    }
    text
}
