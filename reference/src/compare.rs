//! Both programs on the same scripts.

use std::fs::{self, File};
use std::io;
use std::path::{Path, PathBuf};
use std::process::{Command, Stdio};
use std::time::{Duration, Instant};

use crate::coverage::Coverage;
use crate::desk::Desk;
use crate::law::{self, Checked};
use crate::random;
use crate::transcript;

/// How long a script that shows a difference is made shorter.
const PATIENCE: Duration = Duration::from_secs(60);

/// A program that takes a script on standard input, and a file of its own to hand scripts over.
pub struct Program {
    path: PathBuf,
    script: PathBuf,
}

impl Program {
    pub fn new(path: &str, folder: &Path) -> io::Result<Self> {
        let path = fs::canonicalize(path)?;
        let name = path.file_name().unwrap_or_default();
        Ok(Program { script: folder.join(name).with_extension("script"), path })
    }

    pub fn run(&self, script: &[u8]) -> io::Result<Vec<u8>> {
        fs::write(&self.script, script)?;
        let stdin = Stdio::from(File::open(&self.script)?);
        let output = Command::new(&self.path).stdin(stdin).stderr(Stdio::inherit()).output()?;
        if output.status.success() {
            return Ok(output.stdout);
        }
        // a program that breaks off has printed something that no other prints
        Ok([output.stdout, format!("ended with {}\n", output.status).into_bytes()].concat())
    }
}

/// What the reference prints for a script.
pub fn reference(script: &[u8]) -> Vec<u8> {
    let mut printed = Vec::new();
    // writing to memory does not fail
    let _ = Desk::default().run(script, &mut printed);
    printed
}

#[derive(Default)]
pub struct Found {
    pub scripts: u64,
    pub coverage: Coverage,
    pub law: Checked,
}

/// Runs `count` scripts of a seed through a program. The error says how it differs, or how it breaks the law.
pub fn compare(program: &Program, seed: u64, count: u64) -> io::Result<Result<Found, String>> {
    let mut found = Found::default();
    for index in 0..count {
        let made = random::script(seed, index);
        let printed = program.run(&made.script)?;
        if transcript::first_difference(&printed, &made.printed).is_some() {
            return Ok(Err(difference(program, seed, index, &made.script)?));
        }
        match law::check(&printed) {
            Ok(checked) => found.law.add(&checked),
            Err(breach) => return Ok(Err(format!("seed {seed}, script {index} breaks the law: {breach}\n"))),
        }
        found.coverage.note(&printed);
        found.scripts += 1;
    }
    Ok(Ok(found))
}

/// The number of the first of `count` scripts on which a program differs.
pub fn first_differing(one: &Program, other: &Program, seed: u64, count: u64) -> io::Result<Option<u64>> {
    for index in 0..count {
        let script = random::script(seed, index).script;
        if transcript::first_difference(&one.run(&script)?, &other.run(&script)?).is_some() {
            return Ok(Some(index));
        }
    }
    Ok(None)
}

fn difference(program: &Program, seed: u64, index: u64, script: &[u8]) -> io::Result<String> {
    let short = shortened(program, script)?;
    let (theirs, ours) = (program.run(&short)?, reference(&short));
    let at = transcript::first_difference(&theirs, &ours).unwrap_or(0);
    let line = |printed: &[u8]| {
        let line = transcript::lines(printed).nth(at).unwrap_or(b"(nothing)");
        String::from_utf8_lossy(line).into_owned()
    };
    let script = String::from_utf8_lossy(&short).into_owned();
    Ok(format!(
        "seed {seed}, script {index}: the programs differ. The shortest script found that shows it:\n\n{script}\n\
         the program: {}\nthe reference: {}\n",
        line(&theirs),
        line(&ours)
    ))
}

/// Leaves lines out, ever fewer at a time, as long as the programs still differ and there is time.
fn shortened(program: &Program, script: &[u8]) -> io::Result<Vec<u8>> {
    let begun = Instant::now();
    let mut kept: Vec<&[u8]> = script.split_inclusive(|b| *b == b'\n').collect();
    let mut chunk = kept.len().div_ceil(2);
    while chunk > 0 {
        let mut at = 0;
        while at < kept.len() && begun.elapsed() < PATIENCE {
            let end = (at + chunk).min(kept.len());
            let shorter = [&kept[..at], &kept[end..]].concat();
            let text = shorter.concat();
            if transcript::first_difference(&program.run(&text)?, &reference(&text)).is_some() {
                kept = shorter;
            } else {
                at = end;
            }
        }
        chunk /= 2;
    }
    Ok(kept.concat())
}

#[cfg(test)]
mod tests {
    use super::*;

    #[test]
    fn the_stored_run_is_the_references_too() {
        let printed = reference(include_bytes!("../../crates/console/stdin"));
        let stored = include_bytes!("../../crates/console/stdout");
        assert_eq!(transcript::first_difference(&printed, stored), None);
    }
}
