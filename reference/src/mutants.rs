//! Single faults of this very program, to show that the comparison finds them.

use std::fs;
use std::io;
use std::path::Path;
use std::process::{Command, Stdio};

use crate::compare::{self, Program};

/// One fault: a text of a source file, which stands there once, and what takes its place.
struct Mutant<'a> {
    name: &'a str,
    file: &'a str,
    old: &'a str,
    new: &'a str,
}

/// What became of a mutant.
enum Outcome {
    Found(u64),
    Missed,
    Unfit(&'static str),
}

/// Tries every mutant of a list; whether the comparison found them all.
pub fn try_all(source: &Path, folder: &Path, console: &str, seed: u64, count: u64) -> io::Result<bool> {
    let list = fs::read_to_string(source.join("mutants.txt"))?;
    let console = Program::new(console, folder)?;
    let (mut found, mut all) = (0, 0);
    for mutant in list.split("\n\n").filter_map(parse) {
        let outcome = attempt(&mutant, source, folder, &console, seed, count)?;
        all += 1;
        match outcome {
            Outcome::Found(index) => {
                found += 1;
                println!("found in script {index}: {}", mutant.name);
            }
            Outcome::Missed => println!("MISSED: {}", mutant.name),
            Outcome::Unfit(why) => println!("UNFIT, {why}: {}", mutant.name),
        }
    }
    println!("mutants: {found} of {all} found");
    Ok(found == all)
}

fn parse(block: &str) -> Option<Mutant<'_>> {
    let mut lines = block.lines().filter(|line| !line.starts_with('#'));
    let (name, file) = (lines.next()?, lines.next()?);
    let (old, new) = (lines.next()?.strip_prefix('-')?, lines.next()?.strip_prefix('+')?);
    Some(Mutant { name, file, old, new })
}

fn attempt(
    mutant: &Mutant,
    source: &Path,
    folder: &Path,
    console: &Program,
    seed: u64,
    count: u64,
) -> io::Result<Outcome> {
    let copy = folder.join("mutant");
    copy_sources(source, &copy)?;
    let text = fs::read_to_string(source.join(mutant.file))?;
    if text.matches(mutant.old).count() != 1 {
        return Ok(Outcome::Unfit("its text does not stand there once"));
    }
    fs::write(copy.join(mutant.file), text.replace(mutant.old, mutant.new))?;
    if !build(&copy)? {
        return Ok(Outcome::Unfit("it does not compile"));
    }
    let binary = copy.join("target/release/reference");
    let program = Program::new(&binary.to_string_lossy(), folder)?;
    let index = compare::first_differing(console, &program, seed, count)?;
    Ok(index.map_or(Outcome::Missed, Outcome::Found))
}

fn copy_sources(source: &Path, copy: &Path) -> io::Result<()> {
    fs::create_dir_all(copy.join("src"))?;
    for name in ["Cargo.toml", "Cargo.lock"] {
        fs::copy(source.join(name), copy.join(name))?;
    }
    for file in fs::read_dir(source.join("src"))? {
        let file = file?;
        fs::copy(file.path(), copy.join("src").join(file.file_name()))?;
    }
    Ok(())
}

fn build(copy: &Path) -> io::Result<bool> {
    let mut cargo = Command::new("cargo");
    cargo.args(["build", "--release", "--offline", "--quiet"]).current_dir(copy).stderr(Stdio::null());
    Ok(cargo.env("CARGO_TARGET_DIR", copy.join("target")).status()?.success())
}
