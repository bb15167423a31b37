//! A second implementation of the hall, written from docs/ alone, and what holds the proved program to it.

mod attack;
mod bench;
mod compare;
mod coverage;
mod desk;
mod fault;
mod frame;
mod hall;
mod law;
mod mutants;
mod policy;
mod pool;
mod random;
mod rng;
mod rule;
mod seal;
mod season;
mod table;
mod transcript;

use std::io::{self, BufWriter, Read, Write};
use std::path::Path;
use std::process::ExitCode;

use compare::Program;

const USAGE: &str = "\
reference                              answers a script on standard input
reference make SEED INDEX              prints the random script of that number
reference law                          checks the law on what a program printed, from standard input
reference compare FOLDER CONSOLE SEED COUNT [report]
                                       runs that many random scripts through both programs
reference season KIND ..                prints a script of the benchmark
reference bench CONSOLE REFERENCE SCRIPT ..
                                       times two programs on scripts
reference mutants SOURCE FOLDER CONSOLE SEED COUNT
                                       whether that comparison finds each fault of SOURCE/mutants.txt
";

fn main() -> io::Result<ExitCode> {
    let words: Vec<String> = std::env::args().skip(1).collect();
    let words: Vec<&str> = words.iter().map(String::as_str).collect();
    match words.as_slice() {
        [] => answer_script(),
        ["make", seed, index] => make(number(seed)?, number(index)?),
        ["law"] => check_law(),
        ["compare", folder, console, seed, count] => {
            compare(&Program::new(console, Path::new(folder))?, number(seed)?, number(count)?, false)
        }
        ["compare", folder, console, seed, count, "report"] => {
            compare(&Program::new(console, Path::new(folder))?, number(seed)?, number(count)?, true)
        }
        ["season", kind @ ..] => season::print(kind, &mut io::stdout().lock()).map(|()| ExitCode::SUCCESS),
        ["bench", console, reference, scripts @ ..] => {
            bench::run(console, reference, scripts, &mut io::stdout().lock()).map(|()| ExitCode::SUCCESS)
        }
        ["mutants", source, folder, console, seed, count] => {
            let (source, folder) = (Path::new(source), Path::new(folder));
            let found = mutants::try_all(source, folder, console, number(seed)?, number(count)?)?;
            Ok(if found { ExitCode::SUCCESS } else { ExitCode::FAILURE })
        }
        _ => {
            eprint!("{USAGE}");
            Ok(ExitCode::from(2))
        }
    }
}

fn number(word: &str) -> io::Result<u64> {
    word.parse().map_err(|_| io::Error::new(io::ErrorKind::InvalidInput, format!("{word} is no number")))
}

fn answer_script() -> io::Result<ExitCode> {
    let script = standard_input()?;
    let mut out = BufWriter::new(io::stdout().lock());
    desk::Desk::default().run(&script, &mut out)?;
    out.flush()?;
    Ok(ExitCode::SUCCESS)
}

fn standard_input() -> io::Result<Vec<u8>> {
    let mut text = Vec::new();
    io::stdin().lock().read_to_end(&mut text)?;
    Ok(text)
}

fn make(seed: u64, index: u64) -> io::Result<ExitCode> {
    io::stdout().write_all(&random::script(seed, index).script)?;
    Ok(ExitCode::SUCCESS)
}

fn check_law() -> io::Result<ExitCode> {
    match law::check(&standard_input()?) {
        Ok(checked) => {
            println!("the law holds: {checked}");
            Ok(ExitCode::SUCCESS)
        }
        Err(breach) => {
            println!("the law is broken: {breach}");
            Ok(ExitCode::FAILURE)
        }
    }
}

fn compare(program: &Program, seed: u64, count: u64, report: bool) -> io::Result<ExitCode> {
    let found = match compare::compare(program, seed, count)? {
        Ok(found) => found,
        Err(difference) => {
            print!("{difference}");
            return Ok(ExitCode::FAILURE);
        }
    };
    if report {
        print!("{}", found.coverage.report());
    }
    println!("compare: {} scripts of seed {seed}, {} calls: no difference", found.scripts, found.coverage.calls);
    println!("compare: the law held: {}", found.law);
    let missing = found.coverage.missing();
    for answer in &missing {
        println!("compare: no script reached {answer}");
    }
    Ok(if missing.is_empty() { ExitCode::SUCCESS } else { ExitCode::FAILURE })
}
