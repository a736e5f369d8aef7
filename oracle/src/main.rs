//! Runs the Rust that is ported, for comparison. README.md says how.

mod answers;
mod bind;
mod cases;
mod coverage;
mod damage;
mod draft;
mod draw;
mod dump;
mod edges;
mod generate;
mod ids;
mod jobs;
mod kinds;
mod log;
mod operations;
mod random;
mod reasons;
mod records;
mod replay;
mod rounds;
mod stamps;
mod tables;
mod tally;
mod tasks;
mod views;
mod ways;
mod wrap;

// The modules of the Rust text: build.rs makes the list.
include!(concat!(env!("OUT_DIR"), "/harbor.rs"));

use coverage::Covered;
use damage::Damaged;
use jobs::Jobs;
use records::Played;
use std::io::{self, Read, Write};
use std::path::{Path, PathBuf};
use std::process::ExitCode;
use std::{fs, panic};
use tables::Tables;
use tally::Tallied;

const USAGE: &str = "usage: oracle COMMAND
  bind-edges                  cases of bind on both sides of each edge
  bind-sweep                  cases of bind with every index
  bind-cases SEED COUNT       drawn cases of bind
  bind-bad-words SEED COUNT   drawn cases of bind, each with a word that does not read
  bind                        reads cases, prints the Rust's answers
  rounds COUNT                a message in and out, COUNT times, for measuring
  replay                      reads an operation log, prints the Rust's lines
  dump                        as replay, and then every field of every table
  dump-all FOLDER             writes what dump prints for each NAME.log there to NAME.rust
  generate SEED KIND          a drawn log: mixed, queues, churn, rows, mints or edges, each also with long- before it;
                              damaged; full and over (65,536 bytes and one more); empty
  generate-many SEED COUNT FOLDER   drawn logs of all kinds, as files
  coverage FOLDER             runs each log there; fails where a number that can occur did not
  tally-generate SEED KIND    a drawn log within request No. 7's premises: slots, reuse or waits, each also with long- before it
  tally-generate-many SEED COUNT FOLDER   drawn logs of these kinds, as files, and prefixes of some in a folder prefixes
  tally-coverage FOLDER       as coverage, for such logs; fails where one breaks a premise
  jobs                        reads a job script, prints the lines of the dispatcher over the Rust's tables
  jobs-all FOLDER             writes what jobs prints for each NAME.jobs there to NAME.rust
  jobs-generate SEED KIND     a drawn script: mixed, queues, churn, crowded or edges, each also with long- before it;
                              damaged; full and over; empty
  jobs-generate-many SEED COUNT FOLDER   drawn scripts of all kinds, as files
  jobs-coverage FOLDER        as coverage, for scripts
  jobs-astray                 fails, for it hands a job's message to another row
  wrap                        65,535 creations, until the first id opens again
  sizes                       the sizes of channel table that a log may ask for
  where                       this program's own path";

fn main() -> ExitCode {
    let words: Vec<String> = std::env::args().skip(1).collect();
    let words: Vec<&str> = words.iter().map(String::as_str).collect();
    keep_rows_quiet();
    match run(&words).and_then(|bytes| io::stdout().write_all(&bytes).map_err(say)) {
        Ok(()) => ExitCode::SUCCESS,
        Err(why) => {
            eprintln!("oracle: {why}");
            ExitCode::FAILURE
        }
    }
}

/// A bad row makes transfer panic, which is an answer here. Any other panic is
/// shown, and ends the run.
fn keep_rows_quiet() {
    let show = panic::take_hook();
    panic::set_hook(Box::new(move |what| {
        let file = what.location().map_or("", |at| at.file());
        if !file.ends_with("capslots.rs") {
            show(what);
        }
    }));
}

/// What the command writes.
fn run(words: &[&str]) -> Result<Vec<u8>, String> {
    match words {
        ["bind-edges"] => Ok(written(cases::edges())),
        ["bind-sweep"] => Ok(written(cases::sweep())),
        ["bind-cases", seed, count] => Ok(written(cases::drawn(number(seed)?, number(count)?))),
        ["bind-bad-words", seed, count] => {
            Ok(written(cases::bad_words(number(seed)?, number(count)?)))
        }
        ["bind"] => Ok(bind::answers(&input()?)?.into_bytes()),
        ["rounds", count] => Ok(format!("{}\n", rounds::rounds(number(count)?)).into_bytes()),
        ["sizes"] => Ok(sizes().into_bytes()),
        ["replay"] => lines::<Tables>(&input()?),
        ["dump"] => Ok(dumped(&input()?)?.into_bytes()),
        ["dump-all", folder] => all::<Tables>(folder, |log| Ok(dumped(log)?.into_bytes())),
        ["generate", seed, kind] => generate::generate::<Tables>(number(seed)?, kind),
        ["generate-many", seed, count, folder] => many::<Tables>(seed, count, folder),
        ["coverage", folder] => covered::<Tables>(folder),
        ["tally-generate", seed, kind] => generate::sound::<Tallied>(number(seed)?, kind),
        ["tally-generate-many", seed, count, folder] => {
            tally::many(number(seed)?, number(count)?, Path::new(folder))?;
            Ok(Vec::new())
        }
        ["tally-coverage", folder] => covered::<Tallied>(folder),
        ["jobs"] => lines::<Jobs>(&input()?),
        ["jobs-all", folder] => all::<Jobs>(folder, lines::<Jobs>),
        ["jobs-generate", seed, kind] => generate::generate::<Jobs>(number(seed)?, kind),
        ["jobs-generate-many", seed, count, folder] => many::<Jobs>(seed, count, folder),
        ["jobs-coverage", folder] => covered::<Jobs>(folder),
        ["jobs-astray"] => Ok(jobs::astray()?.into_bytes()),
        ["wrap"] => Ok(wrap::wrap()?.into_bytes()),
        ["where"] => Ok(format!("{}\n", here()?.display()).into_bytes()),
        _ => Err(USAGE.into()),
    }
}

fn written(cases: Vec<cases::Case>) -> Vec<u8> {
    let mut out = Vec::new();
    cases.iter().for_each(|case| case.write(&mut out));
    out
}

fn dumped(log: &[u8]) -> Result<String, String> {
    let (lines, tables) = replay::replay(log)?;
    Ok(lines + &dump::dump(&tables))
}

fn lines<P: Played>(bytes: &[u8]) -> Result<Vec<u8>, String> {
    let (lines, _): (_, P) = replay::replay(bytes)?;
    Ok(lines.into_bytes())
}

/// Writes what each file of a folder is answered beside it.
fn all<C: Covered>(
    folder: &str,
    answered: impl Fn(&[u8]) -> Result<Vec<u8>, String>,
) -> Result<Vec<u8>, String> {
    for path in files::<C>(folder)? {
        let bytes = fs::read(&path).map_err(say)?;
        let text = answered(&bytes).map_err(|why| format!("{}: {why}", path.display()))?;
        fs::write(path.with_extension("rust"), text).map_err(say)?;
    }
    Ok(Vec::new())
}

fn many<D: Damaged + Covered>(seed: &str, count: &str, folder: &str) -> Result<Vec<u8>, String> {
    generate::many::<D>(
        number(seed)?,
        number(count)?,
        Path::new(folder),
        D::NAMES[0],
    )?;
    Ok(Vec::new())
}

/// Prints the table whether or not anything is wrong with it.
fn covered<C: Covered>(folder: &str) -> Result<Vec<u8>, String> {
    let mut coverage = coverage::Coverage::default();
    for path in files::<C>(folder)? {
        let added = coverage.add::<C>(&fs::read(&path).map_err(say)?);
        added.map_err(|why| format!("{}: {why}", path.display()))?;
    }
    let (table, wrong) = coverage.table::<C>();
    if wrong.is_empty() {
        return Ok(table.into_bytes());
    }
    print!("{table}");
    Err(wrong.join("\n"))
}

/// The logs or scripts of a folder, in order.
fn files<C: Covered>(folder: &str) -> Result<Vec<PathBuf>, String> {
    let entries = fs::read_dir(folder).map_err(|why| format!("{folder}: {why}"))?;
    let mut paths: Vec<_> = entries.flatten().map(|entry| entry.path()).collect();
    paths.retain(|path| path.extension().is_some_and(|it| it == C::NAMES[0]));
    paths.sort();
    Ok(paths)
}

fn here() -> Result<PathBuf, String> {
    std::env::current_exe().map_err(say)
}

fn sizes() -> String {
    let line = |[m, e, d]: &[usize; 3]| format!("{m} {e} {d}\n");
    let sizes = tables::SIZES.iter().chain(&tables::EXAMPLES);
    sizes.map(line).collect()
}

fn input() -> Result<Vec<u8>, String> {
    let mut bytes = Vec::new();
    io::stdin().read_to_end(&mut bytes).map_err(say)?;
    Ok(bytes)
}

fn number<N: std::str::FromStr>(word: &str) -> Result<N, String> {
    word.parse().map_err(|_| format!("not a number: {word}"))
}

fn say(error: io::Error) -> String {
    error.to_string()
}
