//! An independent model of the coordinator and the tests that hold the service and the C check to it. See README.md.

mod bytes;
mod c_driver;
mod calls;
mod ccases;
mod compare;
mod desk;
mod edges;
mod graph;
mod history;
mod judge;
mod line;
mod orders;
mod parallel;
mod random;
mod rows;
mod rules;
mod runner;
mod script;
mod serve;
mod shrink;
mod streams;
mod suite;
mod table;
mod tally;
mod writer;
mod wrong;

use compare::{fault, Mode};
use random::Random;
use rules::RIGHT_RULES;
use runner::Program;
use serve::{Habit, HABITS};
use std::collections::BTreeMap;
use std::io::{self, Write};
use std::path::{Path, PathBuf};
use std::process::ExitCode;
use std::time::Duration;
use streams::{Kind, Maker};

const USAGE: &str = "usage:
  model run [--seed N] [--self] [--service PATH] [--driver PATH] [--data DIR] [--rules FILE] [--out DIR]
      all tests; --self has the model stand in for the service
  model serve [--wrong NAME] [--habit NAME]
      the model as a service, or a wrong one, or one with a bad habit
  model try FILE [--self] [--service PATH]
      one stream, as one that failed: whole, byte by byte and in twenty sorts of pieces
  model make KIND SEED MESSAGES
      a stream on standard output; KIND is mixed, deep, hostile, tiny or ordinary
  model wrong
      the names of the wrong models and of the habits";

fn main() -> ExitCode {
    let words: Vec<String> = std::env::args().skip(1).collect();
    let words: Vec<&str> = words.iter().map(String::as_str).collect();
    let done = match words.as_slice() {
        ["run", options @ ..] => options_of(options, &["--self"]).and_then(|options| run(&options)),
        ["try", file, options @ ..] => options_of(options, &["--self"]).and_then(|options| try_file(file, &options)),
        ["serve", options @ ..] => options_of(options, &[]).and_then(|options| serve_as(&options)),
        ["make", kind, seed, messages] => make(kind, seed, messages),
        ["wrong"] => {
            wrong::all().for_each(|wrong| println!("{}", wrong.name));
            HABITS.iter().for_each(|(name, _)| println!("{name}"));
            Ok(true)
        }
        _ => Err(USAGE.to_string()),
    };
    match done {
        Ok(true) => ExitCode::SUCCESS,
        Ok(false) => ExitCode::FAILURE,
        Err(why) => {
            eprintln!("{why}");
            ExitCode::from(2)
        }
    }
}

type Options<'a> = BTreeMap<&'a str, &'a str>;

/// Options with a word each, but for the flags, which have none.
fn options_of<'a>(words: &[&'a str], flags: &[&str]) -> Result<Options<'a>, String> {
    let mut out = Options::new();
    let mut words = words.iter();
    while let Some(&name) = words.next() {
        let known =
            ["--seed", "--service", "--driver", "--data", "--rules", "--out", "--wrong", "--habit"].contains(&name);
        let value = match flags.contains(&name) {
            true => "",
            false if known => words.next().ok_or(format!("{name} needs a word behind it"))?,
            false => return Err(format!("{name} is no option\n{USAGE}")),
        };
        out.insert(name, value);
    }
    Ok(out)
}

fn word(options: &Options, name: &str, default: &str) -> String {
    options.get(name).copied().unwrap_or(default).to_string()
}

fn there(path: String, how: &str) -> Result<PathBuf, String> {
    match Path::new(&path).is_file() {
        true => Ok(PathBuf::from(path)),
        false => Err(format!("{path} is missing: {how}")),
    }
}

fn own() -> Result<PathBuf, String> {
    std::env::current_exe().map_err(|e| format!("this program cannot find itself: {e}"))
}

/// The service to be tested, or this program in its place.
fn service(options: &Options) -> Result<Program, String> {
    let patience = Duration::from_secs(20);
    match options.contains_key("--self") {
        true => Ok(Program::new(own()?, &["serve"], patience)),
        false => there(word(options, "--service", "target/bin/service"), "`tools/build service` builds it")
            .map(|path| Program::new(path, &[], patience)),
    }
}

fn run(options: &Options) -> Result<bool, String> {
    let seed = word(options, "--seed", "1");
    let driver = there(
        word(options, "--driver", "target/model/driver"),
        "tests/model/run builds it over target/staticlib/libccheck.a, which `tools/build ccheck` makes",
    );
    let plan = suite::Plan {
        seed: seed.parse().map_err(|_| format!("the seed must be a number, and is {seed}"))?,
        service: service(options),
        driver,
        own: own()?,
        data: word(options, "--data", "tests/model").into(),
        rules: word(options, "--rules", "docs/RULES.md").into(),
        out: word(options, "--out", "target/model/failed").into(),
    };
    Ok(suite::run(&plan))
}

fn try_file(file: &str, options: &Options) -> Result<bool, String> {
    let service = service(options)?;
    let stream = std::fs::read(file).map_err(|e| format!("{file} cannot be read: {e}"))?;
    let modes = [Mode::Whole, Mode::Bytes].into_iter().chain((0..20).map(Mode::Pieces));
    let faults: Vec<String> =
        modes.filter_map(|mode| Some(format!("{}: {}", mode.name(), fault(&service, &stream, mode)?))).collect();
    faults.iter().for_each(|fault| println!("{fault}"));
    println!("{} of 22 runs failed", faults.len());
    Ok(faults.is_empty())
}

fn serve_as(options: &Options) -> Result<bool, String> {
    let rules = match options.get("--wrong") {
        None => &RIGHT_RULES,
        Some(name) => &wrong::named(name).ok_or(format!("there is no wrong model '{name}'"))?.rules,
    };
    let habit = match options.get("--habit") {
        None => Habit::Good,
        Some(name) => {
            let found = HABITS.iter().find(|(known, _)| known == name);
            found.ok_or(format!("there is no habit '{name}'"))?.1
        }
    };
    // A reader that goes away ends the run quietly, as it does the real service.
    Ok(serve::serve(rules, habit).is_ok())
}

fn make(kind: &str, seed: &str, messages: &str) -> Result<bool, String> {
    let kind = Kind::named(kind).ok_or(format!("there is no kind '{kind}'"))?;
    let seed = seed.parse().map_err(|_| format!("the seed must be a number, and is {seed}"))?;
    let messages: usize = messages.parse().map_err(|_| format!("MESSAGES must be a number, and is {messages}"))?;
    let mut maker = Maker::new(Random::new(seed, kind as u64, 0));
    let mut output = io::BufWriter::new(io::stdout().lock());
    while maker.made < messages {
        let length = (messages - maker.made).min(1000);
        streams::fill(kind, &mut maker, length);
        for piece in std::mem::take(&mut maker.out) {
            output.write_all(&piece).map_err(|e| format!("the stream cannot be written: {e}"))?;
        }
    }
    output.flush().map_err(|e| format!("the stream cannot be written: {e}"))?;
    Ok(true)
}
