//! Makes call lists, and compares a program's answers to them with the crate's.

mod damage;
mod exhaustive;
mod full;
mod lists;
mod places;
mod program;
mod rng;
mod run;
mod shrink;
mod slips;
mod store;
mod symbolic;
mod walks;

use std::io;
use std::io::Write;
use std::path::PathBuf;
use std::process::ExitCode;

use lists::Lists;
use lists::Stop;
use oracle::calls::Call;
use rng::Rng;
use walks::Kinds;

const USAGE: &str = "\
usage: compare [--program PATH] [--lines N] [--seed S] [--short]
           compares PATH (crates/calls/out/calls) with the crate: the short lists, or all lists and then random
           walks until N lines were compared (160000000)
       compare --slips [NAME]
           builds a copy of the oracle with each planted slip and looks whether the short lists see it
       compare --store
           makes the lists under lists/ anew
       compare --gen KIND [--seed S] [--lines N] [--capacity C | --unbounded] [--length L]
           prints lists: histories, deep, states, full, uses, walks, damaged
";

/// What the command line asks for.
pub struct Options {
    pub root: PathBuf,
    pub program: Option<PathBuf>,
    pub lines: Option<u64>,
    pub seed: u64,
    pub short: bool,
    pub slips: bool,
    pub only: Option<String>,
    pub store: bool,
    pub gen_kind: Option<String>,
    /// The make that generated lists begin with.
    pub make: Call,
    pub length: usize,
}

fn read_options() -> Result<Options, String> {
    let mut options = Options {
        root: PathBuf::from("."),
        program: None,
        lines: None,
        seed: 1,
        short: false,
        slips: false,
        only: None,
        store: false,
        gen_kind: None,
        make: Call::Make(1),
        length: 4,
    };
    let mut words = std::env::args().skip(1);
    while let Some(word) = words.next() {
        let mut next = || words.next().ok_or(format!("{word} lacks what belongs to it"));
        let number = |text: String| text.parse::<u64>().map_err(|_| format!("{text} is no number"));
        match word.as_str() {
            "--root" => options.root = next()?.into(),
            "--program" => options.program = Some(next()?.into()),
            "--lines" => options.lines = Some(number(next()?)?),
            "--seed" => options.seed = number(next()?)?,
            "--capacity" => options.make = Call::Make(number(next()?)? as u32),
            "--unbounded" => options.make = Call::MakeU,
            "--length" => options.length = number(next()?)? as usize,
            "--gen" => options.gen_kind = Some(next()?),
            "--short" => options.short = true,
            "--slips" => options.slips = true,
            "--store" => options.store = true,
            _ if options.slips && options.only.is_none() => options.only = Some(word),
            _ => return Err(format!("{word} is unknown")),
        }
    }
    Ok(options)
}

fn main() -> ExitCode {
    let options = match read_options() {
        Ok(options) => options,
        Err(trouble) => {
            eprint!("compare: {trouble}\n{USAGE}");
            return ExitCode::from(2);
        }
    };
    let done = if options.slips {
        slips::run(&options)
    } else if options.store {
        store::store(&options).map(|()| true)
    } else if let Some(kind) = &options.gen_kind {
        print_lists(kind, &options).map(|()| true)
    } else {
        run::run(&options)
    };
    match done {
        Ok(true) => ExitCode::SUCCESS,
        Ok(false) => ExitCode::FAILURE,
        Err(error) => {
            eprintln!("compare: {error}");
            ExitCode::from(2)
        }
    }
}

fn print_lists(kind: &str, options: &Options) -> io::Result<()> {
    let mut output = io::stdout().lock();
    let mut failed = None;
    let mut take = |text: &[u8], _lines| {
        output.write_all(text).map_err(|error| {
            failed = Some(error);
            Stop
        })
    };
    let mut lists = Lists::new(10_000, &mut take);
    let make = options.make.to_string();
    let (deep, kinds) = match options.make {
        Call::MakeU => (exhaustive::DEEP_UNBOUNDED, Kinds::Unbounded),
        _ => (exhaustive::DEEP, Kinds::Both),
    };
    let going = match kind {
        "histories" => exhaustive::histories(&mut lists, &make, options.length),
        "deep" => exhaustive::deep_histories(&mut lists, deep, options.length),
        "states" => exhaustive::states(&mut lists, &make, options.length),
        "walks" => walks::walks(&mut lists, &mut Rng::new(options.seed), kinds, options.lines.unwrap_or(1000)),
        "full" => full::full_tables(&mut lists, full::MAKES),
        "uses" => full::many_uses(&mut lists, options.length as u32),
        "damaged" => damage::damaged(&mut lists, damage::MAKES, usize::MAX),
        _ => return Err(io::Error::other(format!("there are no lists of kind {kind}"))),
    };
    let _ = going.and_then(|()| lists.end_list());
    failed.map_or(Ok(()), Err)
}
