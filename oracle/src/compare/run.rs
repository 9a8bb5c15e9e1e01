//! The comparison: all kinds of lists, one after the other, until the first difference.

use std::fs;
use std::io;
use std::io::IsTerminal;
use std::io::Write;
use std::path::Path;
use std::path::PathBuf;
use std::time::Duration;
use std::time::Instant;

use crate::Options;
use crate::damage;
use crate::exhaustive;
use crate::full;
use crate::lists;
use crate::lists::ByKind;
use crate::lists::Going;
use crate::lists::Lists;
use crate::lists::Stop;
use crate::program;
use crate::rng::Rng;
use crate::shrink;
use crate::walks;
use crate::walks::Kinds;

/// How far each kind of list goes.
pub struct Plan {
    /// Lines of a list: a program is started anew for each.
    pub longest: u64,
    /// Make and length of exhaustive histories.
    pub histories: &'static [(&'static str, usize)],
    /// Length of exhaustive histories from deep states.
    pub deep: usize,
    /// Length of exhaustive histories from unbounded queues that are nearly full, and depth of the states there.
    pub nearly_full: (usize, usize),
    /// Make and depth of the states that every call is tried on.
    pub states: &'static [(&'static str, usize)],
    /// How often one place of each kind is used.
    pub uses: u32,
    /// Lines of random walks at least.
    pub walks: u64,
    /// Lines of one list that is longer than any other.
    pub long_list: u64,
    pub time_limit: Duration,
}

pub const SHORT: Plan = Plan {
    longest: 50_000,
    histories: &[("make 1", 4), ("make 2", 4), ("make-u", 4)],
    deep: 3,
    nearly_full: (2, 1),
    states: &[("make 1", 4), ("make 2", 4), ("make-u", 5)],
    uses: 300,
    walks: 1_000_000,
    long_list: 300_000,
    time_limit: Duration::from_secs(60),
};

const FULL: Plan = Plan {
    longest: 200_000,
    histories: &[("make 1", 6), ("make 2", 5), ("make-u", 6)],
    deep: 4,
    nearly_full: (3, 3),
    states: &[("make 1", 7), ("make 2", 6), ("make-u", 8)],
    uses: 70_000,
    walks: 10_000_000,
    long_list: 3_000_000,
    time_limit: Duration::from_secs(600),
};

const FULL_LINES: u64 = 160_000_000;

pub struct Difference {
    pub list: Vec<u8>,
    /// The place of the first differing line, counted from 0.
    pub first: usize,
    /// How the program ended, if not well.
    pub trouble: Option<String>,
}

/// Takes lists, compares, and counts.
pub struct Comparison<'a> {
    program: &'a Path,
    time_limit: Duration,
    part: String,
    progress: bool,
    begun: Instant,
    shown: Instant,
    pub lines: u64,
    by_kind: ByKind,
    pub lists: u64,
    pub histories: u64,
    pub difference: Option<Difference>,
    pub failure: Option<io::Error>,
}

impl<'a> Comparison<'a> {
    pub fn new(program: &'a Path, time_limit: Duration, progress: bool) -> Self {
        Comparison {
            program,
            time_limit,
            part: String::new(),
            progress,
            begun: Instant::now(),
            shown: Instant::now(),
            lines: 0,
            by_kind: ByKind::default(),
            lists: 0,
            histories: 0,
            difference: None,
            failure: None,
        }
    }

    fn compare(&mut self, list: &[u8], lines: u64) -> Going {
        let expected = program::answers(list);
        self.compare_with(list, lines, &expected)
    }

    fn compare_with(&mut self, list: &[u8], lines: u64, expected: &[u8]) -> Going {
        // A program that differs may print more than the crate; only one that does not stop is cut short.
        let most = 2 * expected.len() + 4096;
        let ran = match program::run(self.program, list, most, self.time_limit) {
            Ok(ran) => ran,
            Err(error) => {
                self.failure = Some(error);
                return Err(Stop);
            }
        };
        self.lists += 1;
        if ran.trouble.is_some() || ran.output != expected {
            let first = shrink::first_difference(expected, &ran.output);
            self.lines += first as u64;
            self.difference = Some(Difference { list: list.to_vec(), first, trouble: ran.trouble });
            return Err(Stop);
        }
        self.lines += lines;
        self.by_kind += lists::count_by_kind(list);
        if self.progress && io::stderr().is_terminal() && self.shown.elapsed() > Duration::from_millis(300) {
            self.shown = Instant::now();
            eprint!("\r{:<78}\r", self.state());
        }
        Ok(())
    }

    fn state(&self) -> String {
        let seconds = self.begun.elapsed().as_secs_f64();
        let rate = (self.lines as f64 / seconds.max(0.001)) as u64;
        format!("{} lines compared, {} a second, now {}", grouped(self.lines), grouped(rate), self.part)
    }

    /// One part of a plan: lists made by `make`, of `longest` lines each.
    fn part(&mut self, name: &str, longest: u64, make: impl FnOnce(&mut Lists) -> Going) -> Going {
        self.part = name.to_string();
        let before = self.lines;
        let begun = Instant::now();
        let mut take = |list: &[u8], lines| self.compare(list, lines);
        let mut lists = Lists::new(longest, &mut take);
        let going = make(&mut lists).and_then(|()| lists.end_list());
        let histories = lists.histories();
        self.histories += histories;
        if self.progress {
            if io::stderr().is_terminal() {
                eprint!("\r{:<78}\r", "");
            }
            println!(
                "{name}: {} lines in {} histories, {:.1} s",
                grouped(self.lines - before),
                grouped(histories),
                begun.elapsed().as_secs_f64()
            );
            drop(io::stdout().flush());
        }
        going
    }

    /// All parts of a plan, and random walks until `lines` lines are compared.
    pub fn plan(&mut self, plan: &Plan, seed: u64, lines: u64) -> Going {
        let mut rng = Rng::new(seed);
        let early = plan.walks / 2;
        self.part("unusual beginnings and ends", plan.longest, damage::ends)?;
        self.part("damaged lines before any make", plan.longest, |lists| damage::before_make(lists, usize::MAX))?;
        self.part("damaged lines", plan.longest, |lists| damage::damaged(lists, damage::MAKES, usize::MAX))?;
        self.part("full tables", plan.longest, |lists| full::full_tables(lists, full::MAKES))?;
        let name = format!("one place of each kind used {} times", plan.uses);
        self.part(&name, plan.longest, |lists| full::many_uses(lists, plan.uses))?;
        self.part("random walks", plan.longest, |lists| walks::walks(lists, &mut rng, Kinds::Both, early))?;
        for &(make, length) in plan.histories {
            let name = format!("every valid history of up to {length} calls after {make}");
            self.part(&name, plan.longest, |lists| exhaustive::histories(lists, make, length))?;
        }
        self.deep("deep bounded", plan.longest, exhaustive::DEEP, plan.deep)?;
        self.deep("deep unbounded", plan.longest, exhaustive::DEEP_UNBOUNDED, plan.deep)?;
        let (length, depth) = plan.nearly_full;
        self.deep("nearly full", plan.longest, exhaustive::NEARLY_FULL, length)?;
        for &(make, depth) in plan.states {
            let name = format!("every call on every state within {depth} calls of {make}");
            self.part(&name, plan.longest, |lists| exhaustive::states(lists, make, depth))?;
        }
        let name = format!("every call on every state within {depth} calls of nearly full ones");
        self.part(&name, plan.longest, |lists| exhaustive::nearly_full_states(lists, depth))?;
        self.part("one long list", u64::MAX, |lists| walks::walks(lists, &mut rng, Kinds::Both, plan.long_list))?;
        let rest = lines.saturating_sub(self.lines).max(plan.walks - early);
        self.part("more random walks", plan.longest, |lists| walks::walks(lists, &mut rng, Kinds::Both, rest))
    }

    fn deep(&mut self, kind: &str, longest: u64, starts: &[&str], length: usize) -> Going {
        let name = format!("every valid history of up to {length} calls from {} {kind} states", starts.len());
        self.part(&name, longest, |lists| exhaustive::deep_histories(lists, starts, length))
    }

    /// The stored lists: their answers must be the crate's, and the program's.
    fn stored(&mut self, directory: &Path) -> Going {
        self.part = "stored lists".to_string();
        let before = self.lines;
        match self.compare_stored(directory) {
            Ok(()) => {
                println!("stored lists: {} lines", grouped(self.lines - before));
                Ok(())
            }
            Err(Some(error)) => {
                self.failure = Some(error);
                Err(Stop)
            }
            Err(None) => Err(Stop),
        }
    }

    fn compare_stored(&mut self, directory: &Path) -> Result<(), Option<io::Error>> {
        for (input, output) in stored_pairs(directory)? {
            let list = fs::read(&input)?;
            let stored = fs::read(&output)?;
            if program::answers(&list) != stored {
                let trouble = format!("{} does not hold the crate's answers", output.display());
                return Err(Some(io::Error::other(trouble)));
            }
            let lines = shrink::lines(&list).len() as u64;
            self.compare_with(&list, lines, &stored).map_err(|Stop| None)?;
        }
        Ok(())
    }
}

/// The lists of a directory, each with the file of its answers.
pub fn stored_pairs(directory: &Path) -> io::Result<Vec<(PathBuf, PathBuf)>> {
    let mut pairs = vec![];
    for entry in fs::read_dir(directory)? {
        let input = entry?.path();
        if input.extension().is_some_and(|extension| extension == "in") {
            let output = input.with_extension("out");
            pairs.push((input, output));
        }
    }
    pairs.sort();
    Ok(pairs)
}

pub fn run(options: &Options) -> io::Result<bool> {
    let program = options.program.clone().unwrap_or_else(|| options.root.join("crates/calls/out/calls"));
    // A bare name is a file here, not something to be searched for.
    let program = program.canonicalize().map_err(|error| {
        io::Error::other(format!("nothing was compared: the program {} is not there ({error})", program.display()))
    })?;
    let plan = if options.short { SHORT } else { FULL };
    let lines = options.lines.unwrap_or(if options.short { 0 } else { FULL_LINES });
    let mut comparison = Comparison::new(&program, plan.time_limit, true);
    let _ = comparison.stored(&options.root.join("lists")).and_then(|()| comparison.plan(&plan, options.seed, lines));
    if let Some(failure) = comparison.failure {
        return Err(failure);
    }
    if let Some(difference) = &comparison.difference {
        report(&comparison, difference, &program, options)?;
        return Ok(false);
    }
    println!(
        "{} lines were of bounded histories, {} of unbounded ones, {} came before any make",
        grouped(comparison.by_kind.bounded),
        grouped(comparison.by_kind.unbounded),
        grouped(comparison.by_kind.neither)
    );
    println!(
        "compared {} lines in {} histories ({} lists), seed {}, {:.0} s: no difference",
        grouped(comparison.lines),
        grouped(comparison.histories),
        grouped(comparison.lists),
        options.seed,
        comparison.begun.elapsed().as_secs_f64()
    );
    Ok(true)
}

fn report(comparison: &Comparison, difference: &Difference, program: &Path, options: &Options) -> io::Result<()> {
    println!(
        "DIFFERENCE after {} equal lines, in: {} (line {} of list {}, seed {})",
        grouped(comparison.lines),
        comparison.part,
        difference.first + 1,
        comparison.lists,
        options.seed
    );
    let smallest = shrink::shrink(program, &difference.list, difference.first)?;
    println!("the smallest history found that shows one:\n");
    println!("{}", shrink::show(program, &smallest)?);
    let kept = options.root.join("target/compare");
    fs::create_dir_all(&kept)?;
    fs::write(kept.join("smallest.in"), &smallest)?;
    fs::write(kept.join("list.in"), &difference.list)?;
    println!("kept in target/compare: smallest.in, and the whole list as list.in");
    Ok(())
}

/// 1234567 as 1,234,567.
pub fn grouped(number: u64) -> String {
    let digits = number.to_string();
    let mut text = String::new();
    for (place, digit) in digits.chars().enumerate() {
        if place > 0 && (digits.len() - place) % 3 == 0 {
            text.push(',');
        }
        text.push(digit);
    }
    text
}
