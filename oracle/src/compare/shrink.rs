//! From a list on which program and crate differ to the smallest history that still shows it.

use std::io;
use std::path::Path;
use std::time::Duration;
use std::time::Instant;

use crate::program;
use crate::program::Ran;
use crate::symbolic;
use crate::symbolic::Step;

const RUN_LIMIT: Duration = Duration::from_secs(10);
const SHRINK_LIMIT: Duration = Duration::from_secs(120);

/// The place of the first line in which two outputs differ, counted from 0.
pub fn first_difference(one: &[u8], other: &[u8]) -> usize {
    let equal = one.iter().zip(other).take_while(|(a, b)| a == b).count();
    one[..equal].iter().filter(|&&byte| byte == b'\n').count()
}

pub fn lines(list: &[u8]) -> Vec<&[u8]> {
    list.split_inclusive(|&byte| byte == b'\n').collect()
}

struct Shrinker<'a> {
    program: &'a Path,
    begun: Instant,
}

impl Shrinker<'_> {
    /// Both outputs' first difference on these lines, if they differ.
    fn differ(&self, lines: &[&[u8]]) -> io::Result<Option<usize>> {
        let list = lines.concat();
        let (expected, ran) = both(self.program, &list)?;
        let differs = ran.trouble.is_some() || ran.output != expected;
        Ok(differs.then(|| first_difference(&expected, &ran.output)))
    }

    fn differ_steps(&self, steps: &[Step]) -> io::Result<Option<usize>> {
        let lines = symbolic::write(steps);
        let lines: Vec<&[u8]> = lines.iter().map(Vec::as_slice).collect();
        self.differ(&lines)
    }
}

pub fn both(program: &Path, list: &[u8]) -> io::Result<(Vec<u8>, Ran)> {
    let expected = program::answers(list);
    let ran = program::run(program, list, 2 * expected.len() + 4096, RUN_LIMIT)?;
    Ok((expected, ran))
}

/// The smallest history found. `first` is the place of the first differing line of the whole list.
pub fn shrink(program: &Path, list: &[u8], first: usize) -> io::Result<Vec<u8>> {
    let shrinker = Shrinker { program, begun: Instant::now() };
    let all = lines(list);
    let mut history = shortest_beginning(&shrinker, &all, first)?;
    // From the last make on, if that is enough.
    let makes: Vec<usize> = (0..history.len()).filter(|&place| history[place].starts_with(b"make")).collect();
    for &place in makes.iter().rev().take(8) {
        if shrinker.differ(&history[place..])?.is_some() {
            history.drain(..place);
            break;
        }
    }
    let mut steps = symbolic::read(&history);
    remove_what_can_go(&shrinker, &mut steps)?;
    Ok(symbolic::write(&steps).concat())
}

/// A program that broke off may owe lines it had answered but not yet printed, so the first line missing need not be
/// the one that broke it: the shortest beginning that shows a difference is looked for by halving.
fn shortest_beginning<'a>(shrinker: &Shrinker, all: &[&'a [u8]], first: usize) -> io::Result<Vec<&'a [u8]>> {
    let mut shows = (first + 1).min(all.len());
    if shrinker.differ(&all[..shows])?.is_none() {
        let mut shows_not = shows;
        shows = all.len();
        while shows - shows_not > 1 {
            let middle = shows_not + (shows - shows_not) / 2;
            match shrinker.differ(&all[..middle])? {
                Some(_) => shows = middle,
                None => shows_not = middle,
            }
        }
    }
    Ok(all[..shows].to_vec())
}

/// Removes pieces, large ones first, as long as a difference is left; what comes after the difference goes as well.
fn remove_what_can_go(shrinker: &Shrinker, history: &mut Vec<Step>) -> io::Result<()> {
    let mut size = history.len().div_ceil(2);
    loop {
        let before = history.len();
        let mut end = before;
        while end > 0 && shrinker.begun.elapsed() < SHRINK_LIMIT {
            let start = end.saturating_sub(size);
            let shorter = symbolic::without(history, start..end);
            if let Some(first) = shrinker.differ_steps(&shorter)? {
                let cut = shorter[..(first + 1).min(shorter.len())].to_vec();
                *history = if shrinker.differ_steps(&cut)?.is_some() { cut } else { shorter };
            }
            end = start.min(history.len());
        }
        if size > 1 {
            size /= 2;
        } else if history.len() == before || shrinker.begun.elapsed() > SHRINK_LIMIT {
            return Ok(());
        }
    }
}

/// The history with both answers, line by line.
pub fn show(program: &Path, list: &[u8]) -> io::Result<String> {
    let (expected, ran) = both(program, list)?;
    let oracle: Vec<String> = lines(&expected).iter().map(|line| readable(line)).collect();
    let other: Vec<String> = lines(&ran.output).iter().map(|line| readable(line)).collect();
    let called: Vec<String> = lines(list).iter().map(|line| readable(line)).collect();
    let width = |texts: &[String], least| texts.iter().map(String::len).max().unwrap_or(0).max(least);
    let (first, second) = (width(&called, 4), width(&oracle, 6));
    let mut text = format!("  {:first$}  {:second$}  {}\n", "call", "oracle", "program");
    let nothing = String::from("(nothing)");
    // A program that goes on printing is shown for two lines more.
    for place in 0..called.len().max(other.len().min(called.len() + 2)) {
        let call = called.get(place).map_or("", |line| line);
        let (one, two) = (oracle.get(place).unwrap_or(&nothing), other.get(place).unwrap_or(&nothing));
        let mark = if one == two { ' ' } else { '*' };
        text += &format!("{mark} {call:first$}  {one:second$}  {two}\n");
    }
    if let Some(trouble) = ran.trouble {
        text += &format!("the program: {trouble}\n");
    }
    Ok(text)
}

/// A line without its LF, unusual bytes written out and a long one cut.
fn readable(line: &[u8]) -> String {
    let line = line.strip_suffix(b"\n").unwrap_or(line);
    if line.len() > 100 {
        return format!("{}.. ({} bytes)", line[..40].escape_ascii(), line.len());
    }
    line.escape_ascii().to_string()
}
