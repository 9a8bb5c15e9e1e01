//! Times our queue and the crate on the same work, in turn, and prints the best of several rounds.
//! Ours runs in a program of its own (bench/loops.txt, lent.txt, and the call program); its start is measured too and taken off.

mod calls_of;
mod ours;
mod theirs;

use std::path::PathBuf;
use std::time::Duration;
use std::time::Instant;

use calls_of::History;
use ours::Programs;

/// A machine is quiet for seconds at a time. So every kind of work is measured in each of several passes, for a slice of
/// time each, ours and the crate's in turn, and the best counts.
const PASSES: u32 = 12;
const SLICE: Duration = Duration::from_millis(200);
const SHORT_SLICE: Duration = Duration::from_millis(50);
/// Rounds of a loop in one timing, as a power of two.
const POWER: u32 = 15;

/// One kind of work: how ours does it, by a power of rounds, and how the crate does, by a number of rounds.
struct Work<'a> {
    ours: Box<dyn Fn(u32) -> Duration + 'a>,
    theirs: Box<dyn Fn(u64) + 'a>,
    /// The least time of ours, of its start alone, and of the crate's.
    least: [Duration; 3],
}

impl<'a> Work<'a> {
    fn new(ours: impl Fn(u32) -> Duration + 'a, theirs: impl Fn(u64) + 'a) -> Self {
        Work { ours: Box::new(ours), theirs: Box::new(theirs), least: [Duration::MAX; 3] }
    }

    fn measure(&mut self, slice: Duration) {
        let begin = Instant::now();
        while begin.elapsed() < slice {
            let long = (self.ours)(POWER);
            let short = (self.ours)(0);
            let start = Instant::now();
            (self.theirs)(1 << POWER);
            let theirs = start.elapsed();
            for (least, time) in self.least.iter_mut().zip([long, short, theirs]) {
                *least = time.min(*least);
            }
        }
    }

    /// Nanoseconds a round: ours and the crate's.
    fn nanos(&self) -> (f64, f64) {
        let [long, short, theirs] = self.least;
        let nanos = |time: Duration| time.as_nanos() as f64 / f64::from(1 << POWER);
        (nanos(long.saturating_sub(short)), nanos(theirs))
    }
}

/// Each kind of work with its name and the calls in one of its rounds.
fn table<'a>(programs: &'a Programs, history: &'a History) -> Vec<(&'static str, u32, Work<'a>)> {
    let loops = |which, power, size| programs.loops(which, power, size, &history.bytes);
    vec![
        ("try-send, try-recv", 2, Work::new(move |p| loops(b'p', p, 8), |n| theirs::pairs(n, 8))),
        (
            "reserve, poll-out, permit-send, try-recv",
            4,
            Work::new(move |p| loops(b'r', p, 0), |n| theirs::reserves(n, 0)),
        ),
        (
            "full, 8 senders wait: try-recv, poll-out, send, poll-out",
            4,
            Work::new(move |p| loops(b'f', p, 8), |n| theirs::full(n, 8)),
        ),
        (
            "8 receivers wait: try-send, poll-in, recv, poll-in",
            4,
            Work::new(move |p| loops(b'n', p, 8), |n| theirs::notified(n, 8)),
        ),
        ("lent: try-send, try-recv", 2, Work::new(|p| programs.lent(b'l', p), |n| theirs::pairs(n, 8))),
        ("lent, refused at once", 2, Work::new(|p| programs.lent(b'x', p), |_| {})),
        ("a random history", 1, Work::new(move |p| loops(b'h', p, 0), |n| theirs::history(n, history))),
    ]
}

fn growth(programs: &Programs) {
    println!("\nhow cost grows, ns a round: ours, the crate");
    let loops = |which, power, size| programs.loops(which, power, size, &[]);
    type Both = fn(u64, u8);
    let lines: [(&str, u8, Both, [u8; 4]); 4] = [
        ("capacity (try-send, try-recv)", b'p', theirs::pairs, [1, 8, 32, 64]),
        ("open operations (reserve cycle)", b'r', theirs::reserves, [0, 8, 16, 31]),
        ("senders in line (full queue)", b'f', theirs::full, [1, 8, 16, 31]),
        ("receivers in line", b'n', theirs::notified, [1, 8, 16, 31]),
    ];
    for (what, which, crates, sizes) in lines {
        let mut works = sizes.map(|size| (size, Work::new(move |p| loops(which, p, size), move |n| crates(n, size))));
        for _ in 0..PASSES {
            works.iter_mut().for_each(|(_, work)| work.measure(SHORT_SLICE));
        }
        print!("{what:<34}");
        for (size, work) in &works {
            let (ours, theirs) = work.nanos();
            print!("  {size:>2}: {ours:>5.0} {theirs:>4.0}");
        }
        println!();
    }
}

/// What it costs to copy a record of this size in and out, nothing else.
fn copy_in_and_out(size: usize) -> f64 {
    let (mut here, mut there) = (vec![1u8; size], vec![2u8; size]);
    let rounds = 20_000;
    let mut least = Duration::MAX;
    for _ in 0..50 {
        let start = Instant::now();
        for _ in 0..rounds {
            std::hint::black_box(&mut there).copy_from_slice(std::hint::black_box(&here));
            std::hint::black_box(&mut here).copy_from_slice(std::hint::black_box(&there));
        }
        least = least.min(start.elapsed());
    }
    least.as_nanos() as f64 / rounds as f64
}

fn main() {
    let mut arguments = std::env::args().skip(1);
    let folder = PathBuf::from(arguments.next().expect("usage: bench FOLDER [--rounds LOOP POWER]"));
    let history = History::random(10_000);
    if let Some("--rounds") = arguments.next().as_deref() {
        // The crate's loop alone, for a tool that counts instructions.
        let name = arguments.next().expect("a loop");
        let rounds = 1 << arguments.next().and_then(|power| power.parse::<u32>().ok()).expect("a power");
        theirs::by_name(&name, rounds, &history);
        return;
    }
    let programs = Programs::in_folder(folder);
    programs.check_history(&history, POWER);

    let size = programs.record_size();
    let mut copies = f64::MAX;
    let mut rows = table(&programs, &history);
    for _ in 0..PASSES {
        copies = copies.min(copy_in_and_out(size));
        rows.iter_mut().for_each(|(_, _, work)| work.measure(SLICE));
    }
    println!("a queue's record: {size} bytes; to copy it in and out: {copies:.0} ns\n");
    println!(
        "{:<57} {:>6} {:>6} {:>6} {:>22}",
        "ns a call, the best of 12 passes", "ours", "crate", "ratio", "ratio to in and out"
    );
    for (name, calls, work) in &rows {
        let (ours, theirs) = work.nanos();
        let calls = f64::from(*calls);
        print!("{name:<57} {:>6.1}", ours / calls);
        if theirs < 1.0 {
            print!(" {:>6} {:>6}", "", "");
        } else {
            print!(" {:>6.1} {:>6.1}", theirs / calls, ours / theirs);
        }
        println!(" {:>22.2}", ours / calls / copies);
    }
    growth(&programs);
    programs.instructions(&history);
    programs.lines_a_second(&history);
}
