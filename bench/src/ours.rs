//! Our part: the programs that bench/build made, run and timed from outside.

use std::fs;
use std::fs::File;
use std::io::Write;
use std::path::PathBuf;
use std::process::Command;
use std::process::Stdio;
use std::time::Duration;
use std::time::Instant;

use oracle::calls::Call;
use oracle::machine::Field;
use oracle::machine::Machine;

use crate::calls_of::History;

pub struct Programs {
    folder: PathBuf,
}

/// The input of a loop: which, how many rounds, a size, a history.
fn input(which: u8, power: u32, size: u8, history: &[u8]) -> Vec<u8> {
    [&[which, b'`' + power as u8, size], history].concat()
}

impl Programs {
    pub fn in_folder(folder: PathBuf) -> Self {
        Programs { folder }
    }

    fn timed(&self, program: &str, input: &[u8]) -> (Duration, Vec<u8>) {
        let start = Instant::now();
        let mut child = Command::new(self.folder.join(program))
            .stdin(Stdio::piped())
            .stdout(Stdio::piped())
            .spawn()
            .expect("the program runs");
        child.stdin.take().expect("it has an input").write_all(input).expect("it reads its input");
        let out = child.wait_with_output().expect("it ends");
        (start.elapsed(), out.stdout)
    }

    pub fn loops(&self, which: u8, power: u32, size: u8, history: &[u8]) -> Duration {
        self.timed("loops", &input(which, power, size, history)).0
    }

    pub fn lent(&self, which: u8, power: u32) -> Duration {
        self.timed("lent", &input(which, power, 8, &[])).0
    }

    /// After the history both queues must stand alike, else the two did not do the same work.
    pub fn check_history(&self, history: &History, power: u32) {
        let mut machine = Machine::new();
        history.run(&mut machine, 1 << power, drop);
        let Field::Counts([Some(queued), Some(free), _, _, Some(lined), Some(waiting)]) =
            machine.answer(Call::Status).field
        else {
            panic!("no counts")
        };
        let (_, out) = self.timed("loops", &input(b'h', power, 0, &history.bytes));
        let counts: Vec<u32> = out.iter().take(4).map(|digit| u32::from(digit - b'0')).collect();
        assert_eq!(counts, [queued, free, lined, waiting].map(|count| count % 10), "the history ended differently");
    }

    pub fn record_size(&self) -> usize {
        fs::read_to_string(self.folder.join("loops.size"))
            .ok()
            .and_then(|text| text.trim().parse().ok())
            .expect("loops.size")
    }

    /// Instructions a round by valgrind, where that is installed.
    pub fn instructions(&self, history: &History) {
        const FEW: u32 = 3;
        const MANY: u32 = 11;
        let here = std::env::current_exe().expect("this program's path");
        let counted = |command: &mut Command, input: &[u8]| -> Option<f64> {
            let scratch = self.folder.join("input");
            fs::write(&scratch, input).ok()?;
            let out =
                command.stdin(File::open(&scratch).ok()?).stdout(Stdio::null()).stderr(Stdio::piped()).output().ok()?;
            let text = String::from_utf8_lossy(&out.stderr).into_owned();
            let count = text.lines().find_map(|line| line.split_once("Collected :"))?.1;
            count.split_whitespace().next()?.parse().ok()
        };
        let valgrind = || {
            let mut command = Command::new("valgrind");
            command.args(["--tool=callgrind", "--callgrind-out-file=/dev/null"]);
            command
        };
        let rounds = f64::from((1u32 << MANY) - (1 << FEW));
        println!("\ninstructions a round (valgrind): ours, the crate");
        for (name, which, size, bytes) in [
            ("try-send, try-recv", b'p', 8, &[][..]),
            ("reserve cycle", b'r', 0, &[]),
            ("full queue", b'f', 8, &[]),
            ("receivers wait", b'n', 8, &[]),
            ("random history", b'h', 0, &history.bytes),
        ] {
            let ours = |power| counted(valgrind().arg(self.folder.join("loops")), &input(which, power, size, bytes));
            let theirs = |power: u32| {
                counted(
                    valgrind().arg(&here).arg(&self.folder).args([
                        "--rounds",
                        &char::from(which).to_string(),
                        &power.to_string(),
                    ]),
                    &[],
                )
            };
            match (ours(FEW), ours(MANY), theirs(FEW), theirs(MANY)) {
                (Some(a), Some(b), Some(c), Some(d)) => {
                    println!("{name:<44} {:>7.0} {:>7.0}", (b - a) / rounds, (d - c) / rounds)
                }
                _ => return println!("not to be had here"),
            }
        }
    }

    pub fn lines_a_second(&self, history: &History) {
        let list = self.folder.join("list");
        fs::write(&list, history.text(100)).expect("the list is written");
        let lines = (history.calls.len() + 1) * 100;
        let mut least = Duration::MAX;
        for _ in 0..7 {
            let start = Instant::now();
            let input = File::open(&list).expect("the list is there");
            Command::new(self.folder.join("calls"))
                .stdin(input)
                .stdout(Stdio::null())
                .status()
                .expect("the program runs");
            least = least.min(start.elapsed());
        }
        println!(
            "\nthe call program: {lines} mixed lines in {} ms, {:.2} million a second",
            least.as_millis(),
            lines as f64 / least.as_micros() as f64
        );
    }
}
