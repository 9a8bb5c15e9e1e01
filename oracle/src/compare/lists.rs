//! Call lists as they are made: lines gathered until a list is long enough, then handed to whoever wants it.

use std::ops::AddAssign;

use oracle::calls;
use oracle::calls::Call;

/// Whoever takes the lists wants no more of them.
pub struct Stop;

pub type Going = Result<(), Stop>;

pub struct Lists<'a> {
    text: Vec<u8>,
    lines: u64,
    longest: u64,
    histories: u64,
    take: &'a mut dyn FnMut(&[u8], u64) -> Going,
}

impl<'a> Lists<'a> {
    /// Lists of about `longest` lines each; `take` gets the text of each and its number of lines.
    pub fn new(longest: u64, take: &'a mut dyn FnMut(&[u8], u64) -> Going) -> Self {
        Lists { text: Vec::new(), lines: 0, longest, histories: 0, take }
    }

    pub fn call(&mut self, call: Call) {
        call.write(&mut self.text);
        self.end_line();
    }

    /// A line of any bytes but LF.
    pub fn line(&mut self, line: &[u8]) {
        self.text.extend_from_slice(line);
        self.end_line();
    }

    /// Whole lines, each with its LF.
    pub fn lines(&mut self, text: &[u8], count: usize) {
        self.text.extend_from_slice(text);
        self.lines += count as u64;
    }

    fn end_line(&mut self) {
        self.text.push(b'\n');
        self.lines += 1;
    }

    /// Between two histories a list may end, since each begins with its own make.
    pub fn end_history(&mut self) -> Going {
        self.histories += 1;
        if self.lines >= self.longest { self.end_list() } else { Ok(()) }
    }

    pub fn end_list(&mut self) -> Going {
        if self.lines == 0 {
            return Ok(());
        }
        let taken = (self.take)(&self.text, self.lines);
        self.text.clear();
        self.lines = 0;
        taken
    }

    /// A list of its own that may be any bytes, with no LF at its end or nothing at all.
    pub fn whole(&mut self, text: &[u8]) -> Going {
        self.end_list()?;
        self.histories += 1;
        let ended = text.iter().filter(|&&byte| byte == b'\n').count() as u64;
        let unended = u64::from(!text.is_empty() && !text.ends_with(b"\n"));
        (self.take)(text, ended + unended)
    }

    pub fn histories(&self) -> u64 {
        self.histories
    }
}

/// Lines of a list by the kind of queue that they meet, a make counted with the queue it begins.
#[derive(Clone, Copy, Default)]
pub struct ByKind {
    pub bounded: u64,
    pub unbounded: u64,
    /// Before the first good make.
    pub neither: u64,
}

impl AddAssign for ByKind {
    fn add_assign(&mut self, other: Self) {
        self.bounded += other.bounded;
        self.unbounded += other.unbounded;
        self.neither += other.neither;
    }
}

pub fn count_by_kind(list: &[u8]) -> ByKind {
    let mut counts = ByKind::default();
    let mut unbounded = None;
    for line in list.split_inclusive(|&byte| byte == b'\n') {
        // Few lines begin so; the others need not be read.
        if line.starts_with(b"make") {
            match calls::read(line.strip_suffix(b"\n").unwrap_or(line)) {
                Some(Call::Make(1..=64)) => unbounded = Some(false),
                Some(Call::MakeU) => unbounded = Some(true),
                _ => {}
            }
        }
        *match unbounded {
            Some(false) => &mut counts.bounded,
            Some(true) => &mut counts.unbounded,
            None => &mut counts.neither,
        } += 1;
    }
    counts
}
