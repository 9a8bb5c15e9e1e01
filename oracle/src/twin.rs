//! The call program's twin: bytes of a call list in, lines of answers out.

use crate::calls;
use crate::calls::LONGEST_LINE;
use crate::calls::write_number;
use crate::machine::Answer;
use crate::machine::Code;
use crate::machine::Field;
use crate::machine::Machine;
use crate::wakers;

#[derive(Default)]
pub struct Twin {
    machine: Machine,
    lines: u64,
    /// The part of a line that came in earlier pieces, never more than a byte past the longest readable line: however
    /// long it is in truth, what is left out changes nothing.
    begun: Vec<u8>,
    output: Vec<u8>,
}

impl Twin {
    pub fn new() -> Self {
        Twin::default()
    }

    /// Takes a piece of the list, cut anywhere, and answers each line that ends in it.
    pub fn feed(&mut self, mut piece: &[u8]) {
        while let Some(end) = piece.iter().position(|&byte| byte == b'\n') {
            if self.begun.is_empty() {
                self.answer(&piece[..end]);
            } else {
                self.begin(&piece[..end]);
                self.answer_begun();
            }
            piece = &piece[end + 1..];
        }
        self.begin(piece);
    }

    /// The list is over: a last line without LF is a line.
    pub fn finish(&mut self) {
        if !self.begun.is_empty() {
            self.answer_begun();
        }
    }

    /// The answers since the last take.
    pub fn output(&mut self) -> &mut Vec<u8> {
        &mut self.output
    }

    pub fn lines(&self) -> u64 {
        self.lines
    }

    fn begin(&mut self, part: &[u8]) {
        let kept = part.len().min(LONGEST_LINE + 1 - self.begun.len());
        self.begun.extend_from_slice(&part[..kept]);
    }

    fn answer_begun(&mut self) {
        let mut line = std::mem::take(&mut self.begun);
        self.answer(&line);
        line.clear();
        self.begun = line;
    }

    fn answer(&mut self, line: &[u8]) {
        self.lines += 1;
        write_number(&mut self.output, self.lines);
        match calls::read(line) {
            Some(call) => {
                let answer = self.machine.answer(call);
                write_answer(&mut self.output, answer);
            }
            None => {
                wakers::clear_log();
                write_answer(&mut self.output, Answer { code: Code::BadLine, field: Field::None });
            }
        }
    }
}

/// What follows the line number: code, field, wakes, retired.
pub fn write_answer(out: &mut Vec<u8>, answer: Answer) {
    out.push(b' ');
    write_number(out, answer.code as u64);
    match answer.field {
        Field::None => write_list(out, &[]),
        Field::Number(number) => write_list(out, &[number]),
        Field::Counts(counts) => write_counts(out, counts),
    }
    wakers::with_log(|log| {
        write_list(out, &log.woken);
        write_list(out, &log.retired);
    });
    out.push(b'\n');
}

fn write_list(out: &mut Vec<u8>, numbers: &[u32]) {
    out.push(b' ');
    if numbers.is_empty() {
        out.push(b'-');
    }
    for (place, &number) in numbers.iter().enumerate() {
        if place > 0 {
            out.push(b',');
        }
        write_number(out, u64::from(number));
    }
}

/// Counts keep their places: one that the queue does not have is a `-`.
fn write_counts(out: &mut Vec<u8>, counts: [Option<u32>; 6]) {
    for (place, count) in counts.into_iter().enumerate() {
        out.push(if place > 0 { b',' } else { b' ' });
        match count {
            Some(count) => write_number(out, u64::from(count)),
            None => out.push(b'-'),
        }
    }
}
