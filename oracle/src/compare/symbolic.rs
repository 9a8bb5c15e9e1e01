//! A history in which records are named by the line that opened them, so that lines can be taken out: numbers are
//! given anew by the crate's answers to what is left.

use std::collections::HashMap;
use std::collections::HashSet;
use std::ops::Range;

use oracle::calls;
use oracle::calls::Call;
use oracle::calls::PLACES;
use oracle::calls::Record;
use oracle::machine::Code;
use oracle::machine::Field;
use oracle::machine::Machine;

/// The kind of record that a call gives when it answers Given.
fn given(call: Call) -> Record {
    match call {
        Call::CloneS(_) => Record::Sender,
        Call::CloneR(_) => Record::Receiver,
        Call::Recv(_) => Record::Incoming,
        Call::Reserve(_) | Call::Send(..) => Record::Outgoing,
        _ => Record::Permit,
    }
}

/// One line. A record is named by the step that opened it, a make standing for the first sender and receiver.
#[derive(Clone)]
pub struct Step {
    place: usize,
    line: Vec<u8>,
    record: Option<Name>,
}

/// A number by the record that has it or had it; one that was never given by the latest record of its place.
#[derive(Clone, Copy)]
struct Name {
    opener: usize,
    /// How many turns of the place lie between that record and the number.
    later: u32,
}

/// Runs steps and keeps which step opened the record that has or had a number.
#[derive(Default)]
struct Numbers {
    machine: Machine,
    openers: HashMap<(Record, u32), usize>,
    numbers: HashMap<(Record, usize), u32>,
}

impl Numbers {
    fn follow(&mut self, place: usize, call: Call) {
        let answer = self.machine.answer(call);
        match (call, answer.code, answer.field) {
            (Call::Make(_) | Call::MakeU, Code::Done, _) => {
                // The numbers of the queue before are none of this one's.
                self.openers.clear();
                self.open(place, Record::Sender, 0);
                self.open(place, Record::Receiver, 0);
            }
            (_, Code::Given, Field::Number(number)) => self.open(place, given(call), number),
            _ => {}
        }
    }

    fn open(&mut self, place: usize, record: Record, number: u32) {
        self.openers.insert((record, number), place);
        self.numbers.insert((record, place), number);
    }

    /// The record that a number is named by, if its place was ever used.
    fn name(&self, record: Record, number: u32) -> Option<Name> {
        if let Some(&opener) = self.openers.get(&(record, number)) {
            return Some(Name { opener, later: 0 });
        }
        // A place's turns are given in order, so the latest that was given lies before this one.
        let next = self.machine.number_at(record, number % PLACES);
        let latest = [Some(next), next.checked_sub(PLACES)].into_iter().flatten();
        let (opener, latest) =
            latest.filter_map(|latest| Some((*self.openers.get(&(record, latest))?, latest))).next()?;
        Some(Name { opener, later: number.checked_sub(latest)? / PLACES })
    }
}

pub fn read(history: &[&[u8]]) -> Vec<Step> {
    let mut numbers = Numbers::default();
    let mut steps = vec![];
    for (place, line) in history.iter().enumerate() {
        let mut record = None;
        if let Some(mut call) = calls::read(line.strip_suffix(b"\n").unwrap_or(line)) {
            record = call.named().and_then(|(record, &mut number)| numbers.name(record, number));
            numbers.follow(place, call);
        }
        steps.push(Step { place, line: line.to_vec(), record });
    }
    steps
}

/// The steps but those in `gone`, and but those that name a record which is then never opened.
pub fn without(steps: &[Step], gone: Range<usize>) -> Vec<Step> {
    let mut left: Vec<Step> = vec![];
    let mut places = HashSet::new();
    for step in steps[..gone.start].iter().chain(&steps[gone.end..]) {
        if step.record.is_none_or(|name| places.contains(&name.opener)) {
            places.insert(step.place);
            left.push(step.clone());
        }
    }
    left
}

/// The lines of these steps, each record with the number it gets when only these are run.
pub fn write(steps: &[Step]) -> Vec<Vec<u8>> {
    let mut numbers = Numbers::default();
    let mut lines = vec![];
    for step in steps {
        let mut line = step.line.clone();
        if let Some(mut call) = calls::read(line.strip_suffix(b"\n").unwrap_or(&line)) {
            if let (Some((record, number)), Some(name)) = (call.named(), step.record) {
                if let Some(&now) = numbers.numbers.get(&(record, name.opener)) {
                    *number = now.saturating_add(PLACES.saturating_mul(name.later));
                    line.clear();
                    call.write(&mut line);
                    line.push(b'\n');
                }
            }
            numbers.follow(step.place, call);
        }
        lines.push(line);
    }
    lines
}

#[cfg(test)]
mod tests {
    use super::*;

    fn rewritten(history: &str, gone: Range<usize>) -> String {
        let lines: Vec<&[u8]> = history.split_inclusive('\n').map(str::as_bytes).collect();
        let left = write(&without(&read(&lines), gone)).concat();
        String::from_utf8(left).unwrap()
    }

    #[test]
    fn numbers_follow_their_records() {
        let history = "make 1\nrecv 0\nrecv 0\ncancel-in 0\nrecv 0\npoll-in 64 50\npoll-in 1 51\n";
        // Without the first use of its place the second is the first.
        assert_eq!(rewritten(history, 3..4), "make 1\nrecv 0\nrecv 0\nrecv 0\npoll-in 2 50\npoll-in 1 51\n");
        assert_eq!(rewritten(history, 1..2), "make 1\nrecv 0\nrecv 0\npoll-in 1 50\npoll-in 0 51\n");
    }

    #[test]
    fn dead_numbers_follow_the_record_they_are_named_by() {
        // Closed; not given yet, by one turn and by two; a place never used; a number of the queue before.
        let calls = "poll-in 1 50\npoll-in 129 50\npoll-in 193 50\npoll-in 70 50\n";
        let history = format!("make 1\nrecv 0\nrecv 0\ncancel-in 1\nrecv 0\n{calls}make 1\npoll-in 65 50\n");
        assert_eq!(rewritten(&history, 0..0), history);
        let left = "make 1\nrecv 0\ncancel-in 0\nrecv 0\npoll-in 0 50\npoll-in 128 50\npoll-in 192 50\npoll-in 70 50\n";
        assert_eq!(rewritten(&history, 1..2), format!("{left}make 1\npoll-in 65 50\n"));
    }
}
