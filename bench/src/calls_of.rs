//! A random history: most calls name live records, so that most of them do something.

use oracle::calls::Call;
use oracle::calls::Record;
use oracle::machine::Answer;
use oracle::machine::Machine;

pub struct History {
    pub calls: Vec<Call>,
    /// The same for `loops`, six bytes each: kind, record number (four bytes, the lowest first), value or token.
    pub bytes: Vec<u8>,
}

struct Random(u64);

impl Random {
    fn below(&mut self, limit: u32) -> u32 {
        self.0 ^= self.0 << 13;
        self.0 ^= self.0 >> 7;
        self.0 ^= self.0 << 17;
        (self.0 >> 33) as u32 % limit
    }

    /// One of the places whose bit is set; 0 if there is none.
    fn among(&mut self, live: u64) -> u32 {
        let nth = self.below(live.count_ones().max(1));
        let rest = (0..nth).fold(live, |bits, _| bits & bits.wrapping_sub(1));
        if rest == 0 { 0 } else { rest.trailing_zeros() }
    }
}

impl History {
    pub fn random(length: usize) -> Self {
        let mut random = Random(0x2545_f491_4f6c_dd1d);
        let mut machine = Machine::new();
        machine.answer(Call::Make(8));
        let mut history = History { calls: vec![], bytes: vec![] };
        while history.calls.len() < length {
            // Status is rare, and the first sender and the first receiver stay.
            let kind = match random.below(68) {
                67 => 16,
                other => other as u8 % 16,
            };
            let record = match kind {
                0 | 2..=5 | 14 => Record::Sender,
                1 | 6 | 11 | 15 => Record::Receiver,
                7 | 8 => Record::Outgoing,
                9 | 10 => Record::Permit,
                _ => Record::Incoming,
            };
            let (place, v) = (random.among(machine.live(record)), random.below(200));
            if (kind == 14 || kind == 15) && place == 0 {
                continue;
            }
            let n = machine.number_at(record, place);
            let call = call_of(kind, n, v);
            machine.answer(call);
            history.calls.push(call);
            history.bytes.push(kind);
            history.bytes.extend(n.to_le_bytes());
            history.bytes.push(v as u8);
        }
        history
    }

    /// So many calls of the history on a machine, from the first again after the last. Its numbers are those of one queue,
    /// so each time over is on a new one.
    pub fn run(&self, machine: &mut Machine, calls: usize, mut after: impl FnMut(Answer)) {
        for once in (0..calls).step_by(self.calls.len()) {
            machine.answer(Call::Make(8));
            for &call in self.calls.iter().take(calls - once) {
                after(machine.answer(call));
            }
        }
    }

    /// The history as lines for the call program, so many times over, each on a queue of its own.
    pub fn text(&self, times: usize) -> String {
        let once: String = self.calls.iter().map(|call| format!("{call}\n")).collect();
        ("make 8\n".to_owned() + &once).repeat(times)
    }
}

fn call_of(kind: u8, n: u32, v: u32) -> Call {
    match kind {
        0 => Call::CloneS(n),
        1 => Call::CloneR(n),
        2 => Call::TrySend(n, v),
        3 => Call::TryRes(n),
        4 => Call::Reserve(n),
        5 => Call::Send(n, v),
        6 => Call::Recv(n),
        7 => Call::PollOut(n, v),
        8 => Call::CancelOut(n),
        9 => Call::PermitSend(n, v),
        10 => Call::PermitDrop(n),
        11 => Call::TryRecv(n),
        12 => Call::PollIn(n, v),
        13 => Call::CancelIn(n),
        14 => Call::DropS(n),
        15 => Call::DropR(n),
        _ => Call::Status,
    }
}
