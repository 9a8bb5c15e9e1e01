//! Random walks that lean towards deep states: many waiters, grants and notifications given up, lines emptied, tables
//! full, numbers dead. A walk knows the crate's answers as it goes, so it can choose live numbers and woken operations.

use oracle::calls;
use oracle::calls::Call;
use oracle::calls::PLACES;
use oracle::calls::Record;
use oracle::machine::Code;
use oracle::machine::Machine;
use oracle::wakers;

use crate::damage;
use crate::lists::Going;
use crate::lists::Lists;
use crate::rng::Rng;

/// How often each call is chosen, in the order of `Choice`.
type Weights = [u32; 17];

/// The calls in the order of `Weights`.
#[derive(Clone, Copy)]
enum Choice {
    CloneS,
    CloneR,
    TrySend,
    TryRes,
    Reserve,
    Send,
    Recv,
    PollOut,
    CancelOut,
    PermitSend,
    PermitDrop,
    TryRecv,
    PollIn,
    CancelIn,
    DropS,
    DropR,
    Status,
}

const CHOICES: [Choice; 17] = [
    Choice::CloneS,
    Choice::CloneR,
    Choice::TrySend,
    Choice::TryRes,
    Choice::Reserve,
    Choice::Send,
    Choice::Recv,
    Choice::PollOut,
    Choice::CancelOut,
    Choice::PermitSend,
    Choice::PermitDrop,
    Choice::TryRecv,
    Choice::PollIn,
    Choice::CancelIn,
    Choice::DropS,
    Choice::DropR,
    Choice::Status,
];

/// What a walk on a bounded queue does for a while. A walk changes from one of these to another every few dozen calls.
#[rustfmt::skip]
const MOODS: [Weights; 10] = [
    // cs cr ts tr re se rc po co ps pd tv pi ci ds dr st
    [   2, 2,10, 6, 6, 6, 8,12, 4, 6, 4,10,12, 4, 1, 1, 3], // of everything
    [   1, 0,12, 6,14,14, 1,30, 2, 2, 1, 2, 1, 0, 0, 0, 2], // a long line of senders
    [   0, 1, 1, 1, 1, 1,20, 1, 0, 1, 1, 6,30, 2, 0, 0, 2], // a long line of receivers
    [   0, 0, 2, 2, 2, 2, 6,16, 2, 4, 6,30,20, 2, 0, 0, 2], // values are taken, grants come
    [   0, 0,30, 4, 2, 2, 4,10, 2,16, 2, 4,10, 2, 0, 0, 2], // values are given, notifications come
    [   0, 0, 8, 4, 4, 4, 4, 6,26, 2,10, 8, 6,26, 0, 0, 2], // operations are given up
    [   0, 0, 2, 1, 4, 4, 4,40, 1, 1, 1, 2,40, 1, 0, 0, 2], // tokens are refreshed
    [  20,20, 4, 4, 8, 8, 8, 6, 1, 2, 1, 4, 6, 1, 4, 4, 2], // tables fill
    [   0, 0, 4, 2, 2, 2, 2, 8,16, 8,12, 4, 8,16,20, 1, 3], // senders leave
    [   0, 0, 4, 2, 2, 2, 2, 8,16, 8,12, 4, 8,16, 1,20, 3], // receivers leave
];

/// The same for an unbounded queue, which has no reservations: what belongs to those is refused and comes seldom.
#[rustfmt::skip]
const MOODS_UNBOUNDED: [Weights; 10] = [
    // cs cr ts tr re se rc po co ps pd tv pi ci ds dr st
    [   2, 2,10, 1, 1, 1,10, 1, 1, 1, 1,10,14, 4, 1, 1, 3], // of everything
    [   0, 0,60, 1, 0, 1, 1, 0, 0, 0, 0, 1, 1, 1, 0, 0, 1], // values are given, up to 64 and over
    [   0, 0,20, 1, 1, 1, 3, 0, 0, 0, 0,16, 6, 2, 0, 0, 2], // about as many are given as taken
    [   0, 0, 2, 0, 1, 0, 6, 0, 0, 0, 0,30,20, 1, 0, 0, 2], // values are taken until none is left
    [   0, 1, 1, 0, 0, 0,20, 0, 0, 0, 0, 6,30, 1, 0, 0, 2], // a long line of receivers
    [   0, 0, 8, 0, 1, 0,14, 0, 0, 0, 0,10,20,12, 0, 0, 2], // notified receivers leave, or come too late
    [   0, 0, 2, 0, 0, 0, 6, 0, 0, 0, 0, 4,40, 1, 0, 0, 2], // tokens are refreshed
    [  20,20, 6, 2, 2, 2,16, 1, 1, 1, 1, 8,14, 1, 4, 4, 2], // tables fill
    [   1, 0, 6, 1, 1, 1, 8, 1, 1, 1, 1, 6,14, 4,16, 1, 3], // senders leave
    [   0, 1, 8, 1, 1, 1, 4, 1, 1, 1, 1, 6,10,16, 1,20, 3], // receivers leave
];

/// Which queues walks begin.
#[derive(Clone, Copy)]
pub enum Kinds {
    Bounded,
    Unbounded,
    /// An unbounded one in a third of the walks.
    Both,
}

#[derive(Clone, Copy)]
enum Tokens {
    /// Every poll has a token of its own.
    Fresh,
    /// One of three: tokens of different operations are often equal.
    Few,
    /// An operation keeps its own token, and sometimes changes it.
    Own,
    /// From both ends of the range.
    Extreme,
}

struct Walk<'a> {
    rng: &'a mut Rng,
    machine: Machine,
    unbounded: bool,
    tokens: Tokens,
    /// Of a hundred numbers, how many are chosen with no regard to what is live.
    stray: u32,
    /// Of a thousand lines, how many are damaged.
    damaged: u32,
    fresh: u32,
    out: Side,
    inn: Side,
}

/// What a walk remembers of the operations of one direction, one bit for each place.
#[derive(Default)]
struct Side {
    polled: u64,
    woken: u64,
    tokens: [u32; 32],
}

impl Side {
    fn follow(&mut self, number: u32, token: u32, code: Code) {
        if code == Code::Pending {
            let place = number % PLACES;
            self.tokens[place as usize] = token;
            self.polled |= 1 << place;
            self.woken &= !(1 << place);
        } else {
            self.forget(number, code);
        }
    }

    /// The operation ended, unless the call was refused.
    fn forget(&mut self, number: u32, code: Code) {
        if !code.is_refusal() {
            let place = number % PLACES;
            self.polled &= !(1 << place);
            self.woken &= !(1 << place);
        }
    }

    fn wake(&mut self, token: u32) {
        for place in 0..32 {
            if self.polled & 1 << place != 0 && self.tokens[place] == token {
                self.woken |= 1 << place;
            }
        }
    }

    /// Most often one that was woken, or one that was never polled, or any that is live.
    fn choose(&self, rng: &mut Rng, live: u64) -> Option<u32> {
        match rng.below(4) {
            0 => rng.bit(live & self.woken),
            1 => rng.bit(live & !self.polled),
            _ => None,
        }
        .or_else(|| rng.bit(live))
    }
}

/// Walks of all kinds, about `lines` lines in all.
pub fn walks(lists: &mut Lists, rng: &mut Rng, kinds: Kinds, lines: u64) -> Going {
    let mut left = lines as i64;
    while left > 0 {
        let unbounded = match kinds {
            Kinds::Bounded => false,
            Kinds::Unbounded => true,
            Kinds::Both => rng.below(3) == 0,
        };
        left -= walk(lists, rng, unbounded)? as i64;
    }
    Ok(())
}

fn capacity(rng: &mut Rng) -> u32 {
    match rng.below(20) {
        0..=6 => 1,
        7..=11 => 2,
        12..=15 => 3 + rng.below(3),
        16..=17 => 6 + rng.below(11),
        18 => 17 + rng.below(48),
        _ => 64,
    }
}

fn walk(lists: &mut Lists, rng: &mut Rng, unbounded: bool) -> Result<u64, crate::lists::Stop> {
    let make = if unbounded { Call::MakeU } else { Call::Make(capacity(rng)) };
    let moods: &[Weights] = if unbounded { &MOODS_UNBOUNDED } else { &MOODS };
    let length = match rng.below(50) {
        0 => 3000,
        1..=6 => 200 + rng.below(600),
        7..=30 => 40 + rng.below(160),
        _ => 5 + rng.below(40),
    };
    let tokens = *rng.pick(&[Tokens::Fresh, Tokens::Fresh, Tokens::Few, Tokens::Own, Tokens::Own, Tokens::Extreme]);
    let stray = *rng.pick(&[0, 0, 1, 2, 10, 30]);
    let damaged = *rng.pick(&[0, 0, 0, 0, 0, 0, 2, 30]);
    let fresh = rng.below(3) * 1000;
    let machine = Machine::new();
    let (out, inn) = (Side::default(), Side::default());
    let mut walk = Walk { rng, machine, unbounded, tokens, stray, damaged, fresh, out, inn };
    walk.step(lists, make);
    let mut mood = *walk.rng.pick(moods);
    let mut steps = if unbounded { walk.fill(lists) } else { 0 };
    while steps < length && !walk.is_over() {
        if walk.rng.below(30) == 0 {
            mood = *walk.rng.pick(moods);
        }
        let call = walk.choose(&mood);
        walk.step(lists, call);
        steps += 1;
    }
    walk.step(lists, Call::Status);
    lists.end_history()?;
    Ok(u64::from(steps) + 2)
}

impl Walk<'_> {
    /// With one side gone little can happen any more, with both next to nothing: such walks end sooner.
    fn is_over(&mut self) -> bool {
        match (self.machine.live(Record::Sender) == 0, self.machine.live(Record::Receiver) == 0) {
            (true, true) => self.rng.below(4) == 0,
            (false, false) => false,
            _ => self.rng.below(40) == 0,
        }
    }

    /// Some walks begin where the 64 values of an unbounded queue are about to be reached. How many steps that took.
    fn fill(&mut self, lists: &mut Lists) -> u32 {
        let values = if self.rng.below(8) == 0 { 58 + self.rng.below(9) } else { 0 };
        for _ in 0..values {
            let value = self.value();
            self.step(lists, Call::TrySend(0, value));
        }
        values
    }

    fn step(&mut self, lists: &mut Lists, call: Call) {
        if self.damaged > 0 && self.rng.below(1000) < self.damaged {
            let mut line = vec![];
            call.write(&mut line);
            damage::damage(self.rng, &mut line);
            lists.line(&line);
            // Damage may leave a good line; then it is a step like any other.
            if let Some(call) = calls::read(&line) {
                self.follow(call);
            }
        } else {
            lists.call(call);
            self.follow(call);
        }
    }

    fn follow(&mut self, call: Call) {
        let code = self.machine.answer(call).code;
        match call {
            Call::PollOut(number, token) => self.out.follow(number, token, code),
            Call::PollIn(number, token) => self.inn.follow(number, token, code),
            Call::CancelOut(number) => self.out.forget(number, code),
            Call::CancelIn(number) => self.inn.forget(number, code),
            _ => {}
        }
        wakers::with_log(|log| {
            for &token in &log.woken {
                self.out.wake(token);
                self.inn.wake(token);
            }
        });
    }

    /// A call for this mood. One whose kind has nothing live is seldom of use, so another is chosen; status always can be.
    fn choose(&mut self, mood: &Weights) -> Call {
        if self.rng.below(400) == 0 {
            // Refused, so that the walk goes on with its queue.
            return Call::Make(*self.rng.pick(&[0, 65, 66, 128, u32::MAX]));
        }
        (0..10).find_map(|_| self.choose_live(mood)).unwrap_or(Call::Status)
    }

    fn choose_live(&mut self, mood: &Weights) -> Option<Call> {
        let mut left = self.rng.below(mood.iter().sum());
        let mut index = 0;
        while left >= mood[index] {
            left -= mood[index];
            index += 1;
        }
        let value = self.value();
        Some(match CHOICES[index] {
            Choice::CloneS => Call::CloneS(self.number(Record::Sender)?),
            Choice::CloneR => Call::CloneR(self.number(Record::Receiver)?),
            Choice::TrySend => Call::TrySend(self.number(Record::Sender)?, value),
            Choice::TryRes => Call::TryRes(self.reserving()?),
            Choice::Reserve => Call::Reserve(self.reserving()?),
            Choice::Send => Call::Send(self.reserving()?, value),
            Choice::Recv => Call::Recv(self.number(Record::Receiver)?),
            Choice::PollOut => {
                let number = self.number(Record::Outgoing)?;
                Call::PollOut(number, self.token(90, number))
            }
            Choice::CancelOut => Call::CancelOut(self.number(Record::Outgoing)?),
            Choice::PermitSend => Call::PermitSend(self.number(Record::Permit)?, value),
            Choice::PermitDrop => Call::PermitDrop(self.number(Record::Permit)?),
            Choice::TryRecv => Call::TryRecv(self.number(Record::Receiver)?),
            Choice::PollIn => {
                let number = self.number(Record::Incoming)?;
                Call::PollIn(number, self.token(50, number))
            }
            Choice::CancelIn => Call::CancelIn(self.number(Record::Incoming)?),
            Choice::DropS => Call::DropS(self.number(Record::Sender)?),
            Choice::DropR => Call::DropR(self.number(Record::Receiver)?),
            Choice::Status => Call::Status,
        })
    }

    /// The number of a live record if there is one, or a number chosen with no regard to that.
    fn number(&mut self, record: Record) -> Option<u32> {
        if self.rng.percent(self.stray) {
            return Some(self.stray_number(record));
        }
        let live = self.machine.live(record);
        let place = match record {
            Record::Outgoing => self.out.choose(self.rng, live),
            Record::Incoming => self.inn.choose(self.rng, live),
            _ => self.rng.bit(live),
        };
        Some(self.machine.number_at(record, place?))
    }

    /// A sender for a call that an unbounded queue refuses: a walk with no stray numbers goes without such calls.
    fn reserving(&mut self) -> Option<u32> {
        if self.unbounded && self.stray == 0 { None } else { self.number(Record::Sender) }
    }

    fn stray_number(&mut self, record: Record) -> u32 {
        match self.rng.below(16) {
            0..=3 => self.rng.below(4),
            4..=5 => self.rng.below(66),
            6 => *self.rng.pick(&[15, 16, 31, 32, 63, 64, 65, 128, 255, 256]),
            7 => *self.rng.pick(&[4294967295, 4294967294, 4294967232, 2147483648, 2147483647, 65536, 1000]),
            _ => self.wrong_turn(record),
        }
    }

    /// A place, live if there is one, at a turn that is over or still to come. Before the first turn comes the last.
    fn wrong_turn(&mut self, record: Record) -> u32 {
        let live = self.machine.live(record);
        let below = *self.rng.pick(&[4, 4, 4, PLACES]);
        let place = if self.rng.percent(70) { self.rng.bit(live) } else { None };
        let place = place.unwrap_or_else(|| self.rng.below(below));
        let number = self.machine.number_at(record, place);
        match self.rng.below(8) {
            0..=2 => number.wrapping_sub(PLACES),
            3..=4 => place + PLACES * self.rng.below((number / PLACES).max(1)),
            5..=6 => number.wrapping_add(PLACES),
            _ => number.wrapping_add(PLACES * (2 + self.rng.below(1000))),
        }
    }

    fn value(&mut self) -> u32 {
        match self.rng.below(20) {
            0 => *self.rng.pick(&[0, 1, u32::MAX, u32::MAX - 1, 1 << 31]),
            _ => self.rng.below(1000),
        }
    }

    fn token(&mut self, base: u32, number: u32) -> u32 {
        match self.tokens {
            Tokens::Fresh => {
                self.fresh += 1;
                self.fresh
            }
            Tokens::Few => self.rng.below(3),
            Tokens::Own => base * 100_000 + number % 100_000 + 10_000_000 * u32::from(self.rng.percent(30)),
            Tokens::Extreme => *self.rng.pick(&[0, 1, 2, u32::MAX, u32::MAX - 1, 1 << 31]),
        }
    }
}
