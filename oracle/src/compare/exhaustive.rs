//! Every history of some length, and every call on every state within some calls of make, on queues of both kinds.

use std::collections::HashSet;
use std::hash::DefaultHasher;
use std::hash::Hash;
use std::hash::Hasher;

use oracle::calls;
use oracle::calls::Call;
use oracle::machine::Machine;

use crate::lists::Going;
use crate::lists::Lists;
use crate::places::Turn;
use crate::places::numbered;

/// Calls that name records by place, and which turn of the place they mean.
struct Alphabet(Vec<(Call, Turn)>);

impl Alphabet {
    /// Calls parted by commas. A record's number below 64 is a place, `<` before the call asks for the number that the
    /// place had before and `>` for the one it will have next; from 64 on a number is itself. `5 values` stands for five
    /// try-sends of sender 0, their values counted from 1.
    fn new(text: &str) -> Self {
        let read = |line: &str| calls::read(line.as_bytes()).unwrap_or_else(|| panic!("no call: {line}"));
        let read_turn = |part: &str| match part.as_bytes()[0] {
            b'<' => (read(&part[1..]), Turn::Earlier),
            b'>' => (read(&part[1..]), Turn::Later),
            _ => (read(part), Turn::Present),
        };
        let read_part = |part: &str| match part.strip_suffix(" values").map(str::parse::<u32>) {
            Some(Ok(count)) => (1..=count).map(|value| (Call::TrySend(0, value), Turn::Present)).collect(),
            _ => vec![read_turn(part)],
        };
        Alphabet(text.split(',').flat_map(|part| read_part(part.trim())).collect())
    }

    /// The calls with the numbers that their places have on this machine.
    fn numbered(&self, machine: &Machine) -> impl Iterator<Item = Call> {
        self.0.iter().filter_map(|&(call, turn)| numbered(machine, call, turn))
    }

    /// The calls made one after the other.
    fn history(&self, machine: &mut Machine) -> History {
        let mut history = History::default();
        for &(call, turn) in &self.0 {
            if let Some(call) = numbered(machine, call, turn) {
                machine.answer(call);
                history.push(call);
            }
        }
        history
    }
}

/// Calls with their lines, so that the many histories which begin with them are written quickly.
#[derive(Clone, Default)]
struct History {
    calls: Vec<Call>,
    text: Vec<u8>,
}

impl History {
    fn push(&mut self, call: Call) {
        call.write(&mut self.text);
        self.text.push(b'\n');
        self.calls.push(call);
    }

    fn pop(&mut self) {
        self.calls.pop();
        let lines = self.text.strip_suffix(b"\n").unwrap_or(&self.text);
        let end = lines.iter().rposition(|&byte| byte == b'\n').map_or(0, |end| end + 1);
        self.text.truncate(end);
    }

    fn write(&self, lists: &mut Lists) {
        lists.lines(&self.text, self.calls.len());
    }

    fn replay(&self, machine: &mut Machine) {
        for &call in &self.calls {
            machine.answer(call);
        }
    }
}

/// Two of everything that six calls can make use of, tokens that differ and tokens that are equal: 33 calls. A place that
/// is used again is called by its new number.
const FEW: &str =
    "clone-s 0, clone-r 0, try-send 0 7, try-res 0, reserve 0, send 0 8, recv 0, poll-out 0 90, poll-out 0 91,
    poll-out 1 91, poll-out 1 92, cancel-out 0, cancel-out 1, permit-send 0 9, permit-drop 0, try-recv 0, poll-in 0 50,
    poll-in 0 51, poll-in 1 51, poll-in 1 52, cancel-in 0, cancel-in 1, drop-s 0, drop-s 1, drop-r 0, drop-r 1, status,
    reserve 1, send 1 6, recv 1, try-send 1 5, try-recv 1, try-res 1";

/// From a state that is already deep: what may happen to its operations, 29 calls.
const LATER: &str = "try-send 0 7, try-recv 0, try-res 0, permit-drop 0, permit-send 0 9, reserve 0, recv 0, poll-out 0 190,
    poll-out 1 191, poll-out 2 192, poll-out 3 193, poll-out 1 91, cancel-out 0, cancel-out 1, cancel-out 2, poll-in 0 150,
    poll-in 1 151, poll-in 2 152, poll-in 3 153, poll-in 1 51, cancel-in 0, cancel-in 1, cancel-in 2, drop-s 0, drop-r 0,
    drop-s 1, drop-r 1, send 0 8, status";

/// Deep states of bounded queues to begin from.
pub const DEEP: &[&str] = &[
    // Three senders in line behind a full queue, a send between two reserves.
    "make 1, try-send 0 1, reserve 0, send 0 2, reserve 0, poll-out 0 90, poll-out 1 91, poll-out 2 92",
    // Three receivers in line.
    "make 1, recv 0, recv 0, recv 0, poll-in 0 50, poll-in 1 51, poll-in 2 52",
    // One grant and two in line.
    "make 1, try-send 0 1, reserve 0, reserve 0, send 0 3, poll-out 0 90, poll-out 1 91, poll-out 2 92, try-recv 0",
    // One receiver notified, two in line, the value still there.
    "make 2, recv 0, recv 0, recv 0, poll-in 0 50, poll-in 1 51, poll-in 2 52, try-send 0 1",
    // Two receivers notified, one in line, one value taken by another.
    "make 2, recv 0, recv 0, recv 0, poll-in 0 50, poll-in 1 51, poll-in 2 52, try-send 0 1, try-send 0 2, try-recv 0",
    // Two grants and one in line at capacity 2, after the values have gone.
    "make 2, try-send 0 1, try-send 0 2, reserve 0, reserve 0, send 0 3, poll-out 0 90, poll-out 1 91, poll-out 2 92, \
     try-recv 0, try-recv 0",
    // Handles of both kinds to spare, operations of each, a permit of the second sender.
    "make 2, clone-s 0, clone-r 0, try-res 1, try-send 0 1, reserve 1, send 0 2, poll-out 0 90, poll-out 1 91",
    // Receivers in line with two senders, so that the first that leaves is not the last.
    "make 1, clone-s 0, clone-r 0, recv 0, recv 1, recv 0, poll-in 0 50, poll-in 1 51, poll-in 2 52",
];

/// Deep states of unbounded queues.
pub const DEEP_UNBOUNDED: &[&str] = &[
    // Three receivers in line.
    "make-u, recv 0, recv 0, recv 0, poll-in 0 50, poll-in 1 51, poll-in 2 52",
    // One receiver notified, two in line, the value still there.
    "make-u, recv 0, recv 0, recv 0, poll-in 0 50, poll-in 1 51, poll-in 2 52, try-send 0 1",
    // Two receivers notified, one in line, one value taken by another.
    "make-u, recv 0, recv 0, recv 0, poll-in 0 50, poll-in 1 51, poll-in 2 52, try-send 0 1, try-send 0 2, try-recv 0",
    // Two receivers notified, one in line, both values taken by others.
    "make-u, recv 0, recv 0, recv 0, poll-in 0 50, poll-in 1 51, poll-in 2 52, 2 values, try-recv 0, try-recv 0",
    // Receivers in line with two senders, so that the first that leaves is not the last.
    "make-u, clone-s 0, clone-r 0, recv 0, recv 1, recv 0, poll-in 0 50, poll-in 1 51, poll-in 2 52",
    // No sender left, values still there, the receivers' line emptied.
    "make-u, clone-r 0, recv 0, recv 1, recv 0, poll-in 0 50, poll-in 1 51, poll-in 2 52, 4 values, drop-s 0",
];

/// An unbounded queue about to be full, the ring's start not at its beginning, receivers notified and late.
pub const NEARLY_FULL: &[&str] = &[
    "make-u, 63 values",
    "make-u, clone-r 0, recv 0, recv 1, poll-in 0 50, poll-in 1 51, 9 values, try-recv 0, try-recv 0, try-recv 0, 57 values",
];

/// Numbers that are closed, or that were not given yet: on any state they reach nobody.
const DEAD: &str = "<poll-in 0 50, <cancel-in 0, <poll-out 0 90, <cancel-out 0, <permit-send 0 9, <permit-drop 0, <drop-s 0,
    <drop-s 1, <drop-r 0, <drop-r 1, <try-send 1 7, <try-recv 1, <poll-in 1 51, <cancel-in 1, <cancel-out 1, >poll-in 0 50,
    >cancel-in 0, >poll-out 0 90, >cancel-out 0, >permit-drop 0, >try-send 0 7, >try-recv 0, >drop-s 0, >drop-r 0, >recv 0,
    >reserve 0, <recv 1, <reserve 1, <clone-s 1, <clone-r 1";

/// Every valid history of exactly `length` calls after a make. Shorter ones are beginnings of these (status is always
/// valid, so each goes on), and a beginning's answers are compared with the whole. A call with a dead number ends each.
pub fn histories(lists: &mut Lists, make: &str, length: usize) -> Going {
    extensions(lists, make, FEW, length)
}

/// The same from each of some deep states.
pub fn deep_histories(lists: &mut Lists, starts: &[&str], length: usize) -> Going {
    starts.iter().try_for_each(|start| extensions(lists, start, LATER, length))
}

fn extensions(lists: &mut Lists, start: &str, alphabet: &str, length: usize) -> Going {
    let mut machine = Machine::new();
    let mut history = Alphabet::new(start).history(&mut machine);
    let (alphabet, dead) = (Alphabet::new(alphabet), Alphabet::new(DEAD));
    Extension { lists, alphabet, dead, turn: 0 }.extend(&mut machine, &mut history, length)
}

struct Extension<'a, 'b> {
    lists: &'a mut Lists<'b>,
    alphabet: Alphabet,
    dead: Alphabet,
    /// Which dead number comes next.
    turn: usize,
}

impl Extension<'_, '_> {
    /// The machine stands at the history's end and is left anywhere.
    fn extend(&mut self, machine: &mut Machine, history: &mut History, left: usize) -> Going {
        if left == 0 {
            history.write(self.lists);
            self.turn += 1;
            let words = &self.dead.0;
            let in_turn = (0..words.len()).map(|next| words[(self.turn + next) % words.len()]);
            if let Some(dead) = in_turn.filter_map(|(call, turn)| numbered(machine, call, turn)).next() {
                self.lists.call(dead);
            }
            return self.lists.end_history();
        }
        let calls: Vec<Call> = self.alphabet.numbered(machine).collect();
        for call in calls {
            if machine.answer(call).code.is_refusal() {
                // Not a valid history, and the state is what it was.
                continue;
            }
            history.push(call);
            self.extend(machine, history, left - 1)?;
            history.pop();
            history.replay(machine);
        }
        Ok(())
    }
}

/// What builds states. Two operations never hold the same token here, see `Machine::describe`.
const BUILD: &str = "clone-s 0, clone-r 0, try-send 0 7, try-send 0 8, try-res 0, reserve 0, reserve 1, send 0 6, recv 0,
    recv 1, poll-out 0 90, poll-out 0 190, poll-out 1 91, poll-out 2 92, poll-in 0 50, poll-in 0 150, poll-in 1 51,
    poll-in 2 52, cancel-out 0, cancel-out 1, cancel-in 0, cancel-in 1, permit-send 0 9, permit-drop 0, try-recv 0, drop-s 0,
    drop-s 1, drop-r 0, drop-r 1";

/// What is tried on every state: each call with the first places of its kind, with dead numbers, with turns that are over
/// or still to come, and with numbers that no record can have.
const PROBE: &str = "clone-s 0, clone-s 1, clone-s 16, clone-r 0, clone-r 1, clone-r 4294967295, try-send 0 17, try-send 1 18,
    try-send 2 19, try-res 0, try-res 1, try-res 2, reserve 0, reserve 1, reserve 16, send 0 20, send 1 21, send 99 22, recv 0,
    recv 1, recv 16, poll-out 0 90, poll-out 0 50, poll-out 1 90, poll-out 1 91, poll-out 2 93, poll-out 31 1, poll-out 32 1,
    cancel-out 0, cancel-out 1, cancel-out 2, cancel-out 64, permit-send 0 23, permit-send 1 24, permit-send 64 1, permit-drop 0,
    permit-drop 1, permit-drop 63, try-recv 0, try-recv 1, try-recv 15, poll-in 0 50, poll-in 0 90, poll-in 1 50, poll-in 1 51,
    poll-in 2 53, poll-in 32 1, cancel-in 0, cancel-in 1, cancel-in 2, cancel-in 4294967295, drop-s 0, drop-s 1, drop-s 16,
    drop-r 0, drop-r 1, drop-r 17, make 0, make 65, status, <clone-s 0, <clone-s 1, <clone-r 1, <try-send 0 17, <try-send 1 18,
    <try-res 1, <reserve 1, <send 1 21, <recv 1, <try-recv 1, <poll-out 0 90, <poll-out 1 91, <cancel-out 0, <cancel-out 1,
    <permit-send 0 23, <permit-drop 0, <poll-in 0 50, <poll-in 1 51, <cancel-in 0, <cancel-in 1, <drop-s 0, <drop-s 1, <drop-r 0,
    <drop-r 1, >clone-s 0, >try-send 0 17, >try-res 0, >reserve 1, >recv 0, >try-recv 0, >poll-out 0 90, >cancel-out 1,
    >permit-send 0 23, >permit-drop 1, >poll-in 0 50, >cancel-in 1, >drop-s 0, >drop-r 1, drop-s 80, try-recv 80, cancel-out 96,
    poll-in 96 1, permit-drop 4294967232, poll-out 4294967232 1";

/// What follows a call that was not refused, by turns, to show the state it left.
const SHOW: [&str; 3] = [
    "status, try-recv 0, try-recv 0, try-send 0 31, try-send 0 32",
    "status, try-send 0 31, try-recv 0, poll-out 0 95, poll-in 0 55, status",
    "status, drop-r 0, drop-r 1, drop-s 0, drop-s 1, status",
];

/// Every probing call on every state that the building calls reach within `depth` calls of the start. States are told
/// apart by what `Machine::describe` writes down; the first history found to a state stands for it.
pub fn states(lists: &mut Lists, start: &str, depth: usize) -> Going {
    let build = Alphabet::new(BUILD);
    let probe = Alphabet::new(PROBE);
    let shows = SHOW.map(Alphabet::new);
    let mut machine = Machine::new();
    let start = Alphabet::new(start).history(&mut machine);
    let mut seen = HashSet::from([description(&machine)]);
    let mut level: Vec<Box<[Call]>> = vec![Box::new([])];
    let mut turn = 0;
    for left in (0..=depth).rev() {
        let mut next_level = vec![];
        for calls in &level {
            let mut history = start.clone();
            calls.iter().for_each(|&call| history.push(call));
            history.replay(&mut machine);
            // The refused calls change nothing, so they all stand in one history and show it of each other.
            let mut good = vec![];
            history.write(lists);
            for call in probe.numbered(&machine).collect::<Vec<_>>() {
                if machine.answer(call).code.is_refusal() {
                    lists.call(call);
                } else {
                    turn += 1;
                    let mut probed = History::default();
                    probed.push(call);
                    good.push((probed, shows[turn % shows.len()].history(&mut machine)));
                    history.replay(&mut machine);
                }
            }
            lists.call(Call::Status);
            lists.end_history()?;
            for (probed, shown) in good {
                history.write(lists);
                probed.write(lists);
                shown.write(lists);
                lists.end_history()?;
            }
            if left == 0 {
                continue;
            }
            for call in build.numbered(&machine).collect::<Vec<_>>() {
                if machine.answer(call).code.is_refusal() {
                    continue;
                }
                if seen.insert(description(&machine)) {
                    next_level.push([calls, &[call][..]].concat().into_boxed_slice());
                }
                history.replay(&mut machine);
            }
        }
        level = next_level;
    }
    Ok(())
}

/// The same from each of the unbounded queues that are nearly full.
pub fn nearly_full_states(lists: &mut Lists, depth: usize) -> Going {
    NEARLY_FULL.iter().try_for_each(|start| states(lists, start, depth))
}

fn description(machine: &Machine) -> u64 {
    let mut description = vec![];
    machine.describe(&mut description);
    let mut hasher = DefaultHasher::new();
    description.hash(&mut hasher);
    hasher.finish()
}
