//! The stored lists: those made by the generator are made anew, and all get the crate's answers.

use std::fs;
use std::io;

use oracle::calls::Call;

use crate::Options;
use crate::damage;
use crate::exhaustive;
use crate::full;
use crate::lists::Going;
use crate::lists::Lists;
use crate::program;
use crate::rng::Rng;
use crate::run::stored_pairs;
use crate::walks;
use crate::walks::Kinds;

const SEED: u64 = 5;

/// What an unbounded queue does before it is full, and what it refuses: receivers in line, one that is notified and
/// leaves, the calls of reservations, the last sender.
const UNBOUNDED: &str = "\
make-u
status
try-send 0 4294967295
try-send 0 8
try-recv 0
recv 0
recv 0
recv 0
poll-in 0 50
poll-in 0 50
poll-in 1 51
poll-in 2 52
poll-in 2 53
status
try-send 0 9
cancel-in 1
poll-in 2 54
try-recv 0
try-res 0
reserve 0
send 0 1
try-res 1
reserve 1
send 1 1
poll-out 0 90
cancel-out 0
permit-send 0 1
permit-drop 0
status
clone-s 0
clone-r 0
drop-s 0
recv 1
poll-in 0 55
poll-in 64 55
poll-in 128 55
drop-r 1
try-send 1 10
status
drop-s 1
status
poll-in 0 56
poll-in 64 56
try-recv 0
make-u 64
make-u
clone-s 0
drop-s 1
";

/// What comes after 64 values: a full ring, a sender that was closed and one never given, the last receiver, and makes of
/// both kinds.
const UNBOUNDED_FULL: &str = "\
status
try-send 0 65
try-send 1 65
try-send 65 65
reserve 0
reserve 1
reserve 65
try-recv 0
try-send 0 66
try-send 0 67
clone-r 0
drop-r 0
make 65
status
drop-r 1
status
try-send 0 68
try-res 0
send 0 69
make 2
status
try-res 0
make-u
permit-drop 0
status
";

fn unbounded() -> Vec<u8> {
    let values: String = (1..=64).map(|value| format!("try-send 0 {value}\n")).collect();
    [UNBOUNDED, &values, UNBOUNDED_FULL].concat().into_bytes()
}

fn gather(make: impl FnOnce(&mut Lists) -> Going) -> Vec<u8> {
    let mut text = vec![];
    let mut take = |list: &[u8], _lines| {
        text.extend_from_slice(list);
        Ok(())
    };
    let mut lists = Lists::new(u64::MAX, &mut take);
    // The taker above never stops.
    let _ = make(&mut lists).and_then(|()| lists.end_list());
    text
}

pub fn store(options: &Options) -> io::Result<()> {
    let directory = options.root.join("lists");
    let write = |name: &str, text: Vec<u8>| fs::write(directory.join(name), text);
    let walks = |kinds, lines| gather(|lists| walks::walks(lists, &mut Rng::new(SEED), kinds, lines));
    write("walks.in", walks(Kinds::Bounded, 4000))?;
    write("unbounded-walks.in", walks(Kinds::Unbounded, 2000))?;
    write("unbounded.in", unbounded())?;
    let bad_lines = |lists: &mut Lists| {
        damage::before_make(lists, 130).and_then(|()| damage::damaged(lists, &[Call::Make(3)], 130))
    };
    write("bad-lines.in", gather(bad_lines))?;
    write("full-tables.in", gather(|lists| full::full_tables(lists, &[Call::Make(2), Call::Make(64)])))?;
    write("uses.in", gather(|lists| full::many_uses(lists, 260)))?;
    for (name, make) in [("", "make 1"), ("unbounded-", "make-u")] {
        write(&format!("{name}states.in"), gather(|lists| exhaustive::states(lists, make, 1)))?;
        write(&format!("{name}histories.in"), gather(|lists| exhaustive::histories(lists, make, 2)))?;
    }
    for (input, output) in stored_pairs(&directory)? {
        fs::write(output, program::answers(&fs::read(input)?))?;
    }
    Ok(())
}
