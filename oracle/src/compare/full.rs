//! Tables filled to their limits and emptied again, lines as long as they can be, at the capacities where that matters
//! and on an unbounded queue.

use oracle::calls::Call;
use oracle::calls::PLACES;

use crate::lists::Going;
use crate::lists::Lists;
use crate::places::Script;
use crate::places::Turn;

#[rustfmt::skip]
pub const MAKES: &[Call] = &[
    Call::Make(1), Call::Make(2), Call::Make(3), Call::Make(31), Call::Make(32), Call::Make(33), Call::Make(63), Call::Make(64),
    Call::MakeU,
];

pub fn full_tables(lists: &mut Lists, makes: &[Call]) -> Going {
    let script = &mut Script::new(lists);
    for &make in makes {
        senders_wait(script, make)?;
        receivers_wait(script, make)?;
        permits(script, make)?;
        handles(script, make)?;
        places_again(script, make)?;
        ring_turns(script, make)?;
        if make == Call::MakeU {
            ring_edges(script)?;
            ring_fills_behind_receivers(script)?;
        }
    }
    Ok(())
}

/// How many values a queue takes.
fn room(make: Call) -> u32 {
    match make {
        Call::Make(capacity) => capacity,
        _ => 64,
    }
}

/// Reserves and sends by turns fill their table and the line behind a full queue. An unbounded one refuses them all, and
/// what follows must find nothing of them.
fn fill_send_line(script: &mut Script, make: Call) {
    script.call(make);
    script.call(Call::CloneS(0));
    script.call(Call::DropS(1));
    for value in 0..=room(make) {
        script.call(Call::TrySend(0, value));
    }
    for n in 0..33 {
        script.call(if n % 3 == 1 { Call::Send(0, 500 + n) } else { Call::Reserve(0) });
    }
    for call in [Call::Reserve(1), Call::Send(1, 9)] {
        script.call(call);
        script.call_at(call, Turn::Earlier);
    }
    for n in 0..33 {
        script.call(Call::PollOut(n, 100 + n));
    }
    script.call(Call::Status);
}

fn senders_wait(script: &mut Script, make: Call) -> Going {
    // The last receiver leaves: all are woken at once.
    fill_send_line(script, make);
    script.call(Call::DropR(0));
    script.call(Call::Status);
    for n in 0..32 {
        script.call(if n % 5 == 4 { Call::CancelOut(n) } else { Call::PollOut(n, 200 + n) });
    }
    script.call(Call::DropS(0));
    script.call(Call::Status);
    script.end_history()?;
    // Some are refreshed, some leave, and the rest get their grants in order.
    fill_send_line(script, make);
    for n in 0..32 {
        if n % 4 == 0 {
            script.call(Call::PollOut(n, 300 + n));
        }
        if n % 7 == 3 {
            script.call(Call::CancelOut(n));
        }
    }
    for _ in 0..40 {
        script.call(Call::TryRecv(0));
    }
    script.call(Call::Status);
    for n in 0..32 {
        script.call(if n % 6 == 5 { Call::CancelOut(n) } else { Call::PollOut(n, 400 + n) });
        script.call(Call::TryRecv(0));
    }
    script.call(Call::Status);
    for n in 0..32 {
        script.call(if n % 2 == 0 { Call::PermitSend(n, 600 + n) } else { Call::PermitDrop(n) });
    }
    script.call(Call::Status);
    script.end_history()
}

fn receivers_wait(script: &mut Script, make: Call) -> Going {
    let fill = |script: &mut Script| {
        script.call(make);
        script.call(Call::CloneR(0));
        script.call(Call::DropR(1));
        for _ in 0..33 {
            script.call(Call::Recv(0));
        }
        script.call(Call::Recv(1));
        script.call_at(Call::Recv(1), Turn::Earlier);
        for n in 0..33 {
            script.call(Call::PollIn(n, 100 + n));
        }
        script.call(Call::Status);
    };
    // The last sender leaves: all are woken at once.
    fill(script);
    script.call(Call::DropS(0));
    script.call(Call::Status);
    for n in 0..32 {
        script.call(if n % 5 == 4 { Call::CancelIn(n) } else { Call::PollIn(n, 200 + n) });
    }
    script.call(Call::DropR(0));
    script.end_history()?;
    // Some are refreshed, some leave, and the rest are notified in order; notified ones leave or come too late.
    fill(script);
    for n in 0..32 {
        if n % 4 == 0 {
            script.call(Call::PollIn(n, 300 + n));
        }
        if n % 7 == 3 {
            script.call(Call::CancelIn(n));
        }
    }
    for value in 0..40 {
        script.call(Call::TrySend(0, value));
        match value % 4 {
            0 => script.call(Call::TryRecv(0)),
            1 => script.call(Call::PollIn(value % 32, 500 + value)),
            2 => script.call(Call::CancelIn(value % 32)),
            _ => {}
        }
    }
    script.call(Call::Status);
    for n in 0..32 {
        script.call(Call::PollIn(n, 400 + n));
    }
    script.call(Call::Status);
    script.end_history()
}

fn permits(script: &mut Script, make: Call) -> Going {
    let capacity = room(make);
    script.call(make);
    script.call(Call::CloneS(0));
    for n in 0..=capacity {
        script.call(Call::TryRes(n % 2));
    }
    for n in 0..=64 {
        if n % 3 != 1 {
            script.call(Call::PermitDrop(n));
        }
    }
    script.call(Call::Status);
    // The lowest free places first, at their second turn; the numbers of the first are closed.
    for n in 0..capacity {
        script.call(Call::TryRes(n % 2));
    }
    script.call(Call::DropS(0));
    script.call(Call::DropS(1));
    for n in (0..64).rev() {
        script.call_at(Call::PermitDrop(n), Turn::Earlier);
        script.call(Call::PermitSend(n, n));
    }
    script.call(Call::DropS(1));
    script.call(Call::DropS(0));
    for _ in 0..=capacity {
        script.call(Call::TryRecv(0));
    }
    script.call(Call::Status);
    script.end_history()?;
    // Permits that outlive the last receiver.
    script.call(make);
    for _ in 0..capacity {
        script.call(Call::TryRes(0));
    }
    script.call(Call::DropR(0));
    for n in 0..capacity {
        script.call(if n % 2 == 0 { Call::PermitSend(n, n) } else { Call::PermitDrop(n) });
    }
    script.call(Call::Status);
    script.end_history()
}

fn handles(script: &mut Script, make: Call) -> Going {
    script.call(make);
    for n in 0..16 {
        script.call(Call::CloneS(n));
        script.call(Call::CloneR(n));
    }
    for n in [3, 7, 0, 15] {
        script.call(Call::DropS(n));
        script.call(Call::DropR(n));
    }
    for _ in 0..5 {
        script.call(Call::CloneS(1));
        script.call(Call::CloneR(1));
    }
    // The handles that left are not those in their places, and that is told before a full table.
    for n in [3, 7, 0, 15] {
        script.call_at(Call::CloneS(n), Turn::Earlier);
        script.call_at(Call::CloneR(n), Turn::Earlier);
        script.call_at(Call::TrySend(n, 9), Turn::Earlier);
        script.call_at(Call::DropS(n), Turn::Earlier);
        script.call_at(Call::DropR(n), Turn::Earlier);
    }
    script.call(Call::Recv(15));
    script.call(Call::PollIn(0, 50));
    script.call(Call::Reserve(15));
    for n in 0..16 {
        script.call(Call::DropS(n));
        script.call(Call::DropR(n));
    }
    script.call_at(Call::CloneS(15), Turn::Later);
    script.call(Call::CancelOut(0));
    script.call(Call::DropS(15));
    script.call(Call::PollIn(0, 51));
    script.call(Call::DropR(15));
    script.call(Call::Status);
    script.end_history()
}

/// How a record of a kind is opened, used and closed.
struct Life {
    open: Call,
    touch: fn(u32) -> Call,
    close: fn(u32) -> Call,
}

const LIVES: [Life; 5] = [
    Life { open: Call::CloneS(0), touch: |n| Call::TrySend(n, n), close: Call::DropS },
    Life { open: Call::CloneR(0), touch: Call::TryRecv, close: Call::DropR },
    Life { open: Call::Recv(0), touch: |n| Call::PollIn(n, 50 + n % PLACES), close: Call::CancelIn },
    Life { open: Call::Reserve(0), touch: |n| Call::PollOut(n, 90 + n % PLACES), close: Call::CancelOut },
    Life { open: Call::TryRes(0), touch: |n| Call::PermitSend(n, n), close: Call::PermitDrop },
];

/// Places fall free in another order than they were given, some more often than others, and are given again: each at a
/// turn of its own, the lowest first. Numbers of other turns, and places that a kind does not have, reach nobody.
fn places_again(script: &mut Script, make: Call) -> Going {
    for life in &LIVES {
        script.call(make);
        for _ in 1..6 {
            script.call(life.open);
        }
        for freed in [&[2][..], &[4, 2, 3], &[3], &[2, 4, 1], &[1, 3, 2, 4], &[4]] {
            for &n in freed {
                script.call((life.close)(n));
                script.call_at((life.close)(n), Turn::Earlier);
                script.call((life.touch)(n));
            }
            script.call(life.open);
            for n in 0..6 {
                script.call_at((life.touch)(n), Turn::Earlier);
                script.call_at((life.close)(n), Turn::Later);
            }
            for _ in freed {
                script.call(life.open);
            }
            for n in 0..6 {
                script.call_at((life.close)(n), Turn::Earlier);
                script.call_at((life.touch)(n), Turn::Later);
            }
            script.call(Call::Status);
        }
        for n in 1..6 {
            script.call((life.touch)(n));
        }
        for number in [16, 18, 32, 34, 63, 16 + 64, 18 + 64, 32 + 64, 63 + 64, u32::MAX - 63, u32::MAX] {
            script.call_number((life.touch)(number));
            script.call_number((life.close)(number));
        }
        // The next queue's numbers begin anew: those of this one were never given there.
        script.call(make);
        for number in [1, 2, 3, 2 + 64, 4 + 64] {
            script.call_number((life.touch)(number));
        }
        script.call(life.open);
        script.call((life.close)(1));
        script.call_at((life.close)(1), Turn::Earlier);
        script.call(Call::Status);
        script.end_history()?;
    }
    Ok(())
}

/// One place of each kind is used so many times, and its last numbers are tried.
pub fn many_uses(lists: &mut Lists, uses: u32) -> Going {
    let script = &mut Script::new(lists);
    for life in &LIVES {
        script.call(Call::Make(1));
        // The first sender and the first receiver stay, since only they can be cloned.
        let place = u32::from(matches!(life.open, Call::CloneS(_) | Call::CloneR(_)));
        for _ in 0..uses {
            script.call(life.open);
            script.call((life.close)(place));
        }
        script.call(life.open);
        for turn in [0, 1, uses / 2, uses - 1, uses + 1, uses + 256, uses + 65536] {
            script.call_number((life.close)(place + PLACES * turn));
        }
        script.call_at((life.touch)(place), Turn::Earlier);
        script.call_at((life.touch)(place), Turn::Later);
        script.call((life.touch)(place));
        script.call(Call::Status);
        script.end_history()?;
    }
    Ok(())
}

/// More values than the queue has places pass through it, at every fill, so that a ring's start comes by everywhere.
fn ring_turns(script: &mut Script, make: Call) -> Going {
    let capacity = room(make);
    script.call(make);
    let mut value = 0;
    for turn in 0..6 {
        for _ in 0..capacity - turn.min(capacity - 1) {
            value += 1;
            script.call(Call::TrySend(0, value));
        }
        for _ in 0..capacity - capacity / (turn + 2) {
            script.call(Call::TryRecv(0));
        }
    }
    script.call(Call::Status);
    script.call(Call::DropR(0));
    script.call(Call::Status);
    script.end_history()
}

/// An unbounded queue with 63, 64 and 65 values, the ring's start at every place: refused values leave nothing behind.
fn ring_edges(script: &mut Script) -> Going {
    for taken in 0..=64 {
        script.call(Call::MakeU);
        script.call(Call::CloneS(0));
        script.call(Call::DropS(1));
        for value in 0..taken {
            script.call(Call::TrySend(0, 1000 + value));
            script.call(Call::TryRecv(0));
        }
        for value in 1..=66 {
            script.call(Call::TrySend(0, value));
        }
        script.call(Call::Status);
        // A dead sender is told before a full ring, and a place that falls free is taken once.
        script.call(Call::TrySend(1, 67));
        script.call_at(Call::TrySend(1, 67), Turn::Earlier);
        script.call_at(Call::Reserve(1), Turn::Earlier);
        script.call(Call::TryRecv(0));
        script.call(Call::TrySend(0, 68));
        script.call(Call::TrySend(0, 69));
        if taken % 2 == 0 {
            script.call(Call::DropS(0));
            for _ in 0..=64 {
                script.call(Call::TryRecv(0));
            }
        }
        script.call(Call::DropR(0));
        script.call(Call::TrySend(0, 70));
        script.call(Call::Status);
        script.end_history()?;
    }
    Ok(())
}

/// Receivers are notified one after the other while the ring fills to its end, and take from it or leave.
fn ring_fills_behind_receivers(script: &mut Script) -> Going {
    script.call(Call::MakeU);
    for n in 0..32 {
        script.call(Call::Recv(0));
        script.call(Call::PollIn(n, 100 + n));
    }
    for value in 1..=65 {
        script.call(Call::TrySend(0, value));
    }
    for n in 0..32 {
        script.call(if n % 3 == 0 { Call::CancelIn(n) } else { Call::PollIn(n, 200 + n) });
        script.call(Call::TrySend(0, 300 + n));
        script.call(Call::TrySend(0, 400 + n));
    }
    script.call(Call::Status);
    script.call(Call::DropR(0));
    script.call(Call::Status);
    script.end_history()
}
