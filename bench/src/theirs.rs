//! The crate's part: the same loops as bench/loops.txt, over its own handles, permits and futures.

use std::array;
use std::future::Future;
use std::hint::black_box;
use std::pin::Pin;
use std::task::Context;
use std::task::Poll;

use oracle::machine::Machine;
use oracle::mpmc::bounded::bounded;
use oracle::wakers::waker;

use crate::calls_of::History;

pub fn pairs(rounds: u64, capacity: u8) {
    let (sender, receiver) = bounded::<u32>(capacity.into());
    for _ in 0..rounds {
        let _ = black_box(&sender).try_send(black_box(7));
        let _ = black_box(black_box(&receiver).try_recv());
    }
}

pub fn reserves(rounds: u64, open: u8) {
    let (sender, receiver) = bounded::<u32>(8);
    let _open: Vec<_> = (0..open).map(|_| sender.reserve()).collect();
    let waker = waker(90);
    let mut context = Context::from_waker(&waker);
    for _ in 0..rounds {
        let mut future = std::pin::pin!(black_box(&sender).reserve());
        if let Poll::Ready(Ok(permit)) = future.as_mut().poll(&mut context) {
            let _ = permit.send(black_box(7));
        }
        let _ = black_box(black_box(&receiver).try_recv());
    }
}

/// Futures that wait, each in a place that is used again.
struct Waiting<F>([Pin<Box<Option<F>>>; 32]);

impl<F: Future> Waiting<F> {
    fn new() -> Self {
        Waiting(array::from_fn(|_| Box::pin(None)))
    }

    fn poll(&mut self, n: usize, token: u32) -> Poll<F::Output> {
        let waker = waker(token);
        let mut context = Context::from_waker(&waker);
        self.0[n].as_mut().as_pin_mut().map_or(Poll::Pending, |future| future.poll(&mut context))
    }

    /// A new one in the place of one that ended, polled once.
    fn wait(&mut self, n: usize, future: F, token: u32) {
        self.0[n].set(Some(future));
        assert!(self.poll(n, token).is_pending());
    }
}

pub fn full(rounds: u64, waiting: u8) {
    let (sender, receiver) = bounded::<u32>(8);
    (0..8).for_each(|value| sender.try_send(value).expect("there is room"));
    let mut line = Waiting::new();
    (0..waiting.into()).for_each(|n| line.wait(n, sender.send(7), 90));
    for i in 0..rounds {
        let n = (i % u64::from(waiting)) as usize;
        let _ = black_box(black_box(&receiver).try_recv());
        assert!(line.poll(n, 90).is_ready());
        line.wait(n, black_box(&sender).send(black_box(7)), 91);
    }
}

pub fn notified(rounds: u64, waiting: u8) {
    let (sender, receiver) = bounded::<u32>(8);
    let mut line = Waiting::new();
    (0..waiting.into()).for_each(|n| line.wait(n, receiver.recv(), 50));
    for i in 0..rounds {
        let n = (i % u64::from(waiting)) as usize;
        let _ = black_box(&sender).try_send(black_box(7));
        assert!(black_box(line.poll(n, 50)).is_ready());
        line.wait(n, black_box(&receiver).recv(), 51);
    }
}

/// The crate behind the comparison's tables of handles and futures, which stand for record numbers; they cost time too.
pub fn history(rounds: u64, history: &History) {
    black_box(history).run(&mut Machine::new(), rounds as usize, |answer| {
        black_box(answer);
    });
}

pub fn by_name(name: &str, rounds: u64, calls: &History) {
    match name {
        "p" => pairs(rounds, 8),
        "r" => reserves(rounds, 0),
        "f" => full(rounds, 8),
        "n" => notified(rounds, 8),
        _ => history(rounds, calls),
    }
}
