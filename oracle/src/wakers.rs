//! Wakers whose identity is a token, and the log of what becomes of the copies that the queue keeps.
//!
//! A waker's data pointer is the token itself and there is one table of functions, so `Waker::will_wake` is equality
//! of tokens. Nothing is ever read through the pointer.

use std::cell::RefCell;
use std::mem::ManuallyDrop;
use std::ptr;
use std::task::RawWaker;
use std::task::RawWakerVTable;
use std::task::Waker;

/// What the crate did during one call.
#[derive(Default)]
pub struct Log {
    /// Tokens of kept wakers that were woken, in order.
    pub woken: Vec<u32>,
    /// Tokens of kept wakers that were dropped without a wake, in order.
    pub retired: Vec<u32>,
    /// How many values were destroyed.
    pub destroyed: u32,
}

thread_local! {
    static LOG: RefCell<Log> = const { RefCell::new(Log { woken: Vec::new(), retired: Vec::new(), destroyed: 0 }) };
}

pub fn with_log<R>(f: impl FnOnce(&Log) -> R) -> R {
    LOG.with_borrow(f)
}

pub fn clear_log() {
    LOG.with_borrow_mut(|log| {
        log.woken.clear();
        log.retired.clear();
        log.destroyed = 0;
    });
}

/// A value as the queue holds it. Its destructor is what makes a discarded value visible.
pub struct Value(u32);

impl Value {
    pub fn new(number: u32) -> Self {
        Value(number)
    }

    pub fn number(&self) -> u32 {
        self.0
    }

    /// Takes the number out of a value that was delivered or handed back: nothing is destroyed.
    pub fn take(self) -> u32 {
        ManuallyDrop::new(self).0
    }
}

impl Drop for Value {
    fn drop(&mut self) {
        LOG.with_borrow_mut(|log| log.destroyed += 1);
    }
}

/// A static, not a constant: `will_wake` compares its address.
static TABLE: RawWakerVTable = RawWakerVTable::new(clone, wake, wake_by_ref, let_go);

fn clone(token: *const ()) -> RawWaker {
    RawWaker::new(token, &TABLE)
}

fn wake(token: *const ()) {
    wake_by_ref(token);
}

fn wake_by_ref(token: *const ()) {
    LOG.with_borrow_mut(|log| log.woken.push(token.addr() as u32));
}

fn let_go(token: *const ()) {
    LOG.with_borrow_mut(|log| log.retired.push(token.addr() as u32));
}

/// The caller's own waker. It is never dropped, so that only copies kept by the queue reach the log.
pub fn waker(token: u32) -> ManuallyDrop<Waker> {
    // SAFETY: the table's functions keep the contract of `RawWakerVTable`: the data pointer is a plain number that is
    // never dereferenced and owns nothing, so every function is sound for it at any time. The log is thread-local and
    // no waker leaves its thread: the wakers live in queues, and those in a `Machine`, which is not `Send`.
    ManuallyDrop::new(unsafe { Waker::new(ptr::without_provenance(token as usize), &TABLE) })
}

pub fn token(waker: &Waker) -> u32 {
    waker.data().addr() as u32
}
