//! The module file that declares the crate's `mpmc`, with readers of private state as in `internal`.

mod error {
    include!("../asyncband/src/mpmc/error.rs");
}

pub mod bounded {
    include!("../asyncband/src/mpmc/bounded.rs");

    /// What a sender's handle points at. Holding it counts as no handle: the crate counts those itself.
    pub fn read_shared<T>(sender: &BoundedSender<T>) -> Arc<Shared<T>> {
        sender.shared.clone()
    }
}

pub mod queue {
    include!("../asyncband/src/mpmc/queue.rs");

    /// What the crate's own state shows between two calls.
    pub struct Counts {
        pub queued: usize,
        /// Nothing on an unbounded queue.
        pub free_room: Option<usize>,
        pub granted: usize,
        pub senders_in_line: usize,
    }

    pub fn read_counts<T>(shared: &Shared<T>) -> Counts {
        let state = shared.state.lock();
        let is_granted = |waiter: &&SendWaiter| matches!(waiter, SendWaiter::Granted);
        Counts {
            queued: state.values.len(),
            free_room: state.available,
            granted: state.send_waiters.read_nodes().filter(is_granted).count(),
            senders_in_line: state.send_waiters.read_line().count(),
        }
    }

    /// The contents of the state in order: values, tokens of senders in line, tokens of receivers in line.
    pub fn read_contents<T>(
        shared: &Shared<T>,
        mut value: impl FnMut(&T),
        mut sender: impl FnMut(Option<&Waker>),
        mut receiver: impl FnMut(Option<&Waker>),
    ) {
        let state = shared.state.lock();
        state.values.iter().for_each(&mut value);
        state.send_waiters.read_line().for_each(|waiter| match waiter {
            SendWaiter::Waiting(waker) => sender(Some(waker)),
            SendWaiter::Granted => sender(None),
        });
        state.recv_waiters.read_line().for_each(|waiter| match waiter {
            RecvWaiter::Waiting(waker) => receiver(Some(waker)),
            RecvWaiter::Notified => receiver(None),
        });
    }
}

pub mod unbounded {
    include!("../asyncband/src/mpmc/unbounded.rs");

    /// As of the bounded queue.
    pub fn read_shared<T>(sender: &UnboundedSender<T>) -> Arc<Shared<T>> {
        sender.shared.clone()
    }
}

pub use bounded::BoundedReceiver;
pub use bounded::BoundedSender;
pub use bounded::bounded;
pub use error::RecvError;
pub use error::SendError;
pub use error::TryRecvError;
pub use error::TrySendError;
pub use queue::Permit;
pub use unbounded::UnboundedReceiver;
pub use unbounded::UnboundedSender;
pub use unbounded::unbounded;
