//! The module file that declares the crate's `internal`: each file is included unchanged, and beside it in the same
//! module stand readers, which may see private fields and never write them.

#[allow(dead_code)]
pub mod arena {
    include!("../asyncband/src/internal/arena.rs");

    impl<T> Arena<T> {
        pub fn read_occupied(&self) -> impl Iterator<Item = &T> {
            self.slots.iter().filter_map(|slot| match slot {
                Slot::Occupied(value) => Some(value),
                Slot::Vacant { .. } => None,
            })
        }
    }
}

pub mod mutex {
    include!("../asyncband/src/internal/mutex.rs");
}

#[allow(dead_code)]
pub mod waitlist {
    include!("../asyncband/src/internal/waitlist.rs");

    impl<T> WaitList<T> {
        /// Everything that has a node, in line or detached, in no meaningful order.
        pub fn read_nodes(&self) -> impl Iterator<Item = &T> {
            self.nodes.read_occupied().map(|node| &node.value)
        }

        /// What stands in line, from head to tail. The bound is never reached by an unharmed list (an operation has
        /// one node at most); it keeps a list whose links a planted slip has bent into a ring from hanging the reader.
        pub fn read_line(&self) -> impl Iterator<Item = &T> {
            let mut next = self.head;
            std::iter::from_fn(move || {
                let node = self.nodes.get(next?.slot())?;
                next = node.links.and_then(|links| links.next);
                Some(&node.value)
            })
            .take(99)
        }
    }
}
