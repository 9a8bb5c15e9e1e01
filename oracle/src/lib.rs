//! The judge of the call program: the queue of asyncband 0.7.4, its source unchanged, answering call lists.
//!
//! The crate's files stand byte for byte under `asyncband/`. They name each other as `crate::internal::..` and
//! `crate::mpmc::..`, so these two modules stand at the root here. `machine` drives real handles, permits and futures
//! of the crate, one call at a time; `wakers` logs what the crate does with the tokens it was given.

pub mod calls;
pub mod internal;
pub mod machine;
pub mod mpmc;
pub mod twin;
pub mod wakers;
