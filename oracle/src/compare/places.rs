//! Calls by place. The generators name records by their places, and the numbers that these have at the time are put in.

use oracle::calls::Call;
use oracle::calls::PLACES;
use oracle::machine::Machine;

use crate::lists::Going;
use crate::lists::Lists;

/// Which of a place's numbers is meant.
#[derive(Clone, Copy)]
pub enum Turn {
    /// That of the record there, or of the next one if the place is free.
    Present,
    /// The one before, which is closed.
    Earlier,
    /// The one after, which was not given yet.
    Later,
}

/// The call with the number that its place has on this machine, or nothing if no turn of the place is over. A number that
/// is no place stays as it is.
pub fn numbered(machine: &Machine, mut call: Call, turn: Turn) -> Option<Call> {
    if let Some((record, number)) = call.named()
        && *number < PLACES
    {
        let present = machine.number_at(record, *number);
        *number = match turn {
            Turn::Present => present,
            Turn::Earlier => present.checked_sub(PLACES)?,
            Turn::Later => present.checked_add(PLACES)?,
        };
    }
    Some(call)
}

/// A history written call by call, its records named by place.
pub struct Script<'a, 'b> {
    lists: &'a mut Lists<'b>,
    machine: Machine,
}

impl<'a, 'b> Script<'a, 'b> {
    pub fn new(lists: &'a mut Lists<'b>) -> Self {
        Script { lists, machine: Machine::new() }
    }

    pub fn call(&mut self, call: Call) {
        self.call_at(call, Turn::Present);
    }

    pub fn call_at(&mut self, call: Call, turn: Turn) {
        if let Some(call) = numbered(&self.machine, call, turn) {
            self.call_number(call);
        }
    }

    /// The call as it stands, with a number and not a place.
    pub fn call_number(&mut self, call: Call) {
        self.lists.call(call);
        self.machine.answer(call);
    }

    pub fn end_history(&mut self) -> Going {
        self.lists.end_history()
    }
}
