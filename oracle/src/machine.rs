//! One call at a time on the real queue, bounded or unbounded. Record numbers, limits and refusals (20 to 28) are this
//! file's, written from the specification; every other answer is what the crate's own handles, permits and futures did.

use std::future::Future;
use std::pin::Pin;
use std::sync::Arc;
use std::task::Context;
use std::task::Poll;

use crate::calls::Call;
use crate::calls::PLACES;
use crate::calls::Record;
use crate::mpmc::BoundedReceiver;
use crate::mpmc::BoundedSender;
use crate::mpmc::Permit;
use crate::mpmc::RecvError;
use crate::mpmc::SendError;
use crate::mpmc::TryRecvError;
use crate::mpmc::TrySendError;
use crate::mpmc::UnboundedReceiver;
use crate::mpmc::UnboundedSender;
use crate::mpmc::bounded;
use crate::mpmc::queue::Shared;
use crate::mpmc::queue::read_contents;
use crate::mpmc::queue::read_counts;
use crate::mpmc::unbounded;
use crate::wakers;
use crate::wakers::Value;

#[derive(Clone, Copy, Debug, Eq, PartialEq)]
pub enum Code {
    Done = 0,
    Value = 1,
    Given = 2,
    Pending = 3,
    Status = 4,
    Full = 10,
    Empty = 11,
    Disconnected = 12,
    BadCapacity = 20,
    NoHandle = 21,
    InUse = 22,
    NoRoom = 23,
    BadLine = 24,
    RingFull = 25,
    Closed = 26,
    WrongKind = 28,
}

impl Code {
    pub fn is_refusal(self) -> bool {
        self as u32 >= Code::BadCapacity as u32
    }
}

#[derive(Clone, Copy, Debug, Eq, PartialEq)]
pub enum Field {
    None,
    Number(u32),
    /// The second is nothing on an unbounded queue, which has no free room to count.
    Counts([Option<u32>; 6]),
}

/// Code and field of an answer. Its wakes and its retired token stand in the log of `wakers` until the next call.
#[derive(Clone, Copy, Debug, Eq, PartialEq)]
pub struct Answer {
    pub code: Code,
    pub field: Field,
}

fn answer(code: Code, field: Field) -> Answer {
    Answer { code, field }
}

/// Turns of a place, 0 to 67108863: a number with the last of them still has 32 bits.
const TURNS: u32 = 1 << 26;

fn place_of(number: u32) -> usize {
    (number % PLACES) as usize
}

fn turn_of(number: u32) -> u32 {
    number / PLACES
}

/// The records of one kind. A record's number is its place + 64 x its turn, the turn counting how often that place was
/// used before. A new record gets the lowest free place that has a turn left.
struct Table<T, const LIMIT: usize> {
    records: [Option<T>; LIMIT],
    /// How many turns of each place are over: the turn of the record there, or of the next one.
    turns: [u32; LIMIT],
    /// The places with a record, one bit each, and those whose last turn is closed.
    live: u64,
    spent: u64,
}

impl<T, const LIMIT: usize> Table<T, LIMIT> {
    fn new() -> Self {
        Table { records: [const { None }; LIMIT], turns: [0; LIMIT], live: 0, spent: 0 }
    }

    fn room(&self) -> Result<usize, Code> {
        let place = (self.live | self.spent).trailing_ones() as usize;
        if place < LIMIT { Ok(place) } else { Err(Code::NoRoom) }
    }

    fn open(&mut self, record: T) -> Result<Answer, Code> {
        let place = self.room()?;
        self.records[place] = Some(record);
        self.live |= 1 << place;
        Ok(answer(Code::Given, Field::Number(self.number_at(place))))
    }

    /// The number of the record at a place, or of the next one there. A place that this kind does not have was never
    /// used.
    fn number_at(&self, place: usize) -> u32 {
        place as u32 + PLACES * self.turns.get(place).copied().unwrap_or(0)
    }

    /// The place of the live record with this number.
    fn find(&self, number: u32) -> Result<usize, Code> {
        let place = place_of(number);
        let is_live = self.live >> place & 1 == 1;
        if is_live && self.turns[place] == turn_of(number) { Ok(place) } else { Err(self.dead(number)) }
    }

    /// What a number answers that is not live: it was given and is closed, or it was never given.
    fn dead(&self, number: u32) -> Code {
        match self.turns.get(place_of(number)) {
            Some(&over) if turn_of(number) < over => Code::Closed,
            _ => Code::NoHandle,
        }
    }

    fn get(&self, number: u32) -> Result<&T, Code> {
        self.records[self.find(number)?].as_ref().ok_or(Code::NoHandle)
    }

    fn get_mut(&mut self, number: u32) -> Result<&mut T, Code> {
        let place = self.find(number)?;
        self.records[place].as_mut().ok_or(Code::NoHandle)
    }

    fn close(&mut self, number: u32) -> Result<T, Code> {
        let place = self.find(number)?;
        self.live &= !(1 << place);
        self.turns[place] += 1;
        if self.turns[place] == TURNS {
            self.spent |= 1 << place;
        }
        self.records[place].take().ok_or(Code::NoHandle)
    }

    /// Ends every record. What is left is a table whose places were never used.
    fn clear(&mut self, mut end: impl FnMut(T)) {
        while self.live != 0 {
            let record = self.records[self.live.trailing_zeros() as usize].take();
            self.live &= self.live - 1;
            record.into_iter().for_each(&mut end);
        }
        self.spent = 0;
        self.turns = [0; LIMIT];
    }

    fn each(&self) -> impl Iterator<Item = (u32, &T)> {
        (0..).zip(&self.records).filter_map(|(place, record)| Some((self.number_at(place), record.as_ref()?)))
    }

    /// The turns of the places up to the last that was used before.
    fn used(&self) -> &[u32] {
        let end = self.turns.iter().rposition(|&turn| turn > 0).map_or(0, |place| place + 1);
        &self.turns[..end]
    }
}

/// A handle of the crate that others borrow for as long as they please: what rustc's borrow checker would forbid (the
/// drop of a borrowed handle) is code 22 here.
struct Handle<H>(*mut H);

impl<H> Handle<H> {
    fn new(handle: H) -> Self {
        Handle(Box::into_raw(Box::new(handle)))
    }

    fn borrow(&self) -> &'static H {
        // SAFETY: the box is reclaimed in `reclaim` alone, which consumes the only pointer to it; `Queue` calls that
        // when no permit or operation of this handle is left, and lets no borrow out of its records.
        unsafe { &*self.0 }
    }

    fn reclaim(self) -> H {
        // SAFETY: the pointer came from `Box::into_raw` and is given up here; nothing borrows it any more, see above.
        *unsafe { Box::from_raw(self.0) }
    }
}

/// Which queue a make begins.
#[derive(Clone, Copy)]
enum Kind {
    Bounded(usize),
    Unbounded,
}

#[derive(Clone)]
enum Sender {
    Bounded(BoundedSender<Value>),
    Unbounded(UnboundedSender<Value>),
}

impl Sender {
    /// What only a bounded queue's sender can do is refused to the other kind's, before 23 and 12 are looked for. That it
    /// goes before 23 no history can show, since the other kind never has an outgoing operation.
    fn bounded(&self) -> Result<&BoundedSender<Value>, Code> {
        match self {
            Sender::Bounded(sender) => Ok(sender),
            Sender::Unbounded(_) => Err(Code::WrongKind),
        }
    }
}

#[derive(Clone)]
enum Receiver {
    Bounded(BoundedReceiver<Value>),
    Unbounded(UnboundedReceiver<Value>),
}

impl Receiver {
    fn try_recv(&self) -> Result<Value, TryRecvError> {
        match self {
            Receiver::Bounded(receiver) => receiver.try_recv(),
            Receiver::Unbounded(receiver) => receiver.try_recv(),
        }
    }

    fn recv(&'static self) -> Future1<Result<Value, RecvError>> {
        match self {
            Receiver::Bounded(receiver) => Box::pin(receiver.recv()),
            Receiver::Unbounded(receiver) => Box::pin(receiver.recv()),
        }
    }
}

/// A new queue of the crate: its state, its first sender and its first receiver.
fn new_queue(kind: Kind) -> (Arc<Shared<Value>>, Sender, Receiver) {
    match kind {
        Kind::Bounded(capacity) => {
            let (sender, receiver) = bounded::bounded(capacity);
            (bounded::read_shared(&sender), Sender::Bounded(sender), Receiver::Bounded(receiver))
        }
        Kind::Unbounded => {
            let (sender, receiver) = unbounded::unbounded();
            (unbounded::read_shared(&sender), Sender::Unbounded(sender), Receiver::Unbounded(receiver))
        }
    }
}

/// Values that an unbounded queue may hold, where the crate's grows.
const MOST_VALUES: usize = 64;

type Future1<T> = Pin<Box<dyn Future<Output = T>>>;

enum OutgoingFuture {
    Reserve(Future1<Result<Permit<'static, Value>, SendError<()>>>),
    Send(Future1<Result<(), SendError<Value>>>),
}

struct Outgoing {
    owner: u32,
    /// The value of a send, for `Machine::describe` only.
    value: Option<u32>,
    /// The token of the latest poll, if that answered Pending.
    pending: Option<u32>,
    future: OutgoingFuture,
}

struct Incoming {
    owner: u32,
    /// The token of the latest poll, if that answered Pending.
    pending: Option<u32>,
    future: Future1<Result<Value, RecvError>>,
}

struct PermitRecord {
    owner: u32,
    permit: Permit<'static, Value>,
}

struct Queue {
    /// For reading only. It stands for no handle and outlives them all, since status answers after the last.
    shared: Arc<Shared<Value>>,
    senders: Table<Handle<Sender>, 16>,
    receivers: Table<Handle<Receiver>, 16>,
    outgoing: Table<Outgoing, 32>,
    incoming: Table<Incoming, 32>,
    permits: Table<PermitRecord, 64>,
}

impl Queue {
    fn new(kind: Kind) -> Self {
        let (shared, sender, receiver) = new_queue(kind);
        let mut queue = Queue {
            shared,
            senders: Table::new(),
            receivers: Table::new(),
            outgoing: Table::new(),
            incoming: Table::new(),
            permits: Table::new(),
        };
        queue.open_first(sender, receiver);
        queue
    }

    fn open_first(&mut self, sender: Sender, receiver: Receiver) {
        // No place of the tables was used, so both get number 0.
        let _ = self.senders.open(Handle::new(sender));
        let _ = self.receivers.open(Handle::new(receiver));
    }

    /// A new queue in the place of this one, whose tables are used again.
    fn renew(&mut self, kind: Kind) {
        self.close_all();
        let (shared, sender, receiver) = new_queue(kind);
        self.shared = shared;
        self.open_first(sender, receiver);
    }

    /// Borrowers first, then the handles they borrow.
    fn close_all(&mut self) {
        self.outgoing.clear(drop);
        self.incoming.clear(drop);
        self.permits.clear(drop);
        self.senders.clear(|sender| drop(sender.reclaim()));
        self.receivers.clear(|receiver| drop(receiver.reclaim()));
    }

    fn call(&mut self, call: Call) -> Result<Answer, Code> {
        match call {
            Call::Make(_) | Call::MakeU => Err(Code::BadCapacity),
            Call::CloneS(n) => {
                let sender = self.senders.get(n)?.borrow();
                self.senders.room()?;
                self.senders.open(Handle::new(sender.clone()))
            }
            Call::CloneR(n) => {
                let receiver = self.receivers.get(n)?.borrow();
                self.receivers.room()?;
                self.receivers.open(Handle::new(receiver.clone()))
            }
            Call::TrySend(n, value) => self.try_send(n, value),
            Call::TryRes(n) => match self.senders.get(n)?.borrow().bounded()?.try_reserve() {
                Ok(permit) => self.permits.open(PermitRecord { owner: n, permit }),
                Err(TrySendError::Full(())) => Ok(answer(Code::Full, Field::None)),
                Err(TrySendError::Disconnected(())) => Ok(answer(Code::Disconnected, Field::None)),
            },
            Call::Reserve(n) => {
                let future = OutgoingFuture::Reserve(Box::pin(self.senders.get(n)?.borrow().bounded()?.reserve()));
                self.outgoing.open(Outgoing { owner: n, value: None, pending: None, future })
            }
            Call::Send(n, value) => {
                let sender = self.senders.get(n)?.borrow().bounded()?;
                self.outgoing.room()?;
                let future = OutgoingFuture::Send(Box::pin(sender.send(Value::new(value))));
                self.outgoing.open(Outgoing { owner: n, value: Some(value), pending: None, future })
            }
            Call::Recv(n) => {
                let future = self.receivers.get(n)?.borrow().recv();
                self.incoming.open(Incoming { owner: n, pending: None, future })
            }
            Call::PollOut(n, token) => self.poll_out(n, token),
            Call::CancelOut(n) => {
                drop(self.outgoing.close(n)?);
                Ok(answer(Code::Done, Field::None))
            }
            Call::PermitSend(n, value) => Ok(match self.permits.close(n)?.permit.send(Value::new(value)) {
                Ok(()) => answer(Code::Done, Field::None),
                Err(error) => answer(Code::Disconnected, Field::Number(error.into_inner().take())),
            }),
            Call::PermitDrop(n) => {
                drop(self.permits.close(n)?);
                Ok(answer(Code::Done, Field::None))
            }
            Call::TryRecv(n) => Ok(match self.receivers.get(n)?.borrow().try_recv() {
                Ok(value) => answer(Code::Value, Field::Number(value.take())),
                Err(TryRecvError::Empty) => answer(Code::Empty, Field::None),
                Err(TryRecvError::Disconnected) => answer(Code::Disconnected, Field::None),
            }),
            Call::PollIn(n, token) => self.poll_in(n, token),
            Call::CancelIn(n) => {
                drop(self.incoming.close(n)?);
                Ok(answer(Code::Done, Field::None))
            }
            Call::DropS(n) => {
                self.senders.get(n)?;
                let borrows = |owner: u32| owner == n;
                if self.permits.each().any(|(_, permit)| borrows(permit.owner))
                    || self.outgoing.each().any(|(_, operation)| borrows(operation.owner))
                {
                    return Err(Code::InUse);
                }
                drop(self.senders.close(n)?.reclaim());
                Ok(answer(Code::Done, Field::None))
            }
            Call::DropR(n) => {
                self.receivers.get(n)?;
                if self.incoming.each().any(|(_, operation)| operation.owner == n) {
                    return Err(Code::InUse);
                }
                drop(self.receivers.close(n)?.reclaim());
                let discarded = wakers::with_log(|log| log.destroyed);
                Ok(answer(Code::Done, Field::Number(discarded)))
            }
            Call::Status => Ok(answer(Code::Status, Field::Counts(self.status()))),
        }
    }

    fn try_send(&mut self, n: u32, value: u32) -> Result<Answer, Code> {
        let sent = match self.senders.get(n)?.borrow() {
            Sender::Bounded(sender) => sender.try_send(Value::new(value)),
            Sender::Unbounded(sender) => {
                // Code 12 goes before 25, and does so here: without a receiver the queue holds nothing. For the same reason
                // no history can show which of them is looked for first.
                if read_counts(&self.shared).queued >= MOST_VALUES {
                    return Err(Code::RingFull);
                }
                sender.send(Value::new(value)).map_err(|error| TrySendError::Disconnected(error.into_inner()))
            }
        };
        Ok(match sent {
            Ok(()) => answer(Code::Done, Field::None),
            Err(TrySendError::Full(value)) => answer(Code::Full, Field::Number(value.take())),
            Err(TrySendError::Disconnected(value)) => answer(Code::Disconnected, Field::Number(value.take())),
        })
    }

    fn poll_out(&mut self, n: u32, token: u32) -> Result<Answer, Code> {
        let waker = wakers::waker(token);
        let mut context = Context::from_waker(&waker);
        let operation = self.outgoing.get_mut(n)?;
        let owner = operation.owner;
        let ready = match &mut operation.future {
            OutgoingFuture::Reserve(future) => match future.as_mut().poll(&mut context) {
                Poll::Pending => None,
                Poll::Ready(Ok(permit)) => {
                    let given = self.permits.open(PermitRecord { owner, permit });
                    // Permits run short only after 67108864 uses of one place, which no list has. Here the crate's operation would
                    // have ended already where 23 must leave it as it is: then no answer is given.
                    Some(given.expect("oracle failure: permits ran short"))
                }
                Poll::Ready(Err(_)) => Some(answer(Code::Disconnected, Field::None)),
            },
            OutgoingFuture::Send(future) => match future.as_mut().poll(&mut context) {
                Poll::Pending => None,
                Poll::Ready(Ok(())) => Some(answer(Code::Done, Field::None)),
                Poll::Ready(Err(error)) => Some(answer(Code::Disconnected, Field::Number(error.into_inner().take()))),
            },
        };
        let Some(ready) = ready else {
            operation.pending = Some(token);
            return Ok(answer(Code::Pending, Field::None));
        };
        drop(self.outgoing.close(n)?);
        Ok(ready)
    }

    fn poll_in(&mut self, n: u32, token: u32) -> Result<Answer, Code> {
        let waker = wakers::waker(token);
        let mut context = Context::from_waker(&waker);
        let operation = self.incoming.get_mut(n)?;
        let ready = match operation.future.as_mut().poll(&mut context) {
            Poll::Pending => {
                operation.pending = Some(token);
                return Ok(answer(Code::Pending, Field::None));
            }
            Poll::Ready(Ok(value)) => answer(Code::Value, Field::Number(value.take())),
            Poll::Ready(Err(RecvError::Disconnected)) => answer(Code::Disconnected, Field::None),
        };
        drop(self.incoming.close(n)?);
        Ok(ready)
    }

    /// Counts 1, 2, 4 and 5 are read in the crate's state; live permits and operations found Pending are counted here.
    fn status(&self) -> [Option<u32>; 6] {
        let counts = read_counts(&self.shared);
        let pending = self.incoming.each().filter(|(_, operation)| operation.pending.is_some()).count();
        let places = [
            Some(counts.queued),
            counts.free_room,
            Some(self.permits.live.count_ones() as usize),
            Some(counts.granted),
            Some(counts.senders_in_line),
            Some(pending),
        ];
        places.map(|count| count.map(|count| count as u32))
    }
}

impl Drop for Queue {
    fn drop(&mut self) {
        self.close_all();
    }
}

/// What a call list is run on: the queue of its latest good make, if there was one.
#[derive(Default)]
pub struct Machine {
    queue: Option<Box<Queue>>,
}

impl Machine {
    pub fn new() -> Self {
        Machine { queue: None }
    }

    pub fn answer(&mut self, call: Call) -> Answer {
        wakers::clear_log();
        let given = match (call, &mut self.queue) {
            (Call::Make(capacity), _) => self.make(capacity),
            (Call::MakeU, _) => self.begin(Kind::Unbounded),
            (_, None) => Err(Code::NoHandle),
            (_, Some(queue)) => queue.call(call),
        };
        wakers::with_log(|log| {
            // What the answer's form takes for granted of the crate. It has never failed; if it does, no answer is given.
            assert!(log.retired.len() <= 1, "oracle failure: {call} retired {:?}", log.retired);
            let may_destroy = matches!(call, Call::DropR(_) | Call::CancelOut(_));
            assert!(may_destroy || log.destroyed == 0, "oracle failure: {call} destroyed {} values", log.destroyed);
        });
        given.unwrap_or_else(|code| answer(code, Field::None))
    }

    fn make(&mut self, capacity: u32) -> Result<Answer, Code> {
        if !(1..=64).contains(&capacity) {
            return Err(Code::BadCapacity);
        }
        self.begin(Kind::Bounded(capacity as usize))
    }

    fn begin(&mut self, kind: Kind) -> Result<Answer, Code> {
        match &mut self.queue {
            Some(queue) => queue.renew(kind),
            None => self.queue = Some(Box::new(Queue::new(kind))),
        }
        // What the end of the older queue woke and destroyed belongs to no answer.
        wakers::clear_log();
        Ok(answer(Code::Done, Field::None))
    }

    /// The live places of a kind, one bit each.
    pub fn live(&self, record: Record) -> u64 {
        self.queue.as_ref().map_or(0, |queue| match record {
            Record::Sender => queue.senders.live,
            Record::Receiver => queue.receivers.live,
            Record::Outgoing => queue.outgoing.live,
            Record::Incoming => queue.incoming.live,
            Record::Permit => queue.permits.live,
        })
    }

    /// The number of the record at a place of its kind, or of the next one there.
    pub fn number_at(&self, record: Record, place: u32) -> u32 {
        let at = place as usize;
        self.queue.as_ref().map_or(place, |queue| match record {
            Record::Sender => queue.senders.number_at(at),
            Record::Receiver => queue.receivers.number_at(at),
            Record::Outgoing => queue.outgoing.number_at(at),
            Record::Incoming => queue.incoming.number_at(at),
            Record::Permit => queue.permits.number_at(at),
        })
    }

    /// Writes down what later answers can depend on. Two states with equal descriptions answer alike as long as the
    /// tokens of operations polled to Pending differ from each other: then a token in line says whose it is, and an
    /// operation that was Pending and is not in line was granted, notified, or its line was emptied.
    pub fn describe(&self, out: &mut Vec<u32>) {
        const END: u32 = u32::MAX;
        out.clear();
        let Some(queue) = &self.queue else { return };
        // No free room is written as a number that none can be, which tells the kinds apart.
        out.extend(queue.status().map(|count| count.unwrap_or(END)));
        let mut lines = [vec![], vec![]];
        let [senders, receivers] = &mut lines;
        let token = |waker: Option<&_>| waker.map_or(END, wakers::token);
        read_contents(
            &queue.shared,
            |value| out.push(value.number()),
            |waker| senders.push(token(waker)),
            |waker| receivers.push(token(waker)),
        );
        for line in lines {
            out.push(END);
            out.extend(line);
        }
        out.push(END);
        out.extend([queue.senders.live as u32, queue.receivers.live as u32]);
        for (n, operation) in queue.outgoing.each() {
            out.extend([n, operation.owner, operation.value.unwrap_or(END), operation.pending.unwrap_or(END)]);
        }
        out.push(END);
        for (n, operation) in queue.incoming.each() {
            out.extend([n, operation.owner, operation.pending.unwrap_or(END)]);
        }
        out.push(END);
        for (n, permit) in queue.permits.each() {
            out.extend([n, permit.owner]);
        }
        let (handles, operations) =
            ([queue.senders.used(), queue.receivers.used()], [queue.outgoing.used(), queue.incoming.used()]);
        for turns in handles.into_iter().chain(operations).chain([queue.permits.used()]) {
            out.push(END);
            out.extend(turns);
        }
    }
}

#[cfg(test)]
mod tests {
    use super::*;

    fn open<const LIMIT: usize>(table: &mut Table<(), LIMIT>) -> Result<u32, Code> {
        table.open(()).map(|given| match given.field {
            Field::Number(number) => number,
            _ => panic!("{given:?}"),
        })
    }

    /// No list is long enough to come here.
    #[test]
    fn a_place_whose_last_turn_is_closed_is_not_given_again() {
        let mut table = Table::<(), 2>::new();
        table.turns = [TURNS - 1, 5];
        assert_eq!(open(&mut table), Ok(u32::MAX - 63));
        assert_eq!(table.close(u32::MAX - 63), Ok(()));
        assert_eq!(open(&mut table), Ok(1 + 64 * 5));
        assert_eq!(open(&mut table), Err(Code::NoRoom));
        assert_eq!(table.get(u32::MAX - 63), Err(Code::Closed));
        assert_eq!(table.close(1 + 64 * 5), Ok(()));
        assert_eq!(open(&mut table), Ok(1 + 64 * 6));
        table.clear(drop);
        assert_eq!((open(&mut table), open(&mut table)), (Ok(0), Ok(1)));
    }
}
