//! The calls, and how a line is read and written. What a line may hold is decided by the specification, not by the
//! crate.

use std::fmt;

#[derive(Clone, Copy, Debug, Eq, PartialEq)]
pub enum Call {
    Make(u32),
    MakeU,
    CloneS(u32),
    CloneR(u32),
    TrySend(u32, u32),
    TryRes(u32),
    Reserve(u32),
    Send(u32, u32),
    Recv(u32),
    PollOut(u32, u32),
    CancelOut(u32),
    PermitSend(u32, u32),
    PermitDrop(u32),
    TryRecv(u32),
    PollIn(u32, u32),
    CancelIn(u32),
    DropS(u32),
    DropR(u32),
    Status,
}

/// The kinds of record that have numbers.
#[derive(Clone, Copy, Debug, Eq, Hash, PartialEq)]
pub enum Record {
    Sender,
    Receiver,
    Outgoing,
    Incoming,
    Permit,
}

/// A record's number is its place + 64 x its turn.
pub const PLACES: u32 = 64;

/// Bytes of the longest line that may be read, without its LF.
pub const LONGEST_LINE: usize = 64;

const CAPACITY_OF_BARE_MAKE: u32 = 8;

/// The call that a line (without its LF) names, or nothing for a line that departs from the form.
pub fn read(line: &[u8]) -> Option<Call> {
    if line.len() > LONGEST_LINE {
        return None;
    }
    let mut parts = line.split(|&byte| byte == b' ');
    let name = parts.next()?;
    let mut numbers = [0; 2];
    let mut count = 0;
    for part in parts {
        *numbers.get_mut(count)? = read_number(part)?;
        count += 1;
    }
    Some(match (name, &numbers[..count]) {
        (b"make", []) => Call::Make(CAPACITY_OF_BARE_MAKE),
        (b"make", &[capacity]) => Call::Make(capacity),
        (b"make-u", []) => Call::MakeU,
        (b"clone-s", &[n]) => Call::CloneS(n),
        (b"clone-r", &[n]) => Call::CloneR(n),
        (b"try-send", &[n, value]) => Call::TrySend(n, value),
        (b"try-res", &[n]) => Call::TryRes(n),
        (b"reserve", &[n]) => Call::Reserve(n),
        (b"send", &[n, value]) => Call::Send(n, value),
        (b"recv", &[n]) => Call::Recv(n),
        (b"poll-out", &[n, token]) => Call::PollOut(n, token),
        (b"cancel-out", &[n]) => Call::CancelOut(n),
        (b"permit-send", &[n, value]) => Call::PermitSend(n, value),
        (b"permit-drop", &[n]) => Call::PermitDrop(n),
        (b"try-recv", &[n]) => Call::TryRecv(n),
        (b"poll-in", &[n, token]) => Call::PollIn(n, token),
        (b"cancel-in", &[n]) => Call::CancelIn(n),
        (b"drop-s", &[n]) => Call::DropS(n),
        (b"drop-r", &[n]) => Call::DropR(n),
        (b"status", []) => Call::Status,
        _ => return None,
    })
}

/// A decimal number without leading zeros, 0 to 4294967295.
fn read_number(part: &[u8]) -> Option<u32> {
    if part.len() > 10 || (part.len() > 1 && part[0] == b'0') {
        return None;
    }
    let mut number = u64::from(read_digit(*part.first()?)?);
    for &byte in &part[1..] {
        number = number * 10 + u64::from(read_digit(byte)?);
    }
    u32::try_from(number).ok()
}

fn read_digit(byte: u8) -> Option<u8> {
    byte.is_ascii_digit().then(|| byte - b'0')
}

impl Call {
    /// Name and numbers, as a line has them.
    fn parts(self) -> (&'static str, [Option<u32>; 2]) {
        match self {
            Call::Make(capacity) => ("make", [Some(capacity), None]),
            Call::MakeU => ("make-u", [None, None]),
            Call::CloneS(n) => ("clone-s", [Some(n), None]),
            Call::CloneR(n) => ("clone-r", [Some(n), None]),
            Call::TrySend(n, value) => ("try-send", [Some(n), Some(value)]),
            Call::TryRes(n) => ("try-res", [Some(n), None]),
            Call::Reserve(n) => ("reserve", [Some(n), None]),
            Call::Send(n, value) => ("send", [Some(n), Some(value)]),
            Call::Recv(n) => ("recv", [Some(n), None]),
            Call::PollOut(n, token) => ("poll-out", [Some(n), Some(token)]),
            Call::CancelOut(n) => ("cancel-out", [Some(n), None]),
            Call::PermitSend(n, value) => ("permit-send", [Some(n), Some(value)]),
            Call::PermitDrop(n) => ("permit-drop", [Some(n), None]),
            Call::TryRecv(n) => ("try-recv", [Some(n), None]),
            Call::PollIn(n, token) => ("poll-in", [Some(n), Some(token)]),
            Call::CancelIn(n) => ("cancel-in", [Some(n), None]),
            Call::DropS(n) => ("drop-s", [Some(n), None]),
            Call::DropR(n) => ("drop-r", [Some(n), None]),
            Call::Status => ("status", [None, None]),
        }
    }

    /// The kind of record that the call names, and where its number stands.
    pub fn named(&mut self) -> Option<(Record, &mut u32)> {
        Some(match self {
            Call::CloneS(n)
            | Call::TrySend(n, _)
            | Call::TryRes(n)
            | Call::Reserve(n)
            | Call::Send(n, _)
            | Call::DropS(n) => (Record::Sender, n),
            Call::CloneR(n) | Call::Recv(n) | Call::TryRecv(n) | Call::DropR(n) => (Record::Receiver, n),
            Call::PollOut(n, _) | Call::CancelOut(n) => (Record::Outgoing, n),
            Call::PollIn(n, _) | Call::CancelIn(n) => (Record::Incoming, n),
            Call::PermitSend(n, _) | Call::PermitDrop(n) => (Record::Permit, n),
            Call::Make(_) | Call::MakeU | Call::Status => return None,
        })
    }

    /// Appends the line of this call, without its LF.
    pub fn write(self, out: &mut Vec<u8>) {
        let (name, numbers) = self.parts();
        out.extend_from_slice(name.as_bytes());
        for number in numbers.into_iter().flatten() {
            out.push(b' ');
            write_number(out, u64::from(number));
        }
    }
}

impl fmt::Display for Call {
    fn fmt(&self, f: &mut fmt::Formatter<'_>) -> fmt::Result {
        let mut line = Vec::new();
        self.write(&mut line);
        f.write_str(&String::from_utf8_lossy(&line))
    }
}

pub fn write_number(out: &mut Vec<u8>, mut number: u64) {
    let mut digits = [0; 20];
    let mut start = digits.len();
    loop {
        start -= 1;
        digits[start] = b'0' + (number % 10) as u8;
        number /= 10;
        if number == 0 {
            break;
        }
    }
    out.extend_from_slice(&digits[start..]);
}
