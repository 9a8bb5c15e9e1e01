//! Lines that are none: damaged ones, and inputs whose ends are unusual.

use oracle::calls::Call;

use crate::lists::Going;
use crate::lists::Lists;
use crate::rng::Rng;

/// Bad lines of every kind and the good lines nearest to them. No make among them is good.
fn lines() -> Vec<Vec<u8>> {
    #[rustfmt::skip]
    let mut lines: Vec<Vec<u8>> = [
        "", " ", "  ", "\r", "\t", "\0", "-", ",", "0", "7", "make\r", "make 1\r", "make ", " make", "make  1", "make 1 ", " make 1",
        "make\t1", "make\01", "make 1\0", "\0make 1", "make 01", "make 00", "make +1", "make -1", "make 1.0", "make 0x1", "make 1e0",
        "make 1,2", "make one", "make 1 2", "make 1 2 3", "make 0", "make 65", "make 4294967295", "make 4294967296", "make 4294967297",
        "make 18446744073709551616", "make 18446744073709551617", "make 99999999999999999999", "Make 1", "MAKE 1", "makes 1", "mak 1",
        "make1", "make-u ", " make-u", "make-u  ", "make-u 0", "make-u 1", "make-u 8", "make-u 64", "make-u 65", "make-u 1 1", "make-u 01",
        "make-u 4294967296", "make-u x", "make-u -", "make-u make-u", "make-u\r", "make-u\t", "make-u\t1", "make-u\0", "\0make-u", "make-u,",
        "Make-u", "make-U", "MAKE-U", "make-uu", "make-", "make--u", "make-u-", "make-u0", "make-u1", "make-b", "make_u", "makeu", "make u",
        "make -u", "make- u", "mmake-u", "ake-u", "make\u{2010}u", "push 0 1", "push 0", "push", "release 0", "release", "sweep 0",
        "edit 0 0 0 0 0", "quit", "help", "#", "# status", "status 0", "status ", " status", "status\r", "Status", "statuss", "statu", "status status", "try-send", "try-send ",
        "try-send 0", "try-send 0 ", "try-send  0 7", "try-send 0  7", "try-send 0 7 ", "try-send 0 7 8", "try-send 0 7\r",
        "try-send 0 07", "try-send 00 7", "try-send 0 +7", "try-send 0 -7", "try-send -0 7", "try-send 0 -", "try-send - 7",
        "try-send 0 4294967295", "try-send 0 4294967296", "try-send 0 4294967303", "try-send 4294967296 7",
        "try-send 4294967295 7", "try-send 0 42949672950", "try-send 0 99999999999999999999", "try-send 0 18446744073709551615",
        "try-send 0 18446744073709551616", "try-send 0 18446744073709551623", "try-send 0 340282366920938463463374607431768211463",
        "try-send 0 00000000000000000007", "try_send 0 7", "trysend 0 7", "try-sen 0 7", "try-sendd 0 7", "try-send0 7",
        "try-send\t0\t7", "try-send 0,7", "try-send 0 7,8", "try-send 0 7x", "try-send 0 x7", "try-send x 7", "try-send 0 7\0",
        "try-send\00 7", "try-recv", "try-recv ", "try-recv 0 0", "try-recv 0 ", "try-recv  0", "try-recv 00", "try-recv 1",
        "try-recv 16", "try-recv 4294967295", "try-recv 4294967296", "try-recv x", "recv", "recv 0 0", "recv 01", "recv 16", "reserve",
        "reserve 0 1", "reserve 00", "reserve 16", "send 0", "send 0 1 2", "send 1", "send 16 1", "poll-out", "poll-out 0",
        "poll-out 0 1 2", "poll-out 0 01", "poll-out 0 4294967296", "poll-out 32 1", "poll-in", "poll-in 0", "poll-in 0 1 2",
        "poll-in 0 01", "poll-in 0 4294967296", "poll-in 32 1", "cancel-out", "cancel-out 0 0", "cancel-out 32", "cancel-in",
        "cancel-in 0 0", "cancel-in 32", "permit-send 0", "permit-send", "permit-send 0 1 2", "permit-send 64 1", "permit-drop",
        "permit-drop 0 0", "permit-drop 64", "clone-s", "clone-s 0 0", "clone-s 00", "clone-s 16", "clone-r", "clone-r 0 0",
        "clone-r 4294967296", "drop-s", "drop-s 0 0", "drop-s 16", "drop-r", "drop-r 0 0", "drop-r 16", "drop-r -1", "try-res",
        "try-send 64 7", "try-send 128 7", "try-send 4294967232 7", "try-recv 64", "try-recv 064", "try-recv 80", "try-recv 4294967232",
        "try-res 64", "reserve 64", "send 64 1", "recv 64", "recv 4294967232", "clone-s 64", "clone-r 65", "clone-r 80", "poll-out 64 1",
        "poll-in 64 1", "poll-in 96 1", "cancel-out 64", "cancel-in 4294967232", "permit-send 128 1", "permit-drop 127", "drop-s 64",
        "drop-s 4294967232", "drop-s 4294967296", "drop-r 64", "drop-r 65", "drop-r 0+64", "drop-r 0 64",
        "try-res 0 0", "try-res 01", "try-res 16", "drop-s 0;drop-r 0", "\u{feff}status", "make \u{661}", "sta\u{0}tus", "\u{e9}",
    ]
    .iter()
    .map(|line| line.as_bytes().to_vec())
    .collect();
    lines.extend([
        vec![0xff],
        vec![0x80, 0x81],
        b"status\xff".to_vec(),
        b"\xfftry-recv 0".to_vec(),
        vec![0; 64],
        vec![b' '; 3],
    ]);
    // Long lines, among them ones that hold a good line at their start, at their end or after the longest readable part.
    for length in [33, 34, 63, 64, 65, 66, 127, 128, 129, 255, 256, 257, 1023, 1024, 4095, 4096, 4097, 65536, 100_000] {
        lines.push(vec![b'x'; length]);
        lines.push(vec![b'0'; length]);
        lines.push([&b"try-send 0 "[..], &vec![b'0'; length], b"7"].concat());
        lines.push([&b"try-recv 0"[..], &vec![b' '; length]].concat());
        lines.push([&b"make-u"[..], &vec![b' '; length]].concat());
        lines.push([&vec![b' '; length][..], b"try-recv 0"].concat());
        lines.push([&vec![b'x'; length][..], b"try-recv 0"].concat());
        lines.push([&vec![b'\0'; length][..], b"\r"].concat());
        lines.push(b"try-recv 0 ".repeat(length / 11 + 1)[..length].to_vec());
    }
    lines
}

fn lines_up_to(longest: usize) -> impl Iterator<Item = Vec<u8>> {
    lines().into_iter().filter(move |line| line.len() <= longest)
}

/// Every such line of up to `longest` bytes before any make: the good ones answer 21.
pub fn before_make(lists: &mut Lists, longest: usize) -> Going {
    for line in lines_up_to(longest) {
        lists.line(&line);
    }
    lists.end_history()
}

/// A queue of each kind for damaged lines.
pub const MAKES: &[Call] = &[Call::Make(3), Call::MakeU];

/// Every such line of up to `longest` bytes on a queue that it would change if it were read, then what that holds.
pub fn damaged(lists: &mut Lists, makes: &[Call], longest: usize) -> Going {
    makes.iter().try_for_each(|&make| damaged_after(lists, make, longest))
}

fn damaged_after(lists: &mut Lists, make: Call, longest: usize) -> Going {
    for line in lines_up_to(longest) {
        lists.call(make);
        lists.call(Call::TrySend(0, 1));
        lists.line(&line);
        lists.call(Call::Status);
        lists.call(Call::TryRecv(0));
        lists.line(b"");
        lists.call(Call::Status);
        lists.end_history()?;
    }
    Ok(())
}

/// Inputs that are lists of their own, since what is unusual is how they begin or end.
pub fn ends(lists: &mut Lists) -> Going {
    let long = "x".repeat(100_000);
    #[rustfmt::skip]
    let wholes = [
        "", "\n", "\n\n", "\r\n", "\r", " ", "x", "\0", "\0\n", "make", "make\n", "make\r\n", "make 1", "make 1\n", "make 1\n\n",
        "make 1\nstatus", "make 1\nstatus\n", "make 1\nstatus\r", "make 1\nstatus ", "make 1\n\nstatus", "make 1\n ", "status",
        "status\n", "status\nmake 1\nstatus", "make 0\nstatus\n", "make 65\ntry-send 0 1\nmake 64\ntry-send 0 1\nmake 0\nstatus",
        "make 1\ntry-send 0 1\nmake 65\ntry-recv 0\nmake 1\ntry-recv 0", "drop-s 0\ndrop-r 0\nclone-s 0\n", "make 4294967296\nstatus",
        "make 1\ntry-send 0 4294967295", "make 1\ntry-send 0 4294967296", "make 1\ntry-send 0 42949672", "make 1\ndrop-s", "\nmake 1",
        "make-u", "make-u\n", "make-u\r\nstatus", "make-u ", "make-u 1", "make-u 1\nstatus", "make-", "make-\nstatus", "make-u\nstatus",
        "\nmake-u\nstatus\n", "status\nmake-u\nstatus", "make-u 8\nmake-u\nstatus", "make 1\ntry-send 0 1\nmake-u\nstatus\ntry-recv 0",
        "clone-s 64\nmake 1\nclone-s 64\nclone-s 0\ndrop-s 1\nclone-s 1\nclone-s 0\ndrop-s 1\nclone-s 65\nmake 1\nclone-s 65\nclone-s 0\ndrop-s 65",
        "make 1\nrecv 0\ncancel-in 0\nrecv 0\nmake 0\npoll-in 64 5\nmake 1\npoll-in 64 6\nrecv 0\npoll-in 0 7\nmake-u\nrecv 0\ncancel-in 64\nstatus",
        "make-u\ntry-send 0 1\nmake 65\nstatus\nmake 2\nstatus\ntry-recv 0", "make-u\ntry-send 0 1\nmake-u\ntry-recv 0\nstatus",
        "make 1\ntry-res 0\nmake-u\npermit-drop 0\nstatus\nmake\nstatus", "make-u\ntry-send 0 4294967295\ntry-recv 0", "make-u\ntry-send 0",
    ];
    for text in wholes {
        lists.whole(text.as_bytes())?;
    }
    for text in
        [long.clone(), format!("{long}\n"), format!("{long}\nmake 1\nstatus"), format!("make 1\nstatus\n{long}")]
    {
        lists.whole(text.as_bytes())?;
    }
    lists.whole(&vec![b'\n'; 3000])
}

/// Damages a good line in one of many ways; now and then it is still good afterwards.
pub fn damage(rng: &mut Rng, line: &mut Vec<u8>) {
    let place = rng.below(line.len() as u32) as usize;
    match rng.below(16) {
        0 => line.clear(),
        1 => line.push(b' '),
        2 => line.push(b'\r'),
        3 => line.insert(0, b' '),
        4 => line.insert(place, b' '),
        5 => line.insert(place, b'0'),
        6 => line.insert(place, *rng.pick(b"+-.,\t\0_x9")),
        7 => line[place] = *rng.pick(b"+-.,\t\0_xX0 "),
        8 => line.truncate(place),
        9 => {
            line.remove(place);
        }
        10 => line.extend_from_slice(b" 0"),
        11 => line.extend(std::iter::repeat_n(b'0', 1 + rng.below(70) as usize)),
        12 => line[0] = line[0].to_ascii_uppercase(),
        13 => {
            let copy = line.clone();
            line.push(b' ');
            line.extend(copy);
        }
        14 => match line.iter().rposition(|&byte| byte == b' ') {
            Some(space) => {
                line.truncate(space + 1);
                line.extend_from_slice(rng.pick::<&[u8]>(&[
                    b"4294967296",
                    b"18446744073709551616",
                    b"00",
                    b"4294967295",
                    b"-1",
                    b"",
                ]));
            }
            None => line.push(b'0'),
        },
        _ => {
            // Any byte but LF.
            line[place] = (11 + rng.below(245)) as u8;
        }
    }
}
