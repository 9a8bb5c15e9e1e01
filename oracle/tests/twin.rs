//! The harness's own part: how input is cut into lines, how lines are read, and that the crate's files are unchanged.

use std::fs;
use std::path::Path;
use std::process::Command;

use oracle::calls;
use oracle::calls::Call;
use oracle::twin::Twin;

fn answers(pieces: &[&[u8]]) -> String {
    let mut twin = Twin::new();
    for piece in pieces {
        twin.feed(piece);
    }
    twin.finish();
    String::from_utf8(twin.output().clone()).unwrap()
}

fn repository() -> &'static Path {
    Path::new(env!("CARGO_MANIFEST_DIR")).parent().unwrap()
}

#[test]
fn input_may_come_in_any_pieces() {
    let list = b"make 2\ntry-send 0 7\n\nxxxxxxxxxxxxxxxxxxxxxxxxxxxxxxxxxxxxxxxxxxxxxxxxxxxxxxxxxxxxxxxxxxxxxxxxxxx\nstatus\nrecv 0";
    let whole = answers(&[list]);
    assert_eq!(whole, "1 0 - - -\n2 0 - - -\n3 24 - - -\n4 24 - - -\n5 4 1,1,0,0,0,0 - -\n6 2 0 - -\n");
    for cut in 0..=list.len() {
        assert_eq!(answers(&[&list[..cut], &list[cut..]]), whole);
    }
    let bytes: Vec<&[u8]> = list.chunks(1).collect();
    assert_eq!(answers(&bytes), whole);
}

#[test]
fn no_input_gives_no_output() {
    assert_eq!(answers(&[]), "");
    assert_eq!(answers(&[b""]), "");
    assert_eq!(answers(&[b"\n"]), "1 24 - - -\n");
}

#[test]
fn a_line_is_read_only_in_its_one_form() {
    assert_eq!(calls::read(b"make"), Some(Call::Make(8)));
    assert_eq!(calls::read(b"poll-out 31 4294967295"), Some(Call::PollOut(31, u32::MAX)));
    assert_eq!(calls::read(b"make-u"), Some(Call::MakeU));
    assert_eq!(Call::MakeU.to_string(), "make-u");
    for bad in
        ["make ", "make  1", "make 01", "make +1", "make 4294967296", "make 1\r", "status 0", "send 0", "push 0 1", ""]
    {
        assert_eq!(calls::read(bad.as_bytes()), None, "{bad:?}");
    }
    for bad in ["make-u ", "make-u 1", "make-u 0", " make-u", "Make-u", "make-U", "make-", "make-uu", "makeu", "make u"]
    {
        assert_eq!(calls::read(bad.as_bytes()), None, "{bad:?}");
    }
}

/// Codes and fields of the last lines of a list.
fn last(list: &str, count: usize) -> Vec<String> {
    let output = answers(&[list.as_bytes()]);
    let lines: Vec<&str> = output.lines().collect();
    let answer = |line: &&str| line.split(' ').skip(1).take(2).collect::<Vec<_>>().join(" ");
    lines[lines.len() - count..].iter().map(answer).collect()
}

#[test]
fn an_unbounded_queue_refuses_reservations() {
    assert_eq!(last("make-u\ntry-res 0\nreserve 0\nsend 0 7", 3), ["28 -"; 3]);
    assert_eq!(last("make-u\ndrop-r 0\ntry-res 0\nreserve 0\nsend 0 7", 3), ["28 -"; 3]);
    assert_eq!(last("make-u\ntry-res 1\nreserve 1\nsend 1 7", 3), ["21 -"; 3]);
    assert_eq!(last("make-u\npoll-out 0 1\ncancel-out 0\npermit-send 0 7\npermit-drop 0", 4), ["21 -"; 4]);
    assert_eq!(last("make-u\nreserve 0\nstatus\nmake 2\nstatus", 3), ["4 0,-,0,0,0,0", "0 -", "4 0,2,0,0,0,0"]);
}

#[test]
fn an_unbounded_queue_holds_64_values() {
    let full = format!("make-u\n{}", "try-send 0 7\n".repeat(64));
    assert_eq!(last(&full, 1), ["0 -"]);
    assert_eq!(last(&format!("{full}try-send 0 8\nstatus"), 2), ["25 -", "4 64,-,0,0,0,0"]);
    assert_eq!(last(&format!("{full}try-recv 0\ntry-send 0 8\ntry-send 0 9"), 3), ["1 7", "0 -", "25 -"]);
    assert_eq!(last(&format!("{full}try-send 1 8\ndrop-r 0\ntry-send 0 9"), 3), ["21 -", "0 64", "12 9"]);
}

#[test]
fn a_number_is_its_place_and_64_times_its_turn() {
    // Three uses of a place, and another place that has turns of its own.
    assert_eq!(
        last("make 1\nrecv 0\nrecv 0\ncancel-in 0\nrecv 0\ncancel-in 64\nrecv 0", 5),
        ["2 1", "0 -", "2 64", "0 -", "2 128"]
    );
    assert_eq!(last("make 1\nrecv 0\nrecv 0\ncancel-in 0\nrecv 0\ncancel-in 1\nrecv 0\nrecv 0", 2), ["2 65", "2 2"]);
    // The lowest free place, though another was freed later.
    assert_eq!(last("make 1\nrecv 0\nrecv 0\nrecv 0\ncancel-in 0\ncancel-in 2\nrecv 0\nrecv 0", 2), ["2 64", "2 66"]);
    assert_eq!(
        last("make 2\ntry-res 0\npermit-drop 0\ntry-res 0\npermit-send 64 7\ntry-res 0", 3),
        ["2 64", "0 -", "2 128"]
    );
    assert_eq!(last("make 1\nclone-s 0\ndrop-s 0\nclone-s 1\nclone-s 64", 2), ["2 64", "2 2"]);
    // The turns are this queue's.
    assert_eq!(last("make 1\nrecv 0\ncancel-in 0\nmake 1\nrecv 0", 1), ["2 0"]);
}

#[test]
fn a_number_of_another_turn_reaches_nobody() {
    let second_use = "make 1\nrecv 0\nrecv 0\ncancel-in 0\nrecv 0\npoll-in 64 50\n";
    for (dead, code) in [("0", "26 -"), ("128", "21 -"), ("65", "21 -"), ("4294967232", "21 -")] {
        let list = format!("{second_use}poll-in {dead} 51\ncancel-in {dead}\nstatus\ntry-send 0 7\npoll-in 64 50");
        assert_eq!(last(&list, 5), [code, code, "4 0,1,0,0,0,1", "0 -", "1 7"], "{dead}");
    }
    // A place that the kind does not have.
    assert_eq!(last("make 1\nclone-s 80\nclone-r 16\nrecv 79\npoll-in 96 1", 4), ["21 -"; 4]);
}

#[test]
fn a_closed_number_is_told_from_one_never_given() {
    assert_eq!(
        last("poll-in 0 1\nmake 1\npoll-in 0 1\nrecv 0\ncancel-in 0\npoll-in 0 1\npoll-in 64 1", 2),
        ["26 -", "21 -"]
    );
    // All turns that are over, the place live or not.
    let third_use = "make 1\nrecv 0\ncancel-in 0\nrecv 0\ncancel-in 64\nrecv 0\n";
    assert_eq!(last(&format!("{third_use}cancel-in 0\ncancel-in 64\ncancel-in 192"), 3), ["26 -", "26 -", "21 -"]);
    assert_eq!(last(&format!("{third_use}cancel-in 128\ncancel-in 128\ncancel-in 192"), 3), ["0 -", "26 -", "21 -"]);
    // A place at or above its kind's limit, though one of that number modulo the limit is used.
    assert_eq!(last(&format!("{third_use}cancel-in 32\nclone-s 16\nclone-r 80\npermit-drop 63"), 4), ["21 -"; 4]);
    // A good make forgets, a refused one does not; before the first everything is 21.
    assert_eq!(
        last("make 1\nrecv 0\ncancel-in 0\nmake 0\ncancel-in 0\nmake 1\ncancel-in 0", 3),
        ["26 -", "0 -", "21 -"]
    );
    assert_eq!(last("clone-s 0\nmake 65\ndrop-s 0\nstatus", 3), ["20 -", "21 -", "21 -"]);
    // In the place of 21: before 28, 23 and 25.
    let full = format!("make-u\nclone-s 0\ndrop-s 1\n{}", "try-send 0 7\n".repeat(64));
    assert_eq!(last(&format!("{full}try-send 1 8\nreserve 1\ntry-res 1\nsend 1 8"), 4), ["26 -"; 4]);
    let clones = format!("make 1\nclone-s 0\ndrop-s 1\n{}", "clone-s 0\n".repeat(15));
    assert_eq!(last(&format!("{clones}clone-s 0\nclone-s 1"), 2), ["23 -", "26 -"]);
}

#[test]
fn stored_answers_are_the_crates() {
    let mut lists = 0;
    for entry in fs::read_dir(repository().join("lists")).unwrap() {
        let input = entry.unwrap().path();
        if input.extension().is_some_and(|extension| extension == "in") {
            let stored = fs::read_to_string(input.with_extension("out")).unwrap();
            assert!(answers(&[&fs::read(&input).unwrap()]) == stored, "{}", input.display());
            lists += 1;
        }
    }
    assert!(lists >= 9, "{lists} stored lists");
}

#[test]
fn the_crates_files_are_unchanged() {
    let check = Command::new(repository().join("oracle/check-unchanged")).output().unwrap();
    assert!(check.status.success(), "{}", String::from_utf8_lossy(&check.stderr));
}
