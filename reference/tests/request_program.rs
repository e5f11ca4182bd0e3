//! The request program: its lines, and the command around it.

mod common;

use std::io::{self, Read, Write};
use std::process::{Command, Stdio};

use common::output;
use fenstubble_reference::{inspect, program};

/// Three users and one folder of users 0 and 1.
const START: &str = "delta\njoin\njoin\njoin\ninsert 0 1\n";

/// What the lines answer after the start.
fn after(lines: impl AsRef<[u8]>) -> String {
    let start = output(START);
    let all = output([START.as_bytes(), lines.as_ref()].concat());
    all.strip_prefix(&start).unwrap().to_string()
}

#[test]
fn f1_lines_end_at_0a_only() {
    assert_eq!(output(""), "no 14\n");
    assert_eq!(output("\n"), "no 14\n");
    assert_eq!(output("\ndelta\njoin\n"), "no 14\n");
    assert_eq!(output("delta"), "");
    assert_eq!(output("delta\n"), "");
    assert_eq!(output("full"), "");
    assert_eq!(output("delta\n\n"), "no 14\n");
    assert_eq!(output("delta\n\n\n"), "no 14\nno 14\n");
    assert_eq!(output("delta\njoin"), "ok 2\n4 0 0\n1 0 0\n");
    assert_eq!(output("delta\njoin\n\n"), "ok 2\n4 0 0\n1 0 0\nno 14\n");
}

#[test]
fn f2_other_blanks_are_bytes_like_any() {
    assert_eq!(output("delta\r\njoin\r\n"), "no 14\n");
    assert_eq!(output("delta\r"), "no 14\n");
    for line in [
        &b"join\r"[..],
        b"join\t",
        b"join\0",
        b"join\x0b",
        b"join\xff",
        b"\xef\xbb\xbfjoin",
        b"insert\t0",
        b"insert 0\t1",
        b"insert\xa00",
        b"insert 0\r",
        b"grant 0\x002",
        b"\xff\xfe",
        b"\0",
    ] {
        assert_eq!(after(line), "no 14\n", "{line:?}");
    }
    assert_eq!(output(b"\xff\xfe\n"), "no 14\n");
}

#[test]
fn f3_the_first_line() {
    for first in [
        "delta ",
        " delta",
        "Delta",
        "FULL",
        "full x",
        "fulldelta",
        "join",
        "deltadelta",
        "delt",
    ] {
        assert_eq!(output(format!("{first}\njoin\n")), "no 14\n", "{first}");
    }
    let long = "delta".repeat(1000);
    assert_eq!(output(format!("{long}\njoin\n")), "no 14\n");
    assert_eq!(output(long), "no 14\n");
    // A first line that never ends is answered all the same.
    assert_eq!(run_endless(), "no 14\n");
}

fn run_endless() -> String {
    let mut out = Vec::new();
    program::run(io::repeat(b'd'), &mut out).unwrap();
    String::from_utf8(out).unwrap()
}

#[test]
fn f4_at_most_512_bytes() {
    // `insert` and numbers of five digits that all differ, then shorter ones
    // to the length asked for. All but one above 63, so a good line gets 1.
    let line = |length: usize| {
        let mut line = String::from("insert");
        let mut number = 10_000;
        while line.len() + 12 <= length {
            line += &format!(" {number}");
            number += 1;
        }
        for digits in 1..=5usize {
            for more in 0..=5usize {
                let tail = if more == 0 {
                    format!(" {}", &"99999"[..digits])
                } else {
                    format!(" {} {}", &"99999"[..digits], &"88888"[..more])
                };
                if line.len() + tail.len() == length {
                    return line + &tail;
                }
            }
        }
        panic!("no line of {length} bytes");
    };
    for length in [511, 512] {
        let line = line(length);
        assert_eq!(line.len(), length);
        assert_eq!(after(&line), "no 1\n", "{length} bytes, last line");
        assert_eq!(after(format!("{line}\n")), "no 1\n", "{length} bytes");
    }
    for length in [513, 514, 600] {
        let line = line(length);
        assert_eq!(line.len(), length);
        assert_eq!(after(&line), "no 14\n", "{length} bytes, last line");
        assert_eq!(after(format!("{line}\n")), "no 14\n", "{length} bytes");
        let next = after(format!("{line}\nopen 0 0\n"));
        assert_eq!(next, "no 14\nok 1\ni 0\n", "{length} bytes, then another");
    }
    // Whose first 512 bytes would be fine.
    let good = line(512);
    assert_eq!(after(format!("{good} 7\nopen 1 0")), "no 14\nok 1\ni 1\n");
    // Longer than any buffer: still one answer.
    for length in [65_535, 65_536, 65_537, 300_000] {
        let long = "x".repeat(length);
        assert_eq!(after(&long), "no 14\n");
        assert_eq!(
            after(format!("{long}\nopen 0 0\n{long}\n")),
            "no 14\nok 1\ni 0\nno 14\n"
        );
    }
}

#[test]
fn f5_numbers() {
    for bad in [
        "00",
        "01",
        "000001",
        "+1",
        "-0",
        "-1",
        "1.0",
        "100000",
        "99999999999999999999999",
        "0x1",
        "a",
        "1a",
        "1,",
        "\u{0661}",
    ] {
        assert_eq!(after(format!("insert {bad}")), "no 14\n", "{bad}");
        assert_eq!(after(format!("grant 0 {bad}")), "no 14\n", "{bad}");
        assert_eq!(after(format!("grant {bad} 0")), "no 14\n", "{bad}");
        assert_eq!(after(format!("open {bad} 0")), "no 14\n", "{bad}");
        assert_eq!(after(format!("revoke 0 {bad}")), "no 14\n", "{bad}");
        assert_eq!(after(format!("leave {bad}")), "no 14\n", "{bad}");
    }
    assert_eq!(after("insert 0"), "ok 1\n7 1 0\n");
    assert_eq!(after("insert 99999"), "no 1\n");
    assert_eq!(after("open 0 99999"), "no 1\n");
    assert_eq!(after("open 99999 0"), "no 1\n");
    assert_eq!(after("leave 99999"), "no 1\n");
}

#[test]
fn f6_no_user_twice() {
    assert_eq!(after("insert 0 0"), "no 14\n");
    assert_eq!(after("insert 0 1 0"), "no 14\n");
    assert_eq!(after("insert 70 70"), "no 14\n");
    assert_eq!(after("insert 70 0 71 70"), "no 14\n");
    assert_eq!(after("insert 0 0 70"), "no 14\n");
    assert_eq!(after("insert 99999 99999"), "no 14\n");
    assert_eq!(after("insert 70 71"), "no 1\n");
    // 70 and 6 are not the same, nor are 64 and 0.
    assert_eq!(after("insert 0 64"), "no 1\n");
    // Others may be the same.
    assert_eq!(after("grant 0 0"), "no 5\n");
    assert_eq!(after("open 0 0"), "ok 1\ni 0\n");
}

#[test]
fn f7_users_above_63() {
    let full: String = "join\n".repeat(64);
    let start = format!("delta\n{full}insert 63\n");
    let answer = |line: &str| {
        let all = output(format!("{start}{line}"));
        all.strip_prefix(&output(&start)).unwrap().to_string()
    };
    assert!(output(&start).ends_with("ok 1\n7 0 63\n"));
    assert_eq!(answer("insert 64"), "no 1\n");
    assert_eq!(answer("grant 0 64"), "no 1\n");
    assert_eq!(answer("revoke 0 64"), "no 1\n");
    assert_eq!(answer("leave 64"), "no 1\n");
    assert_eq!(answer("open 64 0"), "no 1\n");
    assert_eq!(answer("join"), "no 2\n");
    // 65536 + 63 must not become 63.
    assert_eq!(answer("open 65599 0"), "no 1\n");
    assert_eq!(answer("leave 65599"), "no 1\n");
    assert_eq!(answer("open 63 0"), "ok 0\n");
    // A leaver counts among the 64.
    assert_eq!(
        answer("leave 63\njoin\nopen 63 0"),
        "ok 2\n1 64 0\n3 0 64\nno 2\nno 11 1\n"
    );
    let all_65: String = (0..65).map(|n| format!(" {n}")).collect();
    assert_eq!(answer(&format!("insert{all_65}")), "no 1\n");
    let all_64: String = (0..64).map(|n| format!(" {n}")).collect();
    assert!(answer(&format!("insert{all_64}")).starts_with("ok 66\n4 64 0\n5 0 64\n"));
    // Users not yet joined.
    assert_eq!(after("insert 3"), "no 1\n");
    assert_eq!(after("insert 0 3"), "no 1\n");
    assert_eq!(after("grant 0 3"), "no 1\n");
}

#[test]
fn f8_resources_that_do_not_exist() {
    for number in ["1", "255", "256", "257", "65535", "65536", "65537", "99999"] {
        assert_eq!(after(format!("grant {number} 2")), "no 1\n", "{number}");
        assert_eq!(after(format!("revoke {number} 0")), "no 1\n", "{number}");
        assert_eq!(after(format!("open 0 {number}")), "no 1\n", "{number}");
    }
    assert_eq!(after("grant 9 9"), "no 1\n");
    assert_eq!(after("grant 0 9"), "no 1\n");
}

#[test]
fn f9_spaces_and_words() {
    assert_eq!(after("insert"), "no 4\n");
    for line in [
        "insert ",
        "insert  ",
        "insert 0 ",
        "insert  0",
        "insert 0  1",
        " insert 0",
        "join ",
        "join 0",
        " join",
        "joinx",
        "JOIN",
        "Insert 0",
        "grant",
        "grant ",
        "grant 0",
        "grant 0 ",
        "grant  0 2",
        "grant 0  2",
        "grant 0 2 ",
        "grant 0 1 2",
        "revoke",
        "revoke 0",
        "revoke 0 1 2",
        "leave",
        "leave ",
        "leave 0 ",
        "leave  0",
        "leave 0 1",
        "leave 0 0",
        " leave 0",
        "Leave 0",
        "leave0",
        "leaves 0",
        "open",
        "open 0",
        "open 0 0 0",
        "open 0 0 ",
        "grant0 2",
        "insert0",
        " ",
        "  ",
        "0",
        "no 14",
        "ok",
    ] {
        assert_eq!(after(line), "no 14\n", "{line:?}");
    }
}

#[test]
fn f10_any_order_of_users() {
    assert_eq!(after("insert 1 0"), "ok 1\n7 1 3\n");
    assert_eq!(after("insert 2 1"), after("insert 1 2"));
}

#[test]
fn f11_f12_words_of_other_places() {
    for line in [
        "view 0 0",
        "section 0",
        "delta",
        "full",
        "read",
        "write",
        "help",
    ] {
        assert_eq!(after(format!("{line}\nopen 0 0\n")), "no 14\nok 1\ni 0\n");
    }
}

#[test]
fn f13_malformed_before_unknown() {
    assert_eq!(after("insert 70 100000"), "no 14\n");
    assert_eq!(after("grant 99 012"), "no 14\n");
    assert_eq!(after("insert 100000 70"), "no 14\n");
}

#[test]
fn f14_an_open_without_rows() {
    assert_eq!(after("insert 2\nopen 2 1"), "ok 1\n7 1 2\nok 0\n");
    assert_eq!(after("grant 0 1\nrevoke 0 2\ninsert"), "no 5\nno 6\nno 4\n");
}

/// Gives one byte at a time, and says at times that it was interrupted.
struct Dripping<'a>(&'a [u8], bool);

impl Read for Dripping<'_> {
    fn read(&mut self, to: &mut [u8]) -> io::Result<usize> {
        self.1 = !self.1;
        if self.1 {
            return Err(io::ErrorKind::Interrupted.into());
        }
        self.0.read(&mut to[..1])
    }
}

#[test]
fn any_pieces_of_input_give_the_same() {
    let long = "y".repeat(1000);
    let input = format!("{START}{long}\nopen 0 0\n\ninsert\n{long}");
    let mut out = Vec::new();
    program::run(Dripping(input.as_bytes(), false), &mut out).unwrap();
    assert_eq!(String::from_utf8(out).unwrap(), output(&input));
}

#[test]
fn much_input_in_a_stream() {
    // Some ten million bytes, never held at once by the program.
    let line = b"open 0 0\n";
    let count = 200_000;
    let mut input = START.as_bytes().to_vec();
    for _ in 0..count {
        input.extend_from_slice(line);
    }
    let out = output(input);
    assert_eq!(out.matches("ok 1\ni 0\n").count(), count);
}

#[test]
fn a_writer_that_fails_ends_it() {
    struct Closed;
    impl Write for Closed {
        fn write(&mut self, _: &[u8]) -> io::Result<usize> {
            Err(io::ErrorKind::BrokenPipe.into())
        }
        fn flush(&mut self) -> io::Result<()> {
            Ok(())
        }
    }
    // The input never ends.
    let input = START.as_bytes().chain(io::repeat(b'\n'));
    let error = program::run(input, Closed).unwrap_err();
    assert_eq!(error.kind(), io::ErrorKind::BrokenPipe);
}

fn command() -> Command {
    Command::new(env!("CARGO_BIN_EXE_reference"))
}

/// Runs the command with arguments and input: status, output, error output.
fn run(arguments: &[&str], input: &[u8]) -> (Option<i32>, String, String) {
    let mut child = command()
        .args(arguments)
        .stdin(Stdio::piped())
        .stdout(Stdio::piped())
        .stderr(Stdio::piped())
        .spawn()
        .unwrap();
    // It may end before it has read all.
    let _ = child.stdin.take().unwrap().write_all(input);
    let done = child.wait_with_output().unwrap();
    let text = |bytes: Vec<u8>| String::from_utf8(bytes).unwrap();
    (done.status.code(), text(done.stdout), text(done.stderr))
}

#[test]
fn the_command() {
    let input = format!("{START}open 1 0\nx\n");
    let expected = output(&input);
    assert_eq!(
        run(&[], input.as_bytes()),
        (Some(0), expected, String::new())
    );
    let wrong = (Some(0), "no 14\n".to_string(), String::new());
    assert_eq!(run(&[], b"x\n"), wrong);
    assert_eq!(run(&[], b""), wrong);

    let (status, out, error) = run(&["--help"], b"");
    assert_eq!((status, error.as_str()), (Some(0), ""));
    assert!(out.contains("--check [seed] [steps]"));
    assert!(out.contains("--inspect"));

    let told = (Some(0), inspect::report(b"TKB"), String::new());
    assert_eq!(run(&["--inspect"], b"TKB"), told);
    let long = vec![b'T'; 200_000];
    let told = (Some(0), inspect::report(&long), String::new());
    assert_eq!(run(&["--inspect"], &long), told);

    for bad in [
        &["--what"][..],
        &["delta"],
        &["--help", "x"],
        &["--inspect", "x"],
        &["--check", "x"],
        &["--check", "1", "-1"],
        &["--check", "1", "2", "3"],
    ] {
        let (status, out, error) = run(bad, b"delta\n");
        assert_eq!((status, out.as_str()), (Some(2), ""), "{bad:?}");
        assert!(error.starts_with("reference: "), "{bad:?}: {error}");
    }

    let (status, out, error) = run(&["--check", "3", "100"], b"");
    assert_eq!((status, error.as_str()), (Some(0), ""));
    assert!(out.starts_with("seed 3\n100 requests in "), "{out}");
}

#[test]
fn a_closed_pipe_ends_it_quietly() {
    let mut child = command()
        .stdin(Stdio::piped())
        .stdout(Stdio::piped())
        .stderr(Stdio::piped())
        .spawn()
        .unwrap();
    drop(child.stdout.take());
    let mut stdin = child.stdin.take().unwrap();
    let _ = stdin.write_all(b"delta\n");
    for _ in 0..100_000 {
        if stdin.write_all(b"join\n").is_err() {
            break;
        }
    }
    drop(stdin);
    let done = child.wait_with_output().unwrap();
    assert_eq!(done.status.code(), Some(0));
    assert!(done.stderr.is_empty());
}
