//! bin/lister where reads and writes fail, wait or come in odd ways: its status, what it wrote, and what it says of a failure.

use bihokura_tests::bytes::{container, settings};
use bihokura_tests::process::{end, fed, in_pieces, lines, pipe_of, piped, program_of, redirected, reset, rest, send_signal};
use bihokura_tests::process::{set_non_blocking, with_lines, Ended, LIMIT, PROGRAM, SCRIPT};
use bihokura_tests::sheet::{expected, printed, refusals, spoiled, strangers, PRINTED, PRINTED_BLOCKS};
use std::io::{Read, Write};
use std::net::{TcpListener, TcpStream};
use std::os::fd::OwnedFd;
use std::path::{Path, PathBuf};
use std::process::{Child, Stdio};
use std::sync::mpsc::Receiver;
use std::thread::{sleep, spawn};
use std::time::Duration;

/// A file with this input, under a name that no other test has.
fn file(name: &str, input: &[u8]) -> PathBuf {
    let path = Path::new(env!("CARGO_TARGET_TMPDIR")).join(name);
    std::fs::write(&path, input).unwrap();
    path
}

/// The script, with redirections of bash in which "$1" is the path.
fn script(redirections: &str, path: &Path) -> Child {
    redirected(SCRIPT, redirections, path).spawn().unwrap()
}

/// Status 0, the whole report, and no word of a failure.
fn whole(ended: &Ended, input: &[u8]) {
    assert_eq!((ended.code, &ended.err[..]), (Some(0), ""));
    assert!(ended.out == expected(input), "{} bytes of {}", ended.out.len(), expected(input).len());
}

/// Status 1, and a line that says so.
fn failed(ended: &Ended) {
    assert_eq!(ended.code, Some(1), "{ended:?}");
    assert!(ended.err.lines().any(|line| line.starts_with("lister: ")), "standard error: {:?}", ended.err);
}

/// Settings, an entry and two refused blocks: what is there before an input fails.
fn begun() -> Vec<u8> {
    [settings(1, 2, 9), container(&[(1, 1)]), spoiled(), spoiled()].concat()
}

/// Waits for the lines of the refused blocks: then the program waits for more input.
fn read_refusals(lines: &Receiver<String>) -> String {
    let all: String = (0..2).map(|_| lines.recv_timeout(LIMIT).expect("the line of a refused block")).collect();
    assert_eq!(all, refusals(&begun()));
    all
}

// ---- the script itself

#[test]
fn the_printed_sheet() {
    let from_file = end(script(r#"< "$1""#, Path::new(PRINTED_BLOCKS)));
    let from_pipe = fed(piped(SCRIPT).spawn().unwrap(), &printed());
    for ended in [from_file, from_pipe] {
        assert_eq!((ended.code, &ended.out[..], &ended.err[..]), (Some(0), PRINTED, ""));
    }
}

#[test]
fn whole_sheets_of_each_sort() {
    for input in [vec![], spoiled(), begun(), begun()[..700].to_vec(), strangers(256)] {
        whole(&fed(piped(SCRIPT).spawn().unwrap(), &input), &input);
    }
}

#[test]
fn help() {
    let ended = end(piped(SCRIPT).arg("--help").stdin(Stdio::null()).spawn().unwrap());
    assert_eq!((ended.code, &ended.err[..]), (Some(0), ""));
    assert!(ended.out.starts_with("usage: lister"), "{}", ended.out);
}

#[test]
fn wrong_arguments() {
    let all: [&[&str]; 7] = [&["--other"], &["-h"], &["file"], &[""], &["a", "b"], &["--help", "a"], &["--help", "--help"]];
    for arguments in all {
        let ended = end(piped(SCRIPT).args(arguments).stdin(Stdio::null()).spawn().unwrap());
        assert_eq!((ended.code, &ended.out[..]), (Some(2), ""), "{arguments:?}");
        assert!(ended.err.starts_with("usage: lister"), "{arguments:?}: {}", ended.err);
    }
}

#[test]
fn a_closed_standard_error() {
    whole(&fed(script("2>&-", Path::new("")), &begun()), &begun());
    assert_eq!(fed(script("2>&- > /dev/full", Path::new("")), &begun()).code, Some(1));
}

// ---- the program by itself: its status, and what it says of a failure

#[test]
fn the_program_s_own_failures() {
    let input = file("own-failures", &strangers(100));
    for redirections in [r#"< "$1" > /dev/full"#, r#"< "$1" >&-"#, "< / > /dev/null", "<&- > /dev/null"] {
        let ended = end(redirected(PROGRAM, redirections, &input).spawn().unwrap());
        assert_eq!((ended.code, &ended.out[..]), (Some(1), ""), "{redirections}");
        let line = ended.err.strip_suffix('\n').unwrap_or_else(|| panic!("{redirections}: no line on standard error"));
        assert!(line.starts_with("lister: ") && !line.contains('\n'), "{redirections}: {line:?}");
    }
}

// ---- failing outputs

#[test]
fn a_full_device() {
    for input in [printed(), vec![], spoiled(), begun(), strangers(256)] {
        failed(&fed(script("> /dev/full", Path::new("")), &input));
    }
}

#[test]
fn a_closed_output() {
    for input in [printed(), vec![], spoiled(), begun(), strangers(256)] {
        failed(&fed(script(">&-", Path::new("")), &input));
    }
}

/// The reader takes so many bytes, which are the first of the report, and goes away.
fn read_and_gone(input: &[u8], bytes: usize) {
    let (from, to) = std::io::pipe().unwrap();
    // one that takes nothing has gone before the program begins
    let reader = (bytes > 0).then_some(from);
    let child = piped(SCRIPT).stdout(to).spawn().unwrap();
    let reading = spawn(move || {
        let mut taken = vec![0; bytes];
        reader.map(|mut from| from.read_exact(&mut taken)).transpose().unwrap();
        taken
    });
    failed(&fed(child, input));
    assert!(expected(input).as_bytes().starts_with(&reading.join().unwrap()));
}

#[test]
fn a_reader_that_goes_away() {
    for input in [printed(), vec![], spoiled(), begun()] {
        read_and_gone(&input, 0);
    }
    for bytes in [0, 1, 1000, 66_000, 200_000] {
        read_and_gone(&strangers(256), bytes);
    }
}

/// So the program gets an error to tell of, where it would else be killed.
#[test]
fn the_signals_of_a_failed_write_are_ignored() {
    const PIPE: u32 = 13;
    const FILE_SIZE: u32 = 25;
    let (child, mut to, lines) = with_lines(piped(SCRIPT));
    to.write_all(&begun()).unwrap();
    read_refusals(&lines);
    let status = std::fs::read_to_string(format!("/proc/{}/status", program_of(&child))).unwrap();
    let ignored = status.lines().find_map(|line| line.strip_prefix("SigIgn:")).unwrap().trim();
    let ignored = u64::from_str_radix(ignored, 16).unwrap();
    assert!([PIPE, FILE_SIZE].iter().all(|signal| ignored >> (signal - 1) & 1 == 1), "{ignored:#x}");
    drop(to);
    end(child);
}

#[test]
fn a_limit_on_file_size() {
    let path = file("limited", b"");
    let mut command = piped("bash");
    command.args(["-c", r#"ulimit -f 1; exec "$0" > "$1""#, SCRIPT]).arg(&path);
    for input in [strangers(30), strangers(256)] {
        failed(&fed(command.spawn().unwrap(), &input));
        let written = std::fs::read_to_string(&path).unwrap();
        assert!(written.len() <= 1024 && expected(&input).starts_with(&written), "{written}");
    }
    let ended = fed(command.spawn().unwrap(), &printed());
    whole(&Ended { out: std::fs::read_to_string(&path).unwrap(), ..ended }, &printed());
}

// ---- failing inputs: no report, at most the lines of refused blocks

#[test]
fn a_directory_as_input() {
    let ended = end(script("< /", Path::new("")));
    failed(&ended);
    assert_eq!(ended.out, "");
}

#[test]
fn a_closed_input() {
    let ended = end(script("<&-", Path::new("")));
    failed(&ended);
    assert_eq!(ended.out, "");
}

/// Standard input is open for writing only.
#[test]
fn an_input_that_cannot_be_read() {
    let path = file("write-only", b"");
    let ended = end(script(r#"0> "$1""#, &path));
    failed(&ended);
    assert_eq!(ended.out, "");
}

/// A local connection: our end, and the other as standard input.
fn connection() -> (TcpStream, OwnedFd) {
    let listener = TcpListener::bind("127.0.0.1:0").unwrap();
    let ours = TcpStream::connect(listener.local_addr().unwrap()).unwrap();
    (ours, OwnedFd::from(listener.accept().unwrap().0))
}

#[test]
fn a_connection_that_is_reset() {
    for more in [&[][..], &container(&[(1, 1)])[..200]] {
        let (mut ours, theirs) = connection();
        let mut child = piped(SCRIPT).stdin(theirs).spawn().unwrap();
        let lines = lines(child.stdout.take().unwrap());
        ours.write_all(&begun()).unwrap();
        read_refusals(&lines);
        ours.write_all(more).unwrap();
        reset(ours);
        failed(&end(child));
        assert_eq!(rest(&lines), "");
    }
}

#[test]
fn a_connection_that_ends() {
    let (mut ours, theirs) = connection();
    let child = piped(SCRIPT).stdin(theirs).spawn().unwrap();
    ours.write_all(&printed()).unwrap();
    drop(ours);
    whole(&end(child), &printed());
}

/// Killed by a signal, the program has said nothing; that it is not whole shows in the status.
#[test]
fn a_program_that_is_killed() {
    const TERMINATE: i32 = 15;
    const KILL: i32 = 9;
    for signal in [TERMINATE, KILL] {
        let (child, mut to, lines) = with_lines(piped(SCRIPT));
        to.write_all(&begun()).unwrap();
        read_refusals(&lines);
        send_signal(program_of(&child), signal);
        let ended = end(child);
        assert_eq!(ended.code, Some(1), "{ended:?}");
        assert!(!ended.err.trim().is_empty(), "no line on standard error");
        assert_eq!(rest(&lines), "");
    }
}

#[test]
fn a_program_that_is_stopped_for_a_while() {
    const STOP: i32 = 19;
    const CONTINUE: i32 = 18;
    let (child, mut to, lines) = with_lines(piped(SCRIPT));
    to.write_all(&begun()).unwrap();
    let first = read_refusals(&lines);
    send_signal(program_of(&child), STOP);
    to.write_all(&printed()).unwrap();
    sleep(Duration::from_millis(50));
    send_signal(program_of(&child), CONTINUE);
    drop(to);
    let ended = end(child);
    whole(&Ended { out: first + &rest(&lines), ..ended }, &[begun(), printed()].concat());
}

// ---- what only takes its time

/// Long enough for the program to wait, and to try again some times where it may not wait: it does so every 10 ms.
const START: Duration = Duration::from_millis(300);
const PAUSE: Duration = Duration::from_millis(60);

/// An input that ends within a block and is refused in places, and cuts of it: within blocks, and one piece of several blocks.
fn slow_input() -> (Vec<u8>, fn(usize) -> usize) {
    ([printed(), spoiled(), strangers(12), vec![67; 5]].concat(), |left| match left {
        11_000.. => 100,
        8_000.. => 1_777,
        6_000.. => 512,
        _ => 2_900,
    })
}

#[test]
fn a_slow_writer() {
    let (input, length) = slow_input();
    let mut child = piped(SCRIPT).spawn().unwrap();
    let to = child.stdin.take().unwrap();
    sleep(START);
    in_pieces(to, input.clone(), length, |_| sleep(PAUSE));
    whole(&end(child), &input);
}

#[test]
fn a_non_blocking_input() {
    let (input, length) = slow_input();
    let (from, to) = std::io::pipe().unwrap();
    set_non_blocking(&from);
    let child = piped(SCRIPT).stdin(from).spawn().unwrap();
    sleep(START);
    in_pieces(to, input.clone(), length, |_| sleep(PAUSE));
    whole(&end(child), &input);
}

#[test]
fn a_non_blocking_output() {
    let input = strangers(160);
    for bytes in [4096, 65_536] {
        let (mut from, to) = pipe_of(bytes);
        set_non_blocking(&to);
        let child = piped(SCRIPT).stdout(to).spawn().unwrap();
        let reader = spawn(move || {
            let mut all = vec![];
            for n in [5_000, 5_000, 50_000] {
                sleep(START);
                from.by_ref().take(n).read_to_end(&mut all).unwrap();
            }
            from.read_to_end(&mut all).unwrap();
            String::from_utf8(all).unwrap()
        });
        let ended = fed(child, &input);
        whole(&Ended { out: reader.join().unwrap(), ..ended }, &input);
    }
}
