//! lister as a process: its input in pieces, pipes of each sort, and an end that is waited for.

use std::io::{BufRead, BufReader, PipeReader, PipeWriter, Read, Write};
use std::os::fd::AsRawFd;
use std::os::unix::process::CommandExt;
use std::path::Path;
use std::process::{Child, ChildStdin, Command, Stdio};
use std::sync::mpsc::{channel, Receiver, RecvTimeoutError};
use std::thread::{sleep, spawn, yield_now, JoinHandle};
use std::time::{Duration, Instant};

/// The program, linked statically, and the script that runs it and ends with a status; and the program as rt links it.
pub const PROGRAM: &str = concat!(env!("CARGO_MANIFEST_DIR"), "/../target/static/lister");
pub const LINKED_BY_RT: &str = concat!(env!("CARGO_MANIFEST_DIR"), "/../crates/lister/out/lister");
pub const SCRIPT: &str = concat!(env!("CARGO_MANIFEST_DIR"), "/../bin/lister");
/// The same in plain Rust, as build.rs compiled it: linked as rt links the program, and statically.
pub const FAST: &str = env!("FAST_LISTER");
pub const FAST_STATIC: &str = env!("STATIC_FAST_LISTER");

/// Far longer than any of them takes: only so that one that hangs fails.
pub const LIMIT: Duration = Duration::from_secs(60);

/// A command, its descriptors 0 to 2 pipes. It leads a group of processes, which can be ended as one.
pub fn piped(program: &str) -> Command {
    // else the script proves and builds it, which takes minutes
    assert!(Path::new(PROGRAM).exists(), "{PROGRAM} is not there; bin/link-lister builds it");
    let mut command = Command::new(program);
    command.stdin(Stdio::piped()).stdout(Stdio::piped()).stderr(Stdio::piped()).process_group(0);
    command
}

/// The same with redirections, as bash writes them; "$1" in them is the path.
pub fn redirected(program: &str, redirections: &str, path: &Path) -> Command {
    let mut command = piped("bash");
    command.args(["-c", &format!(r#"exec "$0" {redirections}"#), program]).arg(path);
    command
}

/// How a process ended, and what it wrote to its pipes.
#[derive(Debug)]
pub struct Ended {
    pub code: Option<i32>,
    pub out: String,
    pub err: String,
}

fn gather(mut from: impl Read + Send + 'static) -> Receiver<Vec<u8>> {
    let (send, receive) = channel();
    spawn(move || {
        let mut all = vec![];
        let _ = from.read_to_end(&mut all);
        let _ = send.send(all);
    });
    receive
}

/// Waits for the end of a process that has all its input or will be given it.
pub fn end(mut child: Child) -> Ended {
    let out = child.stdout.take().map(gather);
    let err = child.stderr.take().map(gather);
    let began = Instant::now();
    let status = loop {
        if let Some(status) = child.try_wait().unwrap() {
            break status;
        }
        if began.elapsed() > LIMIT {
            send_signal(-(child.id() as i32), 9);
            panic!("lister does not end");
        }
        sleep(Duration::from_millis(2));
    };
    let text = |from: Option<Receiver<Vec<u8>>>| {
        let bytes = from.map_or(vec![], |f| f.recv_timeout(LIMIT).expect("an end of what was written"));
        String::from_utf8(bytes).unwrap()
    };
    Ended { code: status.code(), out: text(out), err: text(err) }
}

/// Writes a whole input to a process that may end before it has read all, and waits for the end.
pub fn fed(mut child: Child, input: &[u8]) -> Ended {
    let writer = child.stdin.take().map(|to| in_pieces(to, input.to_vec(), |rest| rest, |_| ()));
    let ended = end(child);
    if let Some(writer) = writer {
        writer.join().unwrap();
    }
    ended
}

/// Writes an input on another thread, each time as many bytes as `length` says of those left, and then does `between`. It ends
/// where nobody reads any more.
pub fn in_pieces<W: Write + Send + 'static>(
    mut to: W,
    input: Vec<u8>,
    mut length: impl FnMut(usize) -> usize + Send + 'static,
    mut between: impl FnMut(&W) + Send + 'static,
) -> JoinHandle<()> {
    spawn(move || {
        let mut at = 0;
        while at < input.len() {
            let n = length(input.len() - at).clamp(1, input.len() - at);
            if to.write_all(&input[at..at + n]).and_then(|()| to.flush()).is_err() {
                return;
            }
            at += n;
            between(&to);
        }
    })
}

/// Waits until all that a pipe holds was read, so that what is written next comes by a read of its own. Not for long: it may be that
/// nobody reads any more.
pub fn wait_until_read(pipe: &impl AsRawFd) {
    const UNREAD: u64 = 0x541b;
    let began = Instant::now();
    while began.elapsed() < Duration::from_millis(50) {
        let mut unread = 0;
        assert_eq!(unsafe { ioctl(pipe.as_raw_fd(), UNREAD, &mut unread) }, 0);
        if unread == 0 {
            return;
        }
        yield_now();
    }
}

/// A process with its input, and its lines as they come.
pub fn with_lines(mut command: Command) -> (Child, ChildStdin, Receiver<String>) {
    let mut child = command.spawn().unwrap();
    let (to, lines) = (child.stdin.take().unwrap(), lines(child.stdout.take().unwrap()));
    (child, to, lines)
}

/// The lines that are written, each as soon as it comes.
pub fn lines(from: impl Read + Send + 'static) -> Receiver<String> {
    let (send, receive) = channel();
    spawn(move || {
        let mut from = BufReader::new(from);
        loop {
            let mut line = String::new();
            if from.read_line(&mut line).unwrap() == 0 || send.send(line).is_err() {
                return;
            }
        }
    });
    receive
}

/// All lines from here on to the end.
pub fn rest(lines: &Receiver<String>) -> String {
    let mut all = String::new();
    loop {
        match lines.recv_timeout(LIMIT) {
            Ok(line) => all += &line,
            Err(RecvTimeoutError::Disconnected) => return all,
            Err(RecvTimeoutError::Timeout) => panic!("what is written does not end"),
        }
    }
}

// ---- what the standard library has no name for

extern "C" {
    fn ioctl(descriptor: i32, request: u64, number: *mut i32) -> i32;
    fn fcntl(descriptor: i32, command: i32, ...) -> i32;
    fn setsockopt(socket: i32, level: i32, option: i32, value: *const i32, length: u32) -> i32;
    fn kill(process: i32, signal: i32) -> i32;
}

/// A pipe that holds so many bytes.
pub fn pipe_of(bytes: i32) -> (PipeReader, PipeWriter) {
    const SET_SIZE: i32 = 1031;
    let (from, to) = std::io::pipe().unwrap();
    assert_eq!(unsafe { fcntl(to.as_raw_fd(), SET_SIZE, bytes) }, bytes);
    (from, to)
}

/// Lets no read or write of this end wait.
pub fn set_non_blocking(end: &impl AsRawFd) {
    const GET_FLAGS: i32 = 3;
    const SET_FLAGS: i32 = 4;
    const NON_BLOCKING: i32 = 0o4000;
    let flags = unsafe { fcntl(end.as_raw_fd(), GET_FLAGS) };
    assert_eq!(unsafe { fcntl(end.as_raw_fd(), SET_FLAGS, flags | NON_BLOCKING) }, 0);
}

/// Ends a connection such that the peer's next read fails.
pub fn reset(socket: impl AsRawFd) {
    const SOCKET: i32 = 1;
    const LINGER: i32 = 13;
    let at_once = [1, 0];
    assert_eq!(unsafe { setsockopt(socket.as_raw_fd(), SOCKET, LINGER, at_once.as_ptr(), 8) }, 0);
}

/// The process of the program that this script runs.
pub fn program_of(script: &Child) -> i32 {
    let program = Path::new(PROGRAM).canonicalize().unwrap();
    let parent = |process: u32| -> Option<u32> {
        let stat = std::fs::read_to_string(format!("/proc/{process}/stat")).ok()?;
        stat.rsplit_once(')')?.1.split_whitespace().nth(1)?.parse().ok()
    };
    let below = |process: u32| std::iter::successors(Some(process), |p| parent(*p)).any(|p| p == script.id());
    let runs = |process: &u32| std::fs::read_link(format!("/proc/{process}/exe")).is_ok_and(|exe| exe == program);
    let all = std::fs::read_dir("/proc").unwrap().filter_map(|entry| entry.unwrap().file_name().to_str()?.parse().ok());
    all.filter(runs).find(|process| below(*process)).expect("the script runs the program") as i32
}

pub fn send_signal(process: i32, signal: i32) {
    assert_eq!(unsafe { kill(process, signal) }, 0);
}
