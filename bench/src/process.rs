//! What the system counts: this thread's processor time; and of a program run once what it writes, the processor time that
//! it took, and the most memory.

use std::io::{Read, Write};
use std::os::fd::AsRawFd;
use std::process::{Child, ChildStdout, Command, Stdio};
use std::time::Duration;

/// What the system counts of a process that has ended: seconds and microseconds in the program and in the system come first.
#[repr(C)]
struct Usage([i64; 18]);

extern "C" {
    fn wait4(pid: i32, status: *mut i32, options: i32, usage: *mut Usage) -> i32;
    fn fcntl(fd: i32, what: i32, size: i32) -> i32;
    fn clock_gettime(clock: i32, time: *mut [i64; 2]) -> i32;
}

/// Linux's number of the clock that runs while this thread does.
const THREAD_CLOCK: i32 = 3;

/// Linux's numbers: how large a pipe is to be, and the least that it can be.
const SET_PIPE_SIZE: i32 = 1031;
const LEAST_PIPE: i32 = 4096;

/// The processor time that this thread has had.
pub fn own_time() -> Duration {
    let mut time = [0; 2];
    let told = unsafe { clock_gettime(THREAD_CLOCK, &mut time) };
    assert_eq!(told, 0, "the system tells the time");
    Duration::new(time[0] as u64, time[1] as u32)
}

/// The program with its input handed over, and its output.
fn start(words: &[&str], input: &[u8], pipe: Option<i32>) -> (Child, ChildStdout) {
    let mut child = Command::new(words[0])
        .args(&words[1..])
        .stdin(Stdio::piped())
        .stdout(Stdio::piped())
        .spawn()
        .expect("the program starts");
    let output = child.stdout.take().expect("standard output is piped");
    if let Some(size) = pipe {
        let set = unsafe { fcntl(output.as_raw_fd(), SET_PIPE_SIZE, size) };
        assert_eq!(set, size, "the pipe's size cannot be set");
    }
    let mut file = child.stdin.take().expect("standard input is piped");
    file.write_all(input).expect("the program reads");
    (child, output)
}

/// What a program writes, and its processor time from start to end, which does not grow where it has to wait for others.
pub fn run_program(words: &[&str], input: &[u8]) -> (Vec<u8>, Duration) {
    let (child, mut output) = start(words, input, None);
    let mut text = Vec::new();
    output.read_to_end(&mut text).expect("the program writes");
    let (mut status, mut usage) = (0, Usage([0; 18]));
    let pid = child.id() as i32;
    let ended = unsafe { wait4(pid, &mut status, 0, &mut usage) };
    assert_eq!((ended, status), (pid, 0), "the program ends well");
    let [seconds, micros, system_seconds, system_micros, ..] = usage.0;
    let micros = 1_000_000 * (seconds + system_seconds) + micros + system_micros;
    (text, Duration::from_micros(micros as u64))
}

/// The most KB that a program took before it wrote its output, which must be longer than a page. Its output goes into a pipe
/// of one page, so that it stands still, with all its work done, once a byte has come.
pub fn most_kilobytes(words: &[&str], input: &[u8]) -> u64 {
    let (mut child, mut output) = start(words, input, Some(LEAST_PIPE));
    let mut first = [0];
    output.read_exact(&mut first).expect("the program writes");
    let status = std::fs::read_to_string(format!("/proc/{}/status", child.id()))
        .expect("the system tells of a process");
    let mut rest = Vec::new();
    output.read_to_end(&mut rest).expect("the program writes");
    child.wait().expect("the program ends");
    assert!(
        rest.len() >= LEAST_PIPE as usize,
        "too short an output: the program had ended"
    );
    let line = status
        .lines()
        .find_map(|line| line.strip_prefix("VmHWM:"))
        .expect("the system counts memory");
    line.trim()
        .trim_end_matches(" kB")
        .parse()
        .expect("a count")
}
