//! How long good clients wait beside those that pipeline a line without end.
//!
//!     floods ADDRESS GOOD REQUESTS_A_SECOND SECONDS OTHERS PIPELINED LINE
//!
//! Each good client sends so many `get`s a second, one at a time, of a key that is not there. Each of the others sends
//! the line so often before it waits for the first answer, and then goes on so; with 1 it sends one line at a time. For
//! an answer of several lines an `END` or a `VERSION` is the last. An empty LINE is a line without a word. At the end it
//! prints
//!
//!     <good requests> <microseconds of the median> <of the slowest hundredth> <of the slowest> <lines of the others>
//!
//! A connection that ends, and a good request without an answer for ten seconds, end the program with status 1.

use std::io::{self, ErrorKind, Read, Write};
use std::net::TcpStream;
use std::sync::atomic::{AtomicBool, AtomicU64, Ordering};
use std::thread;
use std::time::{Duration, Instant};
use std::{env, process};

const LIMIT: Duration = Duration::from_secs(10);
const REQUEST: &[u8] = b"get bench-floods-missing\r\n";
const ANSWER: &[u8] = b"END\r\n";
/// How an answer ends, whatever the line is.
const LAST: [&[u8]; 4] = [b"END\r", b"VERSION", b"ERROR", b"CLIENT_ERROR"];

fn give_up(why: &str) -> ! {
    eprintln!("floods: {}", why);
    process::exit(1)
}

fn connected(address: &str) -> TcpStream {
    let stream = TcpStream::connect(address).unwrap_or_else(|error| give_up(&format!("no connection: {}", error)));
    stream.set_nodelay(true).expect("a socket");
    stream.set_read_timeout(Some(LIMIT)).expect("a socket");
    stream
}

struct Plan {
    address: String,
    interval: Duration,
    time: Duration,
    pipelined: u64,
    line: Vec<u8>,
    answered: AtomicU64,
    over: AtomicBool,
}

fn ask(stream: &mut TcpStream) -> io::Result<()> {
    stream.write_all(REQUEST)?;
    let mut answer = [0; ANSWER.len()];
    stream.read_exact(&mut answer)?;
    if answer == ANSWER { Ok(()) } else { Err(ErrorKind::InvalidData.into()) }
}

/// The times of a good client's requests.
fn times(plan: &Plan, number: u32, all: u32) -> Vec<Duration> {
    let mut stream = connected(&plan.address);
    let mut times = Vec::new();
    let began = Instant::now();
    let mut due = began + plan.interval * number / all;
    while due < began + plan.time {
        thread::sleep(due.saturating_duration_since(Instant::now()));
        let sent = Instant::now();
        ask(&mut stream).unwrap_or_else(|error| give_up(&format!("a good client: {}", error)));
        times.push(sent.elapsed());
        due = (due + plan.interval).max(Instant::now());
    }
    times
}

/// Counts the answers in what comes in pieces.
struct Answers {
    line: Vec<u8>,
    count: u64,
}

impl Answers {
    fn take(&mut self, piece: &[u8]) {
        for byte in piece {
            if *byte != b'\n' {
                self.line.push(*byte);
                continue;
            }
            self.count += LAST.iter().any(|last| self.line.starts_with(last)) as u64;
            self.line.clear();
        }
    }
}

/// Sends the line so often, and then again as its answers come.
fn flood(plan: &Plan) {
    let mut stream = connected(&plan.address);
    let mut answers = Answers { line: Vec::new(), count: 0 };
    let mut room = vec![0; 65536];
    let mut sent = 0;
    while !plan.over.load(Ordering::Relaxed) {
        let missing = answers.count + plan.pipelined - sent;
        if 2 * missing >= plan.pipelined {
            stream.write_all(&plan.line.repeat(missing as usize)).unwrap_or_else(|error| give_up(&format!("a flood: {}", error)));
            sent += missing;
        }
        match stream.read(&mut room) {
            Ok(0) => give_up("a flood was closed"),
            Ok(read) => answers.take(&room[..read]),
            Err(error) => give_up(&format!("a flood: {}", error)),
        }
    }
    plan.answered.fetch_add(answers.count, Ordering::Relaxed);
}

fn main() {
    let words: Vec<String> = env::args().skip(1).collect();
    let number = |place: usize| -> u64 { words[place].parse().expect("a number") };
    let (good, others) = (number(1) as u32, number(4));
    let plan = Plan {
        address: words[0].clone(),
        interval: Duration::from_secs(1) / number(2) as u32,
        time: Duration::from_secs(number(3)),
        pipelined: number(5),
        line: format!("{}\r\n", words[6]).into_bytes(),
        answered: AtomicU64::new(0),
        over: AtomicBool::new(false),
    };
    let plan = &plan;
    let mut times: Vec<Duration> = thread::scope(|scope| {
        for _ in 0..others {
            scope.spawn(move || flood(plan));
        }
        thread::sleep(Duration::from_millis(500));
        let good: Vec<_> = (0..good).map(|number| scope.spawn(move || times(plan, number, good))).collect();
        let times = good.into_iter().flat_map(|client| client.join().expect("a client")).collect();
        plan.over.store(true, Ordering::Relaxed);
        times
    });
    times.sort();
    let at = |part: f64| times[((times.len() - 1) as f64 * part) as usize].as_micros();
    let answered = plan.answered.load(Ordering::Relaxed);
    println!("{} {} {} {} {}", times.len(), at(0.5), at(0.99), at(1.0), answered);
}
