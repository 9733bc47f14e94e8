//! Sends requests to a proxy at a steady pace, and says what came of them in each slice of time.
//!
//!     timeline ADDRESS CONNECTIONS REQUESTS_A_SECOND SECONDS SLICE_MILLISECONDS
//!
//! It connects, prints `connected` and begins at the next line of its input. Each connection sends so many requests a
//! second, one at a time, of 1,000 keys and with values of 100 bytes: 9 of 10 are a `get`. What could not be sent while
//! an answer was late is not made up for. At the end it prints a line for each slice,
//!
//!     <answered> <errors> <closed> <microseconds of the slowest>
//!
//! each request in the slice in which it ended. A miss is an answer. An error line, a connection that ends within a
//! request and one second without an answer are errors; after the last two the client connects anew. A connection that
//! the proxy closed between two requests is counted as closed: the client sees that before it sends, and connects anew.
//! An answer to another request than the one that was sent ends the program with status 1.

mod exchange;

use exchange::{Choices, Exchange, Exchanges};
use std::io::{self, BufRead, ErrorKind, Read, Write};
use std::net::TcpStream;
use std::sync::{Arc, Barrier};
use std::time::{Duration, Instant};
use std::{env, process, thread};

const LIMIT: Duration = Duration::from_secs(1);
const ERRORS: [&[u8]; 3] = [b"SERVER_ERROR ", b"CLIENT_ERROR ", b"ERROR\r\n"];
const MISS: &[u8] = b"END\r\n";

#[derive(Clone, Default)]
struct Slice {
    answered: u64,
    errors: u64,
    closed: u64,
    slowest: Duration,
}

impl Slice {
    fn add(&mut self, other: &Slice) {
        self.answered += other.answered;
        self.errors += other.errors;
        self.closed += other.closed;
        self.slowest = self.slowest.max(other.slowest);
    }
}

enum Answer {
    Answered,
    ErrorLine,
}

/// Whether these bytes are a whole answer; of one that is not yet whole, none.
fn judge(read: &[u8], exchange: &Exchange) -> Option<Answer> {
    let is_error = |start: &&[u8]| read.starts_with(start) || start.starts_with(read);
    if read == exchange.answer || (read == MISS && exchange.request.starts_with(b"get ")) {
        Some(Answer::Answered)
    } else if ERRORS.iter().any(|start| is_error(start)) {
        read.ends_with(b"\r\n").then_some(Answer::ErrorLine)
    } else if exchange.answer.starts_with(read) || MISS.starts_with(read) {
        None
    } else {
        let [request, read] = [&exchange.request, read].map(String::from_utf8_lossy);
        give_up(&format!("a wrong answer to {:?}: {:?}", request, read))
    }
}

fn give_up(why: &str) -> ! {
    eprintln!("timeline: {}", why);
    process::exit(1)
}

fn read_answer(stream: &mut TcpStream, exchange: &Exchange) -> io::Result<Answer> {
    let mut room = [0; 4096];
    let mut filled = 0;
    loop {
        match stream.read(&mut room[filled..])? {
            0 => return Err(ErrorKind::UnexpectedEof.into()),
            read => filled += read,
        }
        if let Some(answer) = judge(&room[..filled], exchange) {
            return Ok(answer);
        }
    }
}

/// Whether the other side has closed the connection, or sent what nobody asked for.
fn is_closed(stream: &TcpStream) -> io::Result<bool> {
    stream.set_nonblocking(true)?;
    let seen = stream.peek(&mut [0]);
    stream.set_nonblocking(false)?;
    Ok(!matches!(seen, Err(error) if error.kind() == ErrorKind::WouldBlock))
}

/// A client with at most one connection, which it makes when it needs it.
struct Client<'a> {
    address: &'a str,
    stream: Option<TcpStream>,
}

impl Client<'_> {
    fn connection(&mut self) -> io::Result<&mut TcpStream> {
        if self.stream.is_none() {
            self.stream = Some(exchange::connect(self.address, LIMIT)?);
        }
        Ok(self.stream.as_mut().expect("it was just made"))
    }

    fn leave_if_closed(&mut self) -> bool {
        let closed = self.stream.as_ref().map_or(false, |stream| is_closed(stream).unwrap_or(true));
        if closed {
            self.stream = None;
        }
        closed
    }

    fn send(&mut self, exchange: &Exchange) -> io::Result<Answer> {
        let stream = self.connection()?;
        stream.write_all(&exchange.request)?;
        read_answer(stream, exchange)
    }

    /// One request, as the slice that it alone makes.
    fn ask(&mut self, exchange: &Exchange) -> Slice {
        let mut slice = Slice::default();
        slice.closed = self.leave_if_closed() as u64;
        let began = Instant::now();
        match self.send(exchange) {
            Ok(Answer::Answered) => slice.answered = 1,
            Ok(Answer::ErrorLine) => slice.errors = 1,
            Err(_) => {
                slice.errors = 1;
                self.stream = None;
            }
        }
        slice.slowest = began.elapsed();
        slice
    }
}

/// What all connections do.
struct Plan {
    address: String,
    connections: u32,
    interval: Duration,
    time: Duration,
    slice: Duration,
    exchanges: Exchanges,
}

impl Plan {
    fn slices(&self) -> Vec<Slice> {
        let count = self.time.as_secs_f64() / self.slice.as_secs_f64();
        vec![Slice::default(); count.ceil() as usize]
    }

    /// The connection of this number sends, each at another part of the interval.
    fn keep_asking(&self, number: u32, begin: &[Barrier; 2]) -> Vec<Slice> {
        let mut slices = self.slices();
        let mut client = Client { address: &self.address, stream: None };
        let mut choices = Choices(number as u64);
        if let Err(error) = client.connection() {
            give_up(&format!("no connection: {}", error));
        }
        begin.iter().for_each(|barrier| drop(barrier.wait()));
        let began = Instant::now();
        let mut due = began + self.interval * number / self.connections;
        while due < began + self.time {
            thread::sleep(due.saturating_duration_since(Instant::now()));
            let seen = client.ask(self.exchanges.choose(choices.next()));
            let place = (began.elapsed().as_secs_f64() / self.slice.as_secs_f64()) as usize;
            if let Some(slice) = slices.get_mut(place) {
                slice.add(&seen);
            }
            due = (due + self.interval).max(Instant::now());
        }
        slices
    }
}

fn wait_for_line() {
    println!("connected");
    io::stdin().lock().read_line(&mut String::new()).expect("a line");
}

fn run(plan: Plan) -> Vec<Slice> {
    let plan = Arc::new(plan);
    let all = plan.connections as usize + 1;
    let begin = Arc::new([Barrier::new(all), Barrier::new(all)]);
    let clients: Vec<_> = (0..plan.connections)
        .map(|number| {
            let (plan, begin) = (plan.clone(), begin.clone());
            thread::spawn(move || plan.keep_asking(number, &begin))
        })
        .collect();
    begin[0].wait();
    wait_for_line();
    begin[1].wait();
    let mut sums = plan.slices();
    for client in clients {
        let slices = client.join().expect("a connection");
        sums.iter_mut().zip(&slices).for_each(|(sum, slice)| sum.add(slice));
    }
    sums
}

fn main() {
    let words: Vec<String> = env::args().skip(1).collect();
    assert!(words.len() == 5, "the words are described at the head of timeline.rs");
    let number = |place: usize| words[place].parse::<f64>().expect("a number");
    let plan = Plan {
        address: words[0].clone(),
        connections: number(1) as u32,
        interval: Duration::from_secs_f64(1.0 / number(2)),
        time: Duration::from_secs_f64(number(3)),
        slice: Duration::from_secs_f64(number(4) / 1000.0),
        exchanges: Exchanges::new(1, 10, 100),
    };
    for slice in run(plan) {
        println!("{} {} {} {}", slice.answered, slice.errors, slice.closed, slice.slowest.as_micros());
    }
}
