//! Keeps a memcached server, or a proxy before one, busy from several connections, and counts what it answers.
//!
//!     load ADDRESS fill VALUE_BYTES
//!     load ADDRESS CONNECTIONS SECONDS KEYS_PER_GET SETS_PER_100 VALUE_BYTES
//!
//! `fill` stores all keys. Otherwise each connection has one request out at a time, and the line `<requests> <seconds>`
//! is printed at the end. Each answer is compared with the one that is due, so what is counted was answered rightly.

mod exchange;

use exchange::{Choices, Exchange, Exchanges};
use std::env;
use std::io::{Read, Write};
use std::net::TcpStream;
use std::sync::{Arc, Barrier};
use std::thread;
use std::time::{Duration, Instant};

fn connect(address: &str) -> TcpStream {
    exchange::connect(address, Duration::from_secs(10)).expect("connect")
}

fn exchange(stream: &mut TcpStream, exchange: &Exchange, room: &mut Vec<u8>) {
    stream.write_all(&exchange.request).expect("write");
    room.resize(exchange.answer.len(), 0);
    read_due(stream, &exchange.answer, room);
}

/// Reads the answer that is due, and compares each part as it comes: an error line is shorter than the values in its
/// place, and more than it would be waited for until the time limit.
fn read_due(stream: &mut TcpStream, due: &[u8], room: &mut [u8]) {
    let mut read = 0;
    while read < due.len() {
        let more = stream
            .read(&mut room[read..])
            .unwrap_or_else(|fault| panic!("no answer after {} of {} bytes: {}", read, due.len(), fault));
        assert!(more > 0, "the connection was closed after {} of {} bytes", read, due.len());
        let end = read + more;
        assert!(room[read..end] == due[read..end], "a wrong answer: {}", String::from_utf8_lossy(&room[..end]));
        read = end;
    }
}

fn keep_busy(address: &str, exchanges: &Exchanges, seed: u64, begin: &Barrier, time: Duration) -> u64 {
    let mut stream = connect(address);
    let mut choices = Choices(seed);
    let mut room = Vec::new();
    let mut answered = 0;
    begin.wait();
    let ends = Instant::now() + time;
    while Instant::now() < ends {
        exchange(&mut stream, exchanges.choose(choices.next()), &mut room);
        answered += 1;
    }
    answered
}

fn measure(address: &str, connections: u64, time: Duration, exchanges: Exchanges) {
    let exchanges = Arc::new(exchanges);
    let begin = Arc::new(Barrier::new(connections as usize + 1));
    let busy: Vec<_> = (0..connections)
        .map(|seed| {
            let (address, exchanges, begin) = (address.to_string(), exchanges.clone(), begin.clone());
            thread::spawn(move || keep_busy(&address, &exchanges, seed, &begin, time))
        })
        .collect();
    begin.wait();
    let began = Instant::now();
    let answered: u64 = busy.into_iter().map(|one| one.join().expect("a connection")).sum();
    println!("{} {:.6}", answered, began.elapsed().as_secs_f64());
}

fn fill(address: &str, value_bytes: usize) {
    let mut stream = connect(address);
    let mut room = Vec::new();
    for store in &Exchanges::new(1, 0, value_bytes).sets {
        exchange(&mut stream, store, &mut room);
    }
}

fn main() {
    let words: Vec<String> = env::args().skip(1).collect();
    let number = |place: usize| words[place].parse::<usize>().expect("a number");
    if words.len() == 3 && words[1] == "fill" {
        fill(&words[0], number(2));
    } else if words.len() == 6 {
        let time = Duration::from_secs_f64(words[2].parse().expect("seconds"));
        measure(&words[0], number(1) as u64, time, Exchanges::new(number(3), number(4), number(5)));
    } else {
        panic!("the words are described at the head of load.rs");
    }
}
