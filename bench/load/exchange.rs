//! The requests that are sent to memcached or to a proxy before it, and the answers that are due.

use std::net::TcpStream;
use std::time::Duration;

const KEYS: usize = 1000;

/// A request, and the answer that is due to it.
pub struct Exchange {
    pub request: Vec<u8>,
    pub answer: Vec<u8>,
}

/// What the connections choose from.
pub struct Exchanges {
    gets: Vec<Exchange>,
    pub sets: Vec<Exchange>,
    sets_per_100: usize,
}

fn key(number: usize) -> String {
    format!("bench-key-{:06}", number % KEYS)
}

fn get(first: usize, keys: usize, value: &[u8]) -> Exchange {
    let mut request = b"get".to_vec();
    let mut answer = Vec::new();
    for number in first..first + keys {
        let key = key(number);
        request.extend_from_slice(format!(" {}", key).as_bytes());
        answer.extend_from_slice(format!("VALUE {} 0 {}\r\n", key, value.len()).as_bytes());
        answer.extend_from_slice(value);
        answer.extend_from_slice(b"\r\n");
    }
    request.extend_from_slice(b"\r\n");
    answer.extend_from_slice(b"END\r\n");
    Exchange { request, answer }
}

fn set(number: usize, value: &[u8]) -> Exchange {
    let mut request = format!("set {} 0 0 {}\r\n", key(number), value.len()).into_bytes();
    request.extend_from_slice(value);
    request.extend_from_slice(b"\r\n");
    Exchange { request, answer: b"STORED\r\n".to_vec() }
}

impl Exchanges {
    pub fn new(keys_per_get: usize, sets_per_100: usize, value_bytes: usize) -> Exchanges {
        let value = vec![b'v'; value_bytes];
        let gets = (0..KEYS / keys_per_get).map(|place| get(place * keys_per_get, keys_per_get, &value));
        let sets = (0..KEYS).map(|number| set(number, &value));
        Exchanges { gets: gets.collect(), sets: sets.collect(), sets_per_100 }
    }

    pub fn choose(&self, choice: usize) -> &Exchange {
        let list = if choice % 100 < self.sets_per_100 { &self.sets } else { &self.gets };
        &list[choice / 100 % list.len()]
    }
}

/// A linear congruential generator, by Knuth's constants.
pub struct Choices(pub u64);

impl Choices {
    pub fn next(&mut self) -> usize {
        self.0 = self.0.wrapping_mul(6364136223846793005).wrapping_add(1442695040888963407);
        (self.0 >> 33) as usize
    }
}

/// A connection on which a read or a write fails once it took longer than the limit.
pub fn connect(address: &str, limit: Duration) -> std::io::Result<TcpStream> {
    let stream = TcpStream::connect(address)?;
    stream.set_nodelay(true)?;
    stream.set_read_timeout(Some(limit))?;
    stream.set_write_timeout(Some(limit))?;
    Ok(stream)
}
