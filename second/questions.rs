//! Writes a question stream.
//! `questions SEED COUNT`: a systematic part comes first and is the same for every seed, then a
//! random part. The last of the COUNT questions is cut off in its middle.
//! `questions --random SEED COUNT`: COUNT sheets to plan, then COUNT questions of other kinds, all
//! of them random and none cut off.

mod ask_dispatch;
mod ask_hand;
mod ask_lent;
mod ask_malformed;
mod ask_move;
mod ask_origin;
mod ask_plan;
mod ask_random;
mod ask_read;
mod ask_write;
mod balanced;
mod bench_rows;
mod damage;
mod draft;
mod edges;
mod exact;
mod hand_lists;
mod heights;
mod islands;
mod known;
mod legal;
mod loops;
mod paths;
mod planned;
mod random;
mod rates;
mod refused;
mod shapes;
mod slow;
mod tight;
mod unbalanced;
mod undone;

use random::Random;
use std::collections::HashSet;
use std::io::{self, Write};
use std::process::ExitCode;

/// Holds questions up to a count. Those beyond it fall away, and those asked before.
pub struct Stream {
    bytes: Vec<u8>,
    asked: HashSet<Vec<u8>>,
    left: usize,
}

impl Stream {
    pub fn ask(&mut self, kind: u8, body: &[u8]) {
        let question = question(kind, body);
        if self.left > 0 && !self.asked.contains(&question) {
            self.left -= 1;
            self.bytes.extend_from_slice(&question);
            self.asked.insert(question);
        }
    }

    /// A question whose body ends in a sheet.
    pub fn ask_about(&mut self, kind: u8, head: &[u8], sheet: &[u8]) {
        self.ask(kind, &[head, sheet].concat());
    }

    /// Every beginning of a body, all of it, and then up to `more` bytes behind it.
    pub fn ask_lengths(&mut self, kind: u8, body: &[u8], more: usize) {
        let mut bytes = body.to_vec();
        bytes.resize(body.len() + more, 0);
        for length in 0..=bytes.len() {
            self.ask(kind, &bytes[..length]);
        }
    }
}

fn question(kind: u8, body: &[u8]) -> Vec<u8> {
    let mut bytes = vec![kind];
    bytes.extend_from_slice(&(body.len() as u32).to_le_bytes());
    bytes.extend_from_slice(body);
    bytes
}

fn main() -> ExitCode {
    let arguments: Vec<String> = std::env::args().skip(1).collect();
    let Some(bytes) = asked_for(&arguments) else {
        eprintln!("usage: questions [--random] SEED COUNT");
        return ExitCode::FAILURE;
    };
    match io::stdout().write_all(&bytes) {
        Ok(()) => ExitCode::SUCCESS,
        Err(error) => {
            eprintln!("questions: {error}");
            ExitCode::FAILURE
        }
    }
}

/// The stream that the arguments ask for, unless they are wrong.
fn asked_for(arguments: &[String]) -> Option<Vec<u8>> {
    match arguments {
        [seed, count] => Some(stream(seed.parse().ok()?, count.parse().ok()?)),
        [option, seed, count] if option == "--random" => {
            Some(random_stream(seed.parse().ok()?, count.parse().ok()?))
        }
        _ => None,
    }
}

fn stream(seed: u64, count: usize) -> Vec<u8> {
    if count == 0 {
        return Vec::new();
    }
    let mut random = Random::from_seed(seed);
    let mut stream = Stream { bytes: Vec::new(), asked: HashSet::new(), left: count - 1 };
    ask_read::systematic(&mut stream);
    ask_write::systematic(&mut stream);
    ask_plan::systematic(&mut stream);
    ask_lent::systematic(&mut stream);
    ask_hand::systematic(&mut stream);
    ask_move::systematic(&mut stream);
    ask_origin::systematic(&mut stream);
    ask_dispatch::systematic(&mut stream);
    ask_malformed::systematic(&mut stream);
    while stream.left > 0 {
        ask_random::any(&mut random, &mut stream);
    }
    stream.bytes.extend_from_slice(&cut_question(&mut random));
    stream.bytes
}

fn random_stream(seed: u64, count: usize) -> Vec<u8> {
    let mut random = Random::from_seed(seed);
    let mut stream = Stream { bytes: Vec::new(), asked: HashSet::new(), left: 0 };
    for ask in [ask_random::sheet, ask_random::other] {
        stream.left = count;
        while stream.left > 0 {
            ask(&mut random, &mut stream);
        }
    }
    stream.bytes
}

/// The beginning of a question: a part of its head, or its head and less body than that tells of.
fn cut_question(random: &mut Random) -> Vec<u8> {
    let body = ask_read::random_valid_body(random);
    let mut bytes = question(*random.pick(&[1, 2, 3, 4, 5, 6, 7, 8]), &body);
    match random.below(4) {
        0 | 1 => bytes.truncate(1 + random.below(4)),
        2 => bytes.truncate(5 + random.below(body.len())),
        _ => bytes[1..5].fill(255),
    }
    bytes
}
