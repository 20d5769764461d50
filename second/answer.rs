//! Answers a question stream. It is written from the papers alone, so that the library's answers
//! can be compared with it byte for byte.

mod apart;
mod balance;
mod big;
mod buffers;
mod copies;
mod dispatch;
mod fields;
mod finishes;
mod firing;
mod hand;
mod one_move;
mod origin;
mod plan;
mod planning;
mod printed;
mod read;
mod ready;
mod refusal;
mod retiming;
mod rooms;
mod search;
mod sheet;
mod stream;
mod stuck;
mod write;

use std::io::{self, Read, Write};
use stream::Question;

const LONGEST_BODY: usize = 70_000;

fn main() -> io::Result<()> {
    let mut input = Vec::new();
    io::stdin().read_to_end(&mut input)?;
    let mut text = String::new();
    for (index, question) in stream::questions(&input).iter().enumerate() {
        text.push_str(&format!("question {index}\n"));
        match answer(question) {
            Some(lines) => text.push_str(&lines),
            None => text.push_str("malformed\n"),
        }
    }
    io::stdout().write_all(text.as_bytes())
}

/// The lines of the answer, or nothing if the question is malformed.
fn answer(question: &Question) -> Option<String> {
    if !question.whole || question.body.len() > LONGEST_BODY {
        return None;
    }
    match question.kind {
        1 => Some(plan::answer(question.body)),
        2 => plan::answer_lent(question.body),
        3 => Some(read::answer(question.body)),
        4 => write::answer(question.body),
        5 => hand::answer(question.body),
        6 => one_move::answer(question.body),
        7 => origin::answer(question.body),
        8 => dispatch::answer(question.body),
        _ => None,
    }
}
