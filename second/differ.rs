//! Compares two programs' answers to one question stream: `differ COUNT QUESTIONS LIBRARY SECOND`.
//! Says nothing if there are COUNT questions and both answer them alike; else tells the first
//! question where they differ, and fails.

mod stream;

use std::process::ExitCode;
use stream::Question;

fn main() -> ExitCode {
    let arguments: Vec<String> = std::env::args().skip(1).collect();
    let [count, questions, library, second] = arguments.as_slice() else {
        eprintln!("usage: differ COUNT QUESTIONS LIBRARY SECOND");
        return ExitCode::FAILURE;
    };
    match report(count, questions, library, second) {
        Ok(None) => ExitCode::SUCCESS,
        Ok(Some(text)) => {
            print!("{text}");
            ExitCode::FAILURE
        }
        Err(error) => {
            eprintln!("differ: {error}");
            ExitCode::FAILURE
        }
    }
}

fn report(
    count: &str,
    questions: &str,
    library: &str,
    second: &str,
) -> std::io::Result<Option<String>> {
    let stream = std::fs::read(questions)?;
    let library = std::fs::read(library)?;
    let second = std::fs::read(second)?;
    let questions = stream::questions(&stream);
    if count.parse() != Ok(questions.len()) {
        return Ok(Some(format!(
            "{} questions were written instead of {count}\n",
            questions.len()
        )));
    }
    Ok(first_difference(&questions, &answers(&library), &answers(&second)))
}

/// Cuts the answers before each line that begins one. No byte is lost by it, so that streams which
/// differ have a differing answer.
fn answers(text: &[u8]) -> Vec<&[u8]> {
    let starts = |place: &usize| {
        *place == 0 || (text[place - 1] == b'\n' && text[*place..].starts_with(b"question "))
    };
    let mut places: Vec<usize> = (0..text.len()).filter(starts).collect();
    places.push(text.len());
    places.windows(2).map(|pair| &text[pair[0]..pair[1]]).collect()
}

/// Every question must have both answers, and there must be no answer more.
fn first_difference(questions: &[Question], library: &[&[u8]], second: &[&[u8]]) -> Option<String> {
    let most = questions.len().max(library.len()).max(second.len());
    for index in 0..most {
        let answers = (library.get(index), second.get(index));
        if answers.0 != answers.1 || answers.0.is_none() || index >= questions.len() {
            let mut text = told_question(index, questions.get(index));
            for (who, answers) in [("library", library), ("second program", second)] {
                text.push_str(&told_answer(who, answers, index, questions.len()));
            }
            return Some(text);
        }
    }
    None
}

fn told_question(index: usize, question: Option<&Question>) -> String {
    let Some(question) = question else {
        return format!("question {index} was never asked\n");
    };
    let cut = if question.whole { "" } else { ", cut off by the end of the input" };
    format!(
        "answers differ at question {index}, kind {}, body of {} bytes{cut}\nbody {}\n",
        question.kind,
        question.body.len(),
        hexadecimal(question.body)
    )
}

fn hexadecimal(body: &[u8]) -> String {
    body.iter().map(|byte| format!("{byte:02x}")).collect()
}

fn told_answer(who: &str, answers: &[&[u8]], index: usize, asked: usize) -> String {
    let Some(text) = answers.get(index) else {
        return format!("--- {who}: no answer, its answers end before this\n");
    };
    let newline = if text.ends_with(b"\n") { "" } else { "\n(no newline at its end)\n" };
    let last = index + 1 == answers.len() && index + 1 < asked;
    let end = if last { "(its answers end here)\n" } else { "" };
    format!("--- {who}:\n{}{newline}{end}", String::from_utf8_lossy(text))
}
