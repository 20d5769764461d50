//! The table of refusals and the line that tells one.

pub enum Refusal {
    Short,
    Version,
    Counts,
    Layout,
    /// Holds the lowest queue with a bad field.
    Field(usize),
    Apart,
    /// Holds the lowest queue that can't be balanced together with those before it.
    Unbalanced(usize),
    CountsFail,
    Stuck,
    NoRetiming,
    Room,
    Hand,
    /// Holds the lowest queue with a new delay below 0.
    Negative(usize),
    Slow,
    Token,
}

/// The lines of an answer, or the line of the refusal, whichever question met it.
pub fn told(answer: Result<String, Refusal>) -> String {
    answer.unwrap_or_else(|refusal| line(&refusal))
}

fn line(refusal: &Refusal) -> String {
    let (number, word, place) = match refusal {
        Refusal::Short => (1, "short", 0),
        Refusal::Version => (2, "version", 0),
        Refusal::Counts => (3, "counts", 0),
        Refusal::Layout => (4, "layout", 0),
        Refusal::Field(queue) => (5, "field", *queue),
        Refusal::Apart => (6, "apart", 0),
        Refusal::Unbalanced(queue) => (16, "unbalanced", *queue),
        Refusal::CountsFail => (7, "counts-fail", 0),
        Refusal::Stuck => (8, "stuck", 0),
        Refusal::NoRetiming => (9, "no-retiming", 0),
        Refusal::Room => (11, "room", 0),
        Refusal::Hand => (12, "hand", 0),
        Refusal::Negative(queue) => (13, "negative", *queue),
        Refusal::Slow => (14, "slow", 0),
        Refusal::Token => (15, "token", 0),
    };
    format!("refused {number} {word} place {place}\n")
}
