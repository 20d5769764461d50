//! Takes a question stream apart into its questions.

const HEAD: usize = 5;

/// One question of the stream. It isn't whole if the input ends inside it; its body is then what
/// is there of it, and the question is the last one.
pub struct Question<'a> {
    pub kind: u8,
    pub body: &'a [u8],
    pub whole: bool,
}

pub fn questions(input: &[u8]) -> Vec<Question<'_>> {
    let mut found = Vec::new();
    let mut rest = input;
    while !rest.is_empty() {
        let (question, after) = first_question(rest);
        found.push(question);
        rest = after;
    }
    found
}

/// The question that non-empty bytes begin with, and the bytes after it.
fn first_question(bytes: &[u8]) -> (Question<'_>, &[u8]) {
    let kind = bytes[0];
    if bytes.len() < HEAD {
        return (Question { kind, body: &[], whole: false }, &[]);
    }
    let length = u32::from_le_bytes([bytes[1], bytes[2], bytes[3], bytes[4]]) as usize;
    let rest = &bytes[HEAD..];
    if rest.len() < length {
        return (Question { kind, body: rest, whole: false }, &[]);
    }
    (Question { kind, body: &rest[..length], whole: true }, &rest[length..])
}
