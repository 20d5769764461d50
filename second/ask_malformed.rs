//! Questions that no kind can take apart. Only the kinds 0 and 255 stand for unknown ones, because
//! those between may be given a meaning.

use crate::{bench_rows, Stream};

pub fn systematic(stream: &mut Stream) {
    let sheet = bench_rows::sample().sheet();
    for kind in [0, 255] {
        stream.ask(kind, &[]);
        stream.ask(kind, &[kind]);
        stream.ask(kind, &sheet);
    }
    longest_bodies(stream);
}

/// The longest body, which is still a sheet of wrong length, and one byte more. The question after
/// it, which is asked nowhere else, shows that all of its bytes are passed over.
fn longest_bodies(stream: &mut Stream) {
    let mut body = bench_rows::sample().sheet();
    body.resize(70_001, 3);
    stream.ask(3, &body[..70_000]);
    stream.ask(3, &body);
    stream.ask(3, &bench_rows::k(6, 6).sheet());
}
