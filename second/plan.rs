//! Kinds 1 and 2: plans a sheet, with buffers that no plan outgrows or with lent ones.

use crate::buffers::{Buffers, MOST_ROUND, MOST_START, MOST_TIMES};
use crate::fields::Fields;
use crate::{planning, printed, refusal};

/// Any body is a sheet or refused, so that none is malformed.
pub fn answer(body: &[u8]) -> String {
    lines(body, &mut Buffers::lent(MOST_START, MOST_ROUND, MOST_TIMES))
}

/// Nothing if the body doesn't begin with three lengths within their limits.
pub fn answer_lent(body: &[u8]) -> Option<String> {
    let mut fields = Fields::of(body);
    let start = fields.u32()? as usize;
    let round = fields.u32()? as usize;
    let times = fields.u32()? as usize;
    if start > MOST_START || round > MOST_ROUND || times > MOST_TIMES {
        return None;
    }
    let mut buffers = Buffers::lent(start, round, times);
    let mut text = lines(fields.rest(), &mut buffers);
    text.push_str(&printed::list("kept", &buffers.kept()));
    Some(text)
}

fn lines(sheet: &[u8], buffers: &mut Buffers) -> String {
    refusal::told(planning::plan(sheet, buffers).map(|plan| printed::lines(&plan)))
}
