//! Lists of firings: the stations fired one at a time, always the lowest-numbered one that can be.

use crate::sheet::Sheet;

/// Fires each station as often as `firings` says, from these delays. Nothing if there are firings
/// left and none of them can be done.
pub fn list(sheet: &Sheet, delays: &[usize], firings: &[usize]) -> Option<Vec<usize>> {
    let mut tokens = delays.to_vec();
    let mut left = firings.to_vec();
    let mut list = Vec::new();
    while left.iter().any(|&firings| firings > 0) {
        let ready = |&station: &usize| left[station] > 0 && has_tokens(sheet, &tokens, station);
        let station = (0..left.len()).find(ready)?;
        fire(sheet, &mut tokens, station);
        left[station] -= 1;
        list.push(station);
    }
    Some(list)
}

fn has_tokens(sheet: &Sheet, tokens: &[usize], station: usize) -> bool {
    let mut queues = sheet.queues.iter().zip(tokens);
    queues.all(|(queue, &tokens)| {
        usize::from(queue.sink) != station || tokens >= usize::from(queue.consumed)
    })
}

/// Takes, then puts.
pub fn fire(sheet: &Sheet, tokens: &mut [usize], station: usize) {
    for (queue, tokens) in sheet.queues.iter().zip(tokens) {
        if usize::from(queue.sink) == station {
            *tokens -= usize::from(queue.consumed);
        }
        if usize::from(queue.source) == station {
            *tokens += usize::from(queue.produced);
        }
    }
}
