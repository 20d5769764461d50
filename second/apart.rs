//! Check 6: whether the queues, directions ignored, leave some station unjoined.

use crate::sheet::Sheet;

/// Floods the stations from station 0 on. The sheet is apart if one stays dry.
pub fn apart(sheet: &Sheet) -> bool {
    let neighbours = neighbours(sheet);
    let mut reached = vec![false; sheet.stations.len()];
    let mut waiting = vec![0];
    while let Some(station) = waiting.pop() {
        if !reached[station] {
            reached[station] = true;
            waiting.extend(&neighbours[station]);
        }
    }
    reached.contains(&false)
}

/// For each station, the stations at the other ends of its queues.
fn neighbours(sheet: &Sheet) -> Vec<Vec<usize>> {
    let mut neighbours = vec![Vec::new(); sheet.stations.len()];
    for queue in &sheet.queues {
        let (source, sink) = (usize::from(queue.source), usize::from(queue.sink));
        neighbours[source].push(sink);
        neighbours[sink].push(source);
    }
    neighbours
}
