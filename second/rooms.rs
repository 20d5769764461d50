//! The room of each queue: the most tokens that it holds at the start or after any firing, when the
//! start list is fired from the sheet's delays and then the round list once.

use crate::firing;
use crate::sheet::Sheet;

pub fn of(sheet: &Sheet, start: &[usize], round: &[usize]) -> Vec<usize> {
    let mut tokens = sheet.delays();
    let mut most = tokens.clone();
    for &station in start.iter().chain(round) {
        firing::fire(sheet, &mut tokens, station);
        most = most.iter().zip(&tokens).map(|(&most, &tokens)| most.max(tokens)).collect();
    }
    most
}
