//! A sheet that is ready to be planned: it has passed checks 1 to 8 with 16.

use crate::apart;
use crate::balance;
use crate::copies;
use crate::refusal::Refusal;
use crate::sheet::{self, Sheet};
use crate::stuck;

pub struct Ready {
    pub sheet: Sheet,
    pub counts: Vec<usize>,
}

pub fn read(bytes: &[u8]) -> Result<Ready, Refusal> {
    let sheet = sheet::read(bytes)?;
    if apart::apart(&sheet) {
        return Err(Refusal::Apart);
    }
    if let Some(queue) = balance::spoiling_queue(&sheet) {
        return Err(Refusal::Unbalanced(queue));
    }
    let counts = balance::counts(&sheet).ok_or(Refusal::CountsFail)?;
    if stuck::stuck(&copies::of(&sheet, &counts, &sheet.delays())) {
        return Err(Refusal::Stuck);
    }
    Ok(Ready { sheet, counts })
}
