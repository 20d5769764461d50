//! Kind 4: writes a sheet from its fields into a lent buffer.

use crate::fields::Fields;
use crate::refusal::{self, Refusal};
use crate::sheet::{self, Queue, Station};

const MOST_LENT: u32 = 2_000;
const MOST_STATIONS: u16 = 100;
const MOST_QUEUES: u16 = 200;
const FILLER: u8 = 165;

/// What the writer is handed: the counts n and m stand apart from the records and may not fit them.
struct Request {
    version: u16,
    n: u16,
    m: u16,
    target: u32,
    lent: usize,
    stations: Vec<Station>,
    queues: Vec<Queue>,
}

/// Nothing if the body isn't exactly the fields of a request.
pub fn answer(body: &[u8]) -> Option<String> {
    let request = take_apart(body)?;
    let mut buffer = vec![FILLER; request.lent];
    let written = write(&request, &mut buffer);
    let mut text = refusal::told(written.map(|length| format!("written {length}\n")));
    text.push_str(&buffer_line(&buffer));
    Some(text)
}

fn take_apart(body: &[u8]) -> Option<Request> {
    let mut fields = Fields::of(body);
    let version = fields.u16()?;
    let n = fields.u16()?;
    let m = fields.u16()?;
    let target = fields.u32()?;
    let lent = fields.u32()?;
    let stations = fields.list(MOST_STATIONS, station)?;
    let queues = fields.list(MOST_QUEUES, queue)?;
    if lent > MOST_LENT || !fields.at_end() {
        return None;
    }
    Some(Request { version, n, m, target, lent: lent as usize, stations, queues })
}

fn station(fields: &mut Fields) -> Option<Station> {
    Some(Station { tag: fields.u16()?, time: fields.u16()? })
}

fn queue(fields: &mut Fields) -> Option<Queue> {
    Some(Queue {
        source: fields.u16()?,
        sink: fields.u16()?,
        produced: fields.u16()?,
        consumed: fields.u16()?,
        delay: fields.u16()?,
    })
}

/// Puts the sheet at the front of the buffer and tells its length. A refusal leaves the buffer alone.
fn write(request: &Request, buffer: &mut [u8]) -> Result<usize, Refusal> {
    if !sheet::version_known(request.version) {
        return Err(Refusal::Version);
    }
    let n = usize::from(request.n);
    let m = usize::from(request.m);
    if !sheet::counts_within_limits(n, m)
        || request.stations.len() != n
        || request.queues.len() != m
    {
        return Err(Refusal::Counts);
    }
    if let Some(place) = sheet::lowest_bad_queue(&request.queues, n) {
        return Err(Refusal::Field(place));
    }
    let sheet = sheet_bytes(request);
    if buffer.len() < sheet.len() {
        return Err(Refusal::Room);
    }
    buffer[..sheet.len()].copy_from_slice(&sheet);
    Ok(sheet.len())
}

fn sheet_bytes(request: &Request) -> Vec<u8> {
    let mut bytes = Vec::new();
    for field in [request.version, request.n, request.m, 0] {
        push_u16(&mut bytes, field);
    }
    push_u32(&mut bytes, sheet::HEADER_BYTES as u32);
    push_u32(&mut bytes, sheet::queue_part(request.stations.len()) as u32);
    push_u32(&mut bytes, request.target);
    for station in &request.stations {
        push_u16(&mut bytes, station.tag);
        push_u16(&mut bytes, station.time);
    }
    for queue in &request.queues {
        for field in [queue.source, queue.sink, queue.produced, queue.consumed, queue.delay] {
            push_u16(&mut bytes, field);
        }
    }
    bytes
}

fn push_u16(bytes: &mut Vec<u8>, number: u16) {
    bytes.extend_from_slice(&number.to_le_bytes());
}

fn push_u32(bytes: &mut Vec<u8>, number: u32) {
    bytes.extend_from_slice(&number.to_le_bytes());
}

/// A buffer of no bytes prints its word alone.
fn buffer_line(buffer: &[u8]) -> String {
    let mut line = String::from("buffer");
    if !buffer.is_empty() {
        line.push(' ');
    }
    for byte in buffer {
        line.push_str(&format!("{byte:02x}"));
    }
    line.push('\n');
    line
}
