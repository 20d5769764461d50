//! plan [SHEET]: plans a sheet, the paper's sample if none is named, and prints the plan or the
//! refusal.
use std::fmt::Display;
use std::mem::offset_of;

/// As `struct tasselbrook_planning` of include/tasselbrook.h, which says what each field holds.
#[repr(C)]
struct Planning {
    number: u32,
    place: u32,
    n: usize,
    m: usize,
    period: u32,
    rounds: usize,
    back: u32,
    starts: usize,
    total: usize,
    tag: [u16; 32],
    q: [u32; 32],
    retiming: [u32; 32],
    start: [u32; 32],
    delay: [u32; 64],
    room: [u32; 64],
}

// The layout on x86-64, worked out from the library's own struct (`Planning`, crates/exports).
const _: () = {
    assert!(std::mem::size_of::<Planning>() == 1024);
    assert!(offset_of!(Planning, number) == 0);
    assert!(offset_of!(Planning, place) == 4);
    assert!(offset_of!(Planning, n) == 8);
    assert!(offset_of!(Planning, m) == 16);
    assert!(offset_of!(Planning, period) == 24);
    assert!(offset_of!(Planning, rounds) == 32);
    assert!(offset_of!(Planning, back) == 40);
    assert!(offset_of!(Planning, starts) == 48);
    assert!(offset_of!(Planning, total) == 56);
    assert!(offset_of!(Planning, tag) == 64);
    assert!(offset_of!(Planning, q) == 128);
    assert!(offset_of!(Planning, retiming) == 256);
    assert!(offset_of!(Planning, start) == 384);
    assert!(offset_of!(Planning, delay) == 512);
    assert!(offset_of!(Planning, room) == 768);
};

extern "C" {
    fn tasselbrook_plan(
        s: *const u8,
        s_length: usize,
        start: *mut u16,
        start_length: usize,
        round: *mut u16,
        round_length: usize,
        times: *mut u32,
        times_length: usize,
    ) -> Planning;
}

/// By number; with buffers that no plan outgrows, planning gives no other refusal.
const WORDS: [&str; 17] = [
    "",
    "short",
    "version",
    "counts",
    "layout",
    "field",
    "apart",
    "counts-fail",
    "stuck",
    "no-retiming",
    "",
    "",
    "",
    "",
    "",
    "",
    "unbalanced",
];

/// Plans a sheet with three lent buffers of any length.
fn plan(s: &[u8], start: &mut [u16], round: &mut [u16], times: &mut [u32]) -> Planning {
    // Sound: the function asks nothing but slices, of which no two share what is written.
    unsafe {
        tasselbrook_plan(
            s.as_ptr(),
            s.len(),
            start.as_mut_ptr(),
            start.len(),
            round.as_mut_ptr(),
            round.len(),
            times.as_mut_ptr(),
            times.len(),
        )
    }
}

fn print_list<T: Display>(word: &str, list: &[T]) {
    let entries: String = list.iter().map(|entry| format!(" {entry}")).collect();
    println!("{word}{entries}");
}

fn print_plan(p: &Planning) {
    println!(
        "accepted period {} rounds {} back {}",
        p.period, p.rounds, p.back
    );
    for v in 0..p.n {
        let (tag, count, retime, start) = (p.tag[v], p.q[v], p.retiming[v], p.start[v]);
        println!("station {v} tag {tag} count {count} retime {retime} start {start}");
    }
    for e in 0..p.m {
        println!("queue {e} delay {} room {}", p.delay[e], p.room[e]);
    }
}

fn main() -> std::io::Result<()> {
    let name = std::env::args()
        .nth(1)
        .unwrap_or("samples/k43.sheet".to_string());
    let sheet = std::fs::read(name)?;
    let (mut start, mut round, mut times) = (vec![0; 65536], vec![0; 256], vec![0; 256]);
    let p = plan(&sheet, &mut start, &mut round, &mut times);
    if p.number == 0 {
        print_plan(&p);
        print_list("start", &start[..p.starts]);
        print_list("round", &round[..p.total]);
        print_list("times", &times[..p.total]);
    } else {
        println!(
            "refused {} {} place {}",
            p.number, WORDS[p.number as usize], p.place
        );
    }
    Ok(())
}
