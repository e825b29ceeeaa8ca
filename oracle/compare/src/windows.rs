//! Windows of support. The Rust has none but checks their headers: support is counted afresh here, over the headers that the Rust
//! accepts, and cells that no call left are put into by the words of docs/RULES.md.

use ergo_voting::ffi;
use oracle::inputs::random::Random;
use oracle::inputs::voting;
use oracle::rules::{self, Votes};

use crate::report::Report;

const LENGTHS: [u32; 6] = [1, 2, 1_023, 1_024, 4_095, 4_096];
const LONGEST: u32 = 4_096;
const SUPPORTS: usize = 256;
const OUTPUT_SHORT: i64 = 21;
const WINDOW_LENGTH_OUTSIDE: i64 = 33;

/// Of so few ids that their support grows.
const USUAL: [Votes; 6] = [[3, 0, 0], [0, 4, 120], [120, 0, 0], [0, 0, 253], [252, 3, 0], [1, 2, 120]];

/// How many headers are put into cells that no call left.
const TIMES: usize = 200_000;

/// How many cells a window of so many places has, and where the cells of the place with that number begin.
fn size(length: u32) -> usize {
    SUPPORTS + 3 * length as usize
}

fn window_of(length: u32, held: usize, oldest: usize) -> u64 {
    (u64::from(length) << 32) | ((held as u64) << 16) | oldest as u64
}

/// New windows, and headers put into them one after another. All cells are compared after every put, at every length.
pub fn header_by_header(report: &mut Report, random: &mut Random) {
    // Some lengths are in their range modulo 2^16; the cells are too few, enough, or more.
    for length in LENGTHS.into_iter().chain([0, 4_097, 65_535, 65_536, 65_537, 69_632, 1 << 31, u32::MAX]) {
        let full = size(length.min(LONGEST));
        for count in [0, 1, SUPPORTS - 1, SUPPORTS, full - 1, full, full + 1, full + random.below(9)] {
            new_window(report, length, cells(random, count));
        }
    }
    LENGTHS.into_iter().for_each(|length| over_headers(report, random, length));
}

/// Compares what a call answers and the cells that it leaves. Shown is the first cell that differs.
fn compare(report: &mut Report, input: impl Fn() -> String, rules: (i64, &[u16]), library: (i64, &[u16])) {
    report.count(rules == library, || {
        let cell = rules.1.iter().zip(library.1).position(|(one, other)| one != other).unwrap_or(0);
        let shown = |(answer, cells): (i64, &[u16])| format!("{answer}, cell {cell} is {:?}", cells.get(cell));
        let rust = format!("has no window; its header check and the rules say {}", shown(rules));
        [input(), rust, shown(library)]
    });
}

/// A new window in cells, compared with the rules: the window, or minus a refusal's number, and the cells.
fn new_window(report: &mut Report, length: u32, before: Vec<u16>) -> (i64, Vec<u16>) {
    let (mut expected, mut cells) = (before.clone(), before.clone());
    let rules = match expected.get_mut(..size(length.min(LONGEST))) {
        _ if length == 0 || length > LONGEST => -WINDOW_LENGTH_OUTSIDE,
        None => -OUTPUT_SHORT,
        Some(own) => {
            own.fill(0);
            window_of(length, 0, 0) as i64
        }
    };
    let answer = ffi::ergo_window_new(length, &mut cells);
    compare(report, || format!("a new window of {length} in the cells {before:?}"), (rules, &expected), (answer, &cells));
    (answer, cells)
}

/// Headers put into a new window. What is expected comes from the list of those that the Rust accepts, and never from the window:
/// at every put the supports are counted afresh, and the header stands in the place that its number in the list gives it. A
/// refused header leaves all cells as they were, and no cell behind the window changes.
fn over_headers(report: &mut Report, random: &mut Random, length: u32) {
    let more = random.below(9);
    let (mut window, mut cells) = new_window(report, length, cells(random, size(length) + more));
    let places = length as usize;
    let (headers, mut accepted, mut expected) = (headers(random, places), Vec::new(), cells.clone());
    for (i, &votes) in headers.iter().enumerate() {
        let mut rust = -check(votes);
        if rust == 0 {
            let at = SUPPORTS + 3 * (accepted.len() % places);
            expected[at..at + 3].copy_from_slice(&votes.map(u16::from));
            accepted.push(votes);
            let held = &accepted[accepted.len().saturating_sub(places)..];
            expected[..SUPPORTS].copy_from_slice(&supports(held));
            rust = window_of(length, held.len(), accepted.len() % places) as i64;
        }
        let answer = ffi::ergo_window_put(window as u64, &mut cells, &votes);
        let asked = || format!("a window of {length} after the headers {:?}", &headers[..=i]);
        compare(report, asked, (rust, &expected), (answer, &cells));
        window = if answer >= 0 { answer } else { window };
    }
    assert!(accepted.len() > 3 * places);
}

/// How many of the headers have each byte among their three; of 0 there are none. A legal header has none twice.
fn supports(headers: &[Votes]) -> [u16; SUPPORTS] {
    let mut supports = [0; SUPPORTS];
    headers.as_flattened().iter().for_each(|&id| supports[usize::from(id)] += 1);
    supports[0] = 0;
    supports
}

/// 0, or the number by which the Rust refuses.
fn check(votes: Votes) -> i64 {
    rules::check_header(votes).map_or_else(|refusal| refusal.number.into(), |()| 0)
}

/// Headers of more than three windows: mixed ones, then so many that are alike that their support reaches the length, then mixed
/// ones, by which it falls.
fn headers(random: &mut Random, places: usize) -> Vec<Votes> {
    let (count, alike) = ((2 * places).max(2_000), legal(random));
    let mut mixed = || (0..count).map(|_| header(random)).collect::<Vec<_>>();
    [mixed(), vec![alike; places + 100], mixed()].concat()
}

/// No votes, usual ones, any legal ones, those of the other kinds, and any bytes, most of them refused; now and then 0x80.
fn header(random: &mut Random) -> Votes {
    let mut votes = match random.below(10) {
        0 | 1 => [0; 3],
        2..=5 => random.pick(&USUAL),
        6 | 7 => legal(random),
        8 => voting::votes(random),
        _ => [0; 3].map(|_| random.byte()),
    };
    if random.one_in(20) {
        votes[random.below(3)] = 0x80;
    }
    votes
}

fn legal(random: &mut Random) -> Votes {
    let mut votes = [random.byte(), random.byte(), random.pick(&[0, 120])];
    votes.rotate_left(random.below(3));
    rules::check_header(votes).map_or_else(|_| legal(random), |()| votes)
}

/// Headers put into windows and cells that no call left, most of them of a few places; a header has now and then fewer bytes or more.
pub fn any_cells(report: &mut Report, random: &mut Random) {
    for _ in 0..TIMES {
        let (window, full) = any_window(random);
        let count = [full - 1, random.below(full), full + 1 + random.below(9)].get(random.below(8)).copied().unwrap_or(full);
        let (before, mut votes) = (cells(random, count), header(random).to_vec());
        votes.extend(random.bytes(3));
        votes.truncate(random.pick(&[0, 1, 2, 3, 3, 3, 3, 6]));
        let (mut expected, mut cells) = (before.clone(), before.clone());
        let rules = put_by_rules(window, &mut expected, &votes);
        let answer = ffi::ergo_window_put(window, &mut cells, &votes);
        let asked = || format!("window {window:016x}, the votes {votes:?} and the cells {before:?}");
        compare(report, asked, (rules, &expected), (answer, &cells));
    }
}

/// A number, and how many cells its length asks for. Now and then the length is above 4,096 or 0, the oldest's place beyond the
/// length, more is held than fits, or there are bits above the 48.
fn any_window(random: &mut Random) -> (u64, usize) {
    let any = random.number() % 65_536;
    let length = match random.below(200) {
        0 => random.pick(&[4_095, 4_096, 4_097, 65_535]),
        1 => any,
        2..10 => 0,
        _ => 1 + random.below(6) as u32,
    };
    let (places, other) = (length as usize, random.number() as usize % 65_536);
    let held = [places, other].get(random.below(4)).copied().unwrap_or(random.below(places + 2) % 65_536);
    let oldest = [places, other].get(random.below(8)).copied().unwrap_or(random.below(places.max(1)));
    let above = if random.one_in(4) { random.bits() << 48 } else { 0 };
    (above | window_of(length, held, oldest), size(length))
}

/// Cells with bytes that headers have, other numbers, and those at the ends of 16 bits.
fn cells(random: &mut Random, count: usize) -> Vec<u16> {
    let cell = |random: &mut Random| match random.below(4) {
        0 => random.bits() as u16,
        1 => random.pick(&[0, 1, 255, 256, 257, 4_096, 65_280, 65_535]),
        _ => random.pick(&[0, 1, 2, 3, 4, 120, 252, 253]),
    };
    (0..count).map(|_| cell(random)).collect()
}

/// docs/RULES.md, "In cells". A vote byte past the end counts as 0.
fn put_by_rules(window: u64, cells: &mut [u16], votes: &[u8]) -> i64 {
    let votes: Votes = [0, 1, 2].map(|slot| votes.get(slot).copied().unwrap_or(0));
    let [length, held, oldest] = [32, 16, 0].map(|bits| (window >> bits) as u16);
    if check(votes) != 0 {
        return -check(votes);
    }
    if u32::from(length) > LONGEST || oldest >= length || cells.len() < size(length.into()) {
        return -OUTPUT_SHORT;
    }
    for (at, id) in (size(oldest.into())..).zip(votes) {
        let (leaves, enters) = (usize::from(cells[at] % 256), usize::from(id));
        cells[at] = id.into();
        cells[leaves] = cells[leaves].wrapping_sub(u16::from(leaves != 0));
        cells[enters] = cells[enters].wrapping_add(u16::from(enters != 0));
    }
    let held = if held < length { held + 1 } else { held };
    window_of(length.into(), held.into(), ((oldest + 1) % length).into()) as i64
}
