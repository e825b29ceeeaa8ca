//! A window of support: each header is put and one support read, against a count made afresh over the last headers at each.

use std::hint::black_box;

use ergo_voting::ffi;
use oracle::rules::Votes;

use crate::streams::{headers_alone, FORK, VOTING};
use crate::timing::{best, RUNS};

const LENGTHS: [usize; 2] = [1_024, 4_096];
const SUPPORTS: usize = 256;

/// How many headers a run puts, and at how many a run counts afresh.
const PUT: usize = 500_000;
const COUNTED: usize = 10_000;

/// Bytes of headers that are looked through at once; a byte can count them.
const AT_ONCE: usize = 192;

/// Headers that are passed over at once if none has votes.
const PASSED: usize = 8;

type Form = fn(&Ring) -> [u16; SUPPORTS];

/// Ways to count all ids.
const FORMS: [(&str, Form); 3] =
    [("byte by byte", Ring::byte_by_byte), ("slot by slot", Ring::slot_by_slot), ("passing over", Ring::passing_over)];

pub fn time() {
    println!("{PUT} headers put into a window, one support read at each, and {COUNTED} counted afresh, the best of {RUNS} runs");
    for length in LENGTHS {
        VOTING.iter().for_each(|(name, voting)| timed(length, name, *voting));
    }
}

/// Both begin with the same full window.
fn timed(length: usize, name: &str, voting: usize) {
    let headers = headers_alone(PUT, voting);
    let (mut ring, mut cells) = (Ring { headers: vec![[0; 3]; length], oldest: 0 }, vec![0; SUPPORTS + 3 * length]);
    let mut window = ffi::ergo_window_new(length as u32, &mut cells);
    let mut put = |votes: Votes| {
        window = ffi::ergo_window_put(window as u64, &mut cells, &votes);
        assert!(window >= 0);
        cells[usize::from(FORK)]
    };
    headers.iter().for_each(|&votes| assert_eq!(put(votes), ring.after(votes).support(FORK)));
    let time = each(&headers, put);
    println!("{name}, {length}: put {time:.1} ns a header");
    for (form, supports) in FORMS {
        assert_eq!(cells[..SUPPORTS], supports(&ring));
        let all = each(&headers[..COUNTED], |votes| black_box(&supports(ring.after(votes)))[usize::from(FORK)]);
        println!("  all ids afresh, {form}: {all:.0} ns, ratio {:.0}", all / time);
        for &votes in &headers {
            ring.after(votes);
        }
    }
    let one = each(&headers[..COUNTED], |votes| ring.after(votes).support(FORK));
    println!("  one id afresh: {one:.0} ns, ratio {:.1}", one / time);
}

/// The time of a header, in nanoseconds.
fn each(headers: &[Votes], mut step: impl FnMut(Votes) -> u16) -> f64 {
    let seconds = best(|| {
        for &votes in headers {
            black_box(step(votes));
        }
    });
    seconds * 1e9 / headers.len() as f64
}

/// The last headers in memory, all of them legal: no test of votes is timed here, and no header has an id twice.
struct Ring {
    headers: Vec<Votes>,
    oldest: usize,
}

impl Ring {
    /// With a header in the place of the oldest.
    fn after(&mut self, votes: Votes) -> &Ring {
        self.headers[self.oldest] = votes;
        self.oldest = if self.oldest + 1 == self.headers.len() { 0 } else { self.oldest + 1 };
        self
    }

    fn byte_by_byte(&self) -> [u16; SUPPORTS] {
        let mut supports = [0; SUPPORTS];
        self.headers.as_flattened().iter().for_each(|&id| supports[usize::from(id)] += 1);
        supports[0] = 0;
        supports
    }

    /// Each slot has counts of its own, so that few sums wait for the one before.
    fn slot_by_slot(&self) -> [u16; SUPPORTS] {
        let mut slots = [[0; SUPPORTS]; 3];
        self.headers.iter().for_each(|votes| count(&mut slots, votes));
        sum(&slots)
    }

    /// As slot by slot; eight headers without votes are passed over at once, and others without votes one by one.
    fn passing_over(&self) -> [u16; SUPPORTS] {
        let mut slots = [[0; SUPPORTS]; 3];
        let (groups, rest) = self.headers.as_chunks::<PASSED>();
        let voting = groups.iter().filter(|group| **group != [[0; 3]; PASSED]).flatten().chain(rest);
        voting.filter(|votes| **votes != [0; 3]).for_each(|votes| count(&mut slots, votes));
        sum(&slots)
    }

    /// The support of one id, which is not 0.
    fn support(&self, id: u8) -> u16 {
        let groups = self.headers.as_flattened().chunks(AT_ONCE);
        groups.map(|bytes| u16::from(bytes.iter().map(|b| u8::from(*b == id)).sum::<u8>())).sum()
    }
}

fn count(slots: &mut [[u16; SUPPORTS]; 3], votes: &Votes) {
    slots.iter_mut().zip(votes).for_each(|(counts, &id)| counts[usize::from(id)] += 1);
}

fn sum([first, second, third]: &[[u16; SUPPORTS]; 3]) -> [u16; SUPPORTS] {
    let mut supports: [u16; SUPPORTS] = std::array::from_fn(|id| first[id] + second[id] + third[id]);
    supports[0] = 0;
    supports
}
