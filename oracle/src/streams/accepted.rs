//! Streams whose records are all accepted.

use super::build::{headers, Groups, Parts, Stream, FORK, QUIET};
use super::case::Case;

/// Votes in the last epoch of a round that bring its total to 29,491.
const LAST_TOO_FEW: usize = 819;

pub fn cases() -> Vec<Case> {
    let streams: [(&str, Stream); 8] = [
        ("empty", Stream::mainnet()),
        ("quiet", Stream::mainnet().then(&[&[]])),
        ("approved", approved()),
        // Not approved: closed at +33, where the next round opens.
        ("failed", voted_too_few().then(&[&[], &[(700, FORK)], &[(2, FORK)], &[(2, FORK)]])),
        ("failed_opened_later", failed_opened_later()),
        ("ordinary", ordinary()),
        ("bodies", bodies()),
        ("updates", updates()),
    ];
    streams.map(|(name, s)| Case { name, accepted: s.accepted, refusal: 0, bytes: s.bytes }).into()
}

/// The 32 epochs of a round from 1,024, with two ordinary votes beside the vote for the fork. In three epochs all headers but
/// the first vote for the fork, and none counts; 28 have 1,024 votes, and the last has as many as are asked for. So the total
/// is 28,672 and those.
fn voted(last: usize, beside: [u8; 2]) -> Stream {
    let vote = [beside[0], beside[1], 120];
    let (all, but_first): (Groups, Groups) = (&[(1024, vote)], &[(1, QUIET), (1023, vote)]);
    let mut epochs = [all; 32];
    [5, 12, 20].into_iter().for_each(|i| epochs[i] = but_first);
    epochs[8] = &[(400, [0, 120, 0]), (624, [0, 7, 120])];
    let last = [(1, vote), (1024 - last, QUIET), (last - 1, vote)];
    epochs[31] = &last;
    Stream::mainnet().then(&epochs)
}

/// A total of 29,492, that is one more than too few.
pub fn voted_enough(beside: [u8; 2]) -> Stream {
    voted(LAST_TOO_FEW + 1, beside)
}

/// A total of 29,491.
pub fn voted_too_few() -> Stream {
    voted(LAST_TOO_FEW, [0, 0])
}

/// Approved, activated at +64, closed at +65, where the next round opens. Meanwhile parameter 1 rises to its greatest value
/// and parameter 2 falls to its least, and they stay there.
fn approved() -> Stream {
    let mut s = voted_enough([1, 254]).then(&[&[(513, [1, 254, 0])][..]; 32]);
    let votes = headers(&[(513, [0, 254, 1])]);
    s.accept(&s.next(votes).with_update(&[2, 0xd7, 1, 0x99, 3, 0]).bytes());
    s.then(&[&[(1024, FORK)], &[(10, QUIET), (1000, FORK)], &[(1, FORK), (10, QUIET), (3, FORK)], &[], &[]])
}

/// Not approved: closed at +33, where the other headers vote for the fork, and the next round opens at +34.
fn failed_opened_later() -> Stream {
    voted_too_few().then(&[&[], &[(1, QUIET), (1023, FORK)], &[(1024, FORK)], &[(1024, FORK)], &[]])
}

/// Ordinary votes up and down. 512 votes do not move a parameter, 513 do; votes that the first header does not have count for
/// nothing; ids from 121 up are passed over.
fn ordinary() -> Stream {
    Stream::mainnet().then(&[
        &[(1024, [3, 255, 0])],
        &[(512, [2, 5, 0])],
        &[(513, [2, 5, 0])],
        &[(1, [4, 0, 0]), (1023, [4, 6, 0])],
        &[(1024, [249, 8, 120])],
        &[(1, [0, 254, 1]), (1023, [1, 0, 254])],
        &[(512, [10, 9, 0]), (512, QUIET)],
        &[(512, [136, 119, 0]), (512, [120, 0, 0])],
        &[(1024, [121, 127, 120])],
        &[(1, [253, 0, 0]), (511, QUIET), (512, [0, 253, 0])],
        &[(1024, [252, 0, 3])],
        &[(1024, [252, 0, 3])],
        &[],
        &[],
    ])
}

/// Quiet records with a change each.
fn changed(changes: &[&dyn Fn(Parts) -> Parts]) -> Stream {
    let mut s = Stream::mainnet();
    changes.iter().for_each(|change| s.accept(&change(s.quiet()).bytes()));
    s
}

/// Bodies that are odd and are accepted: parameters and other fields that the table does not have; bytes after the last field; of two
/// equal ids the later counts; the number of fields in ten bytes; fields in falling order; the longest body.
fn bodies() -> Stream {
    let more = [([0, 9], vec![0, 0, 0, 7]), ([0, 200], vec![1, 2, 3, 4]), ([1, 1], vec![]), ([2, 124], vec![9; 64])];
    let count = |p: &Parts| [&[p.fields.len() as u8 | 0x80], &[0x80; 8][..], &[0x7e]].concat();
    changed(&[
        &|p| p.with(|p| p.fields.extend(more.clone())),
        &|p| p.with_more(0, &[0, 1, 4, 9]),
        &|p| p.with(|p| p.fields.insert(0, ([0, 1], vec![0; 4]))),
        &|p| p.clone().with_count(&count(&p), &[]),
        &|p| p.with(|p| p.fields.reverse()),
        &|p| p.clone().with_more(0, &vec![0xee; 32_768 - p.body().len()]),
    ])
}

/// Proposed updates that are odd and are read: none; bytes after the last status; counts from 2^31 up; a status of rule -32,536; rules
/// that are no rules, and one in a longer form; an empty one; and two, of which the first is read.
fn updates() -> Stream {
    changed(&[
        &|p| p.with_update(&[]),
        &|p| p.with_update(&[2, 0xd7, 1, 0x99, 3, 0, 0xff, 0xff]),
        &|p| p.with_update(&[0xff, 0xff, 0xff, 0xff, 0x0f, 0x80, 0x80, 0x80, 0x80, 0x08]),
        &|p| p.with_update(&[0, 1, 0x80, 0xfa, 1, 2, 77, 5, 6]),
        &|p| p.with_update(&[3, 0xff, 0xff, 3, 110, 0xd7, 0x81, 0x00, 0]),
        &|p| p.with_update(&[0, 0]),
        &|p| p.with_update(&[0, 0]).with_update(&[1]),
    ])
}
