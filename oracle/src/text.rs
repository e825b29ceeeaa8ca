//! Rows: a call and its answer as a line of text, in the form of docs/VECTORS.md.

use crate::call::{Answer, Call};

/// A run of equal bytes, or of equal headers, has its count from so many bytes on.
const RUN: usize = 12;

/// Bytes: pieces with `+` between them, a run with its count. `-` is none.
pub fn hex(bytes: &[u8]) -> String {
    let (mut pieces, mut plain, mut at) = (Vec::new(), 0, 0);
    while at < bytes.len() {
        let Some((size, times)) = run(&bytes[at..]) else {
            at += 1;
            continue;
        };
        pieces.push(digits(&bytes[plain..at]));
        pieces.push(format!("{}*{times}", digits(&bytes[at..at + size])));
        at += size * times;
        plain = at;
    }
    pieces.push(digits(&bytes[plain..]));
    pieces.retain(|piece| !piece.is_empty());
    if pieces.is_empty() {
        return "-".to_owned();
    }
    pieces.join("+")
}

fn digits(bytes: &[u8]) -> String {
    bytes.iter().map(|byte| format!("{byte:02x}")).collect()
}

/// The run that bytes begin with, if there is one, and none that is as long begins a byte later: its size and how often it stands there.
fn run(bytes: &[u8]) -> Option<(usize, usize)> {
    let times = |bytes: &[u8], size| bytes.chunks_exact(size).take_while(|piece| *piece == &bytes[..size]).count();
    let sized = |size| Some((size, times(bytes, size))).filter(|(size, times)| size * times >= RUN);
    sized(1).or_else(|| sized(3).filter(|(size, count)| times(&bytes[1..], *size) < *count))
}

/// The name and the arguments, a space before each argument.
pub fn call(call: &Call) -> String {
    call.arguments.iter().fold(call.name.to_owned(), |text, argument| text + " " + &hex(argument))
}

/// The number, and the bytes if there are any.
pub fn answer(answer: &Answer) -> String {
    let bytes = if answer.bytes.is_empty() { String::new() } else { format!(" {}", hex(&answer.bytes)) };
    format!("{:02}{bytes}", answer.number)
}

pub fn row(asked: &Call, given: &Answer) -> String {
    format!("{} = {}\n", call(asked), answer(given))
}

/// The call and the answer of a line. None where it is out of form or has another name than these.
pub fn read(line: &str, names: &[&'static str]) -> Option<(Call, Answer)> {
    let (asked, given) = line.split_once(" = ")?;
    let mut words = asked.split(' ');
    let word = words.next()?;
    let name = *names.iter().find(|name| **name == word)?;
    let arguments = words.map(bytes).collect::<Option<_>>()?;
    let (number, told) = given.split_at_checked(2).filter(|(number, _)| number.bytes().all(|digit| digit.is_ascii_digit()))?;
    let bytes = if told.is_empty() { Vec::new() } else { pieces(told.strip_prefix(' ')?)? };
    Some((Call { name, arguments }, Answer { number: number.parse().ok()?, bytes }))
}

fn bytes(word: &str) -> Option<Vec<u8>> {
    Some(word).filter(|word| *word != "-").map_or(Some(Vec::new()), pieces)
}

/// Pieces with `+` between them: hexadecimal bytes, or such bytes, `*` and how many times they stand there.
fn pieces(word: &str) -> Option<Vec<u8>> {
    let digit = |c: char| c.to_digit(16).filter(|_| !c.is_ascii_uppercase()).map(|digit| digit as u8);
    let piece = |text: &str| {
        let (digits, times) = text.split_once('*').unwrap_or((text, "1"));
        let digits: Vec<u8> = digits.chars().map(digit).collect::<Option<_>>()?;
        let (pairs, left) = digits.as_chunks::<2>();
        let bytes: Vec<u8> = pairs.iter().map(|[high, low]| 16 * high + low).collect();
        (left.is_empty() && !bytes.is_empty()).then_some(bytes.repeat(times.parse().ok()?))
    };
    word.split('+').map(piece).collect::<Option<Vec<_>>>().map(|pieces| pieces.concat())
}
