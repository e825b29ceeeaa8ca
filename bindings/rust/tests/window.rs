//! Support at every height, against a count made afresh.

use ergo_voting::{check_header_votes, Refusal, Window, WINDOW_LENGTH_MOST};

/// How many of the last headers have each byte among their votes; none has a 0.
fn recount(last: &[[u8; 3]]) -> [u16; 256] {
    let having = |byte: u8| last.iter().filter(|votes| votes.contains(&byte)).count() as u16;
    std::array::from_fn(|byte| if byte == 0 { 0 } else { having(byte as u8) })
}

#[test]
fn support_is_what_a_recount_gives() {
    for length in [1, 2, 3, 10] {
        let mut window = Window::new(length as u32).expect("a window");
        let (mut entered, mut refusals) = (Vec::new(), Vec::new());
        for draw in 0..512 {
            let (votes, before) = ([1, 8, 64].map(|each| [0, 0, 1, 255, 2, 120, 120, 128][draw / each % 8]), window.clone());
            let put = window.put(votes);
            assert_eq!(put, check_header_votes(votes));
            match put {
                Ok(()) => entered.push(votes),
                Err(refusal) => refusals.push(refusal.number()),
            }
            assert!(put.is_ok() || window == before, "a refused header leaves the window");
            let last = &entered[entered.len().saturating_sub(length)..];
            assert_eq!((window.length(), window.held(), *window.supports()), (length as u32, last.len() as u32, recount(last)));
        }
        assert!(entered.len() > 3 * length && [9, 10, 11].iter().all(|number| refusals.contains(number)));
    }
}

#[test]
fn lengths_of_windows() {
    assert_eq!([0, 4_097, u32::MAX].map(|length| Window::new(length).err()), [Some(Refusal::WindowLengthOutside); 3]);
    let mut window = Window::new(WINDOW_LENGTH_MOST).expect("a window");
    assert_eq!((0..2 * WINDOW_LENGTH_MOST).try_for_each(|_| window.put([0, 120, 0])), Ok(()));
    assert_eq!((window.held(), window.support(120), window.put([255, 0, 0])), (4_096, 4_096, Ok(())));
    assert_eq!([120, -1, 1].map(|id| window.support(id)), [4_095, 1, 0]);
}
