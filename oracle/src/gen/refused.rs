//! Books that are refused, by each number as often as by another, and calls on the forests that they leave; and
//! calls before the first book.

use super::books::damaged_book;
use super::calls::{clock, Forest};
use crate::book::Entry;
use crate::bounded::{Bounded, Call};
use crate::rng::Rng;
use crate::script::line_of;

/// The numbers by which a book is refused; 36 at the desk alone.
const NUMBERS: &[u8] = &[1, 2, 3, 4, 5, 6, 7, 8, 13, 32, 36];

const ARGUMENTS: &[u64] = &[0, 0, 0, 0, 1, 1, 2, 5, 63, 64, 255, 65536, u64::MAX];

/// A call of any kind, whatever there is.
fn any_call(rng: &mut Rng) -> Call {
    let (kind, table, index) = (rng.below(4), rng.pick(ARGUMENTS), rng.pick(ARGUMENTS));
    let (one, other) = (rng.pick(ARGUMENTS), rng.pick(ARGUMENTS));
    match kind {
        0 => Call::Open { goal: table },
        1 => Call::Search { table, index, turns: one },
        2 => Call::Peek { table, index, rounds: one, turns: other },
        _ => Call::Future { table, index, variant: one },
    }
}

/// Bytes that an entry refuses with this number.
fn refused_book(rng: &mut Rng, entry: Entry, limit: u64, number: u8) -> Vec<u8> {
    loop {
        let bytes = damaged_book(rng);
        if Bounded::by(entry, &bytes, limit).is_err_and(|told| told == number) {
            return bytes;
        }
    }
}

/// A refused book, and calls on the forest that it leaves.
pub fn refused_forest(rng: &mut Rng, out: &mut String) -> u64 {
    let number = rng.pick(NUMBERS);
    let limit = if number == 13 { rng.pick(&[0, u64::MAX]) } else { clock(rng) };
    let last = if number == 36 || rng.chance(50) { Entry::Desk } else { Entry::Old };
    let bytes = refused_book(rng, last, limit, number);
    let mut forest = Forest::through_both(last, rng, &bytes, limit, out);
    for _ in 0..forest.rng.range(2, 8) {
        let call = any_call(forest.rng);
        forest.call(call);
    }
    forest.calls
}

/// Calls before the first book, where there is no forest.
pub fn early_calls(rng: &mut Rng, out: &mut String) {
    for _ in 0..rng.range(1, 3) {
        *out += &line_of(any_call(rng));
    }
}
