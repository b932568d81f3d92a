//! Papers to be mended: with clauses twice, with literals of goals that are not there, and with goals that stand before
//! literals of an earlier clause. Some are damaged.

use super::books::{copies, damage, limit_book, plain_book, random_book, share_of_ranges, taste};
use crate::book::{Book, GOAL};
use crate::mend::{commands, is_literal};
use crate::rng::Rng;

/// A book that the desk may take.
fn whole(rng: &mut Rng) -> Book {
    if rng.chance(15) {
        return plain_book(rng).0;
    }
    if rng.chance(10) {
        if let Ok(book) = Book::read(&limit_book(rng)) {
            return book;
        }
    }
    let mut taste = taste(rng);
    taste.range = share_of_ranges(rng);
    if rng.chance(10) {
        taste.goals = (10, 64);
        taste.literals = rng.pick(&[(0, 3), (0, 8)]);
    }
    random_book(rng, &taste)
}

/// Up to so many literals come to name a goal that is not there: the next one, one whose low byte is that of a goal that
/// is there, the last of all.
fn undefine(rng: &mut Rng, book: &mut Book, most: u64) {
    let goals = book.goals.len() as u16;
    let mut literals: Vec<_> = book.clauses.iter_mut().flat_map(|clause| &mut clause.literals).collect();
    for _ in 0..most.min(literals.len() as u64) {
        let which = rng.below(literals.len() as u64) as usize;
        let there = rng.below(u64::from(goals)) as u16;
        literals[which].goal = rng.pick(&[goals, goals + 1, 64, 255, 256 + there, 0xff00 + there, 65535]);
    }
}

/// Goals, each of which may come to stand before literals of the clause that it stood behind: they stay that clause's.
fn loosened(rng: &mut Rng, bytes: &[u8], percent: u64) -> Vec<u8> {
    let mut commands = commands(bytes);
    for at in 1..commands.len() {
        let mut here = at;
        while commands[here][0] == GOAL && is_literal(commands[here - 1]) && rng.chance(percent) {
            commands.swap(here - 1, here);
            here -= 1;
        }
    }
    commands.concat()
}

/// A paper of which most that is wrong can be mended.
pub fn torn_paper(rng: &mut Rng) -> Vec<u8> {
    let mut book = whole(rng);
    let (before, most, after) =
        (rng.pick(&[0, 50, 80]), rng.pick(&[0, 0, 1, 1, 2, 5]), rng.pick(&[0, 30, 60, 90]));
    copies(rng, &mut book, before);
    undefine(rng, &mut book, most);
    // now and then a clause that goes for another reason comes twice
    copies(rng, &mut book, after);
    let percent = rng.pick(&[0, 30, 70, 100]);
    let mut bytes = loosened(rng, &book.bytes(), percent);
    if rng.chance(15) {
        damage(rng, &mut bytes);
    }
    bytes
}
