//! Plain books of chance, levelled or not, for `oracle levels`; and books that are not quite plain.

use super::books::{any, copies, not, ranged, variant, Made};
use crate::book::{Book, Literal, MOST_CLAUSES, MOST_LITERALS};
use crate::rng::Rng;
use chalk_ir::Want;

/// A later clause that is equal to one of its goal goes: the desk takes what is left.
fn without_repeats(book: &mut Book) {
    let all = std::mem::take(&mut book.clauses);
    for clause in all {
        if !book.clauses.contains(&clause) {
            book.clauses.push(clause);
        }
    }
}

fn literal(positive: bool, goal: u64) -> Literal {
    if positive {
        any(goal as u16)
    } else {
        not(goal as u16)
    }
}

/// Goals that name any others, `nots` of a hundred literals by a "not".
fn of_any_goals(rng: &mut Rng, goals: u64, clauses: u64, literals: u64, nots: u64) -> Book {
    let mut made = Made::default();
    (0..goals).for_each(|_| _ = made.goal(false));
    for goal in 0..goals {
        for _ in 0..rng.range(0, clauses) {
            if made.0.clauses.len() < MOST_CLAUSES {
                let count = rng.range(0, literals);
                let body = (0..count).map(|_| literal(!rng.chance(nots), rng.below(goals))).collect();
                made.clause(goal as u16, 0, body);
            }
        }
    }
    made.0
}

/// A clause for each goal, with what it names. `ways`, for each two goals: 0 not at all, 1 by a positive literal, 2 by
/// a "not", 3 by both.
pub fn named_so(goals: usize, ways: &[usize]) -> Book {
    let mut made = Made::default();
    (0..goals).for_each(|_| _ = made.goal(false));
    for goal in 0..goals {
        let mut body = Vec::new();
        for other in 0..goals {
            let way = ways[goal * goals + other];
            body.extend((way & 1 != 0).then(|| any(other as u16)));
            body.extend((way & 2 != 0).then(|| not(other as u16)));
        }
        made.clause(goal as u16, 0, body);
    }
    made.0
}

/// A plain book of one to five goals that the desk takes: few enough to try all numberings.
pub fn few_goals(rng: &mut Rng) -> Book {
    let goals = rng.pick(&[1, 2, 3, 3, 4, 4, 5, 5, 5]);
    let (clauses, literals) = rng.pick(&[(1, 1), (1, 2), (2, 2), (1, 3), (3, 3)]);
    let nots = rng.pick(&[0, 10, 25, 50, 90]);
    let mut book = of_any_goals(rng, goals, clauses, literals, nots);
    without_repeats(&mut book);
    book
}

/// Levels of chance, and clauses that keep to them.
fn keeps_to_levels(rng: &mut Rng) -> Book {
    let goals = rng.range(2, 64);
    let count = rng.pick(&[1, 2, 4, 8, 64]);
    let levels: Vec<u64> = (0..goals).map(|_| rng.below(count)).collect();
    let most = rng.pick(&[1, 2, 4]);
    let mut made = Made::default();
    (0..goals).for_each(|_| _ = made.goal(false));
    for goal in 0..goals {
        for _ in 0..rng.range(0, most) {
            let mut body = Vec::new();
            for _ in 0..rng.range(0, MOST_LITERALS as u64) {
                let other = rng.below(goals);
                let (own, its) = (levels[goal as usize], levels[other as usize]);
                if its <= own {
                    body.push(literal(its == own || rng.chance(40), other));
                }
            }
            made.clause(goal as u16, 0, body);
        }
    }
    made.0
}

/// Each goal names the next in an order of chance, most by a "not"; now and then the last one names an earlier one.
fn chain(rng: &mut Rng) -> Book {
    let goals = rng.range(2, 64);
    let nots = rng.pick(&[3, 50, 95, 100]);
    let mut order: Vec<u64> = (0..goals).collect();
    match rng.below(3) {
        0 => order.reverse(),
        1 => {}
        _ => (1..order.len()).for_each(|at| order.swap(at, rng.below(at as u64 + 1) as usize)),
    }
    let mut made = Made::default();
    (0..goals).for_each(|_| _ = made.goal(false));
    for pair in order.windows(2) {
        made.clause(pair[0] as u16, 0, vec![literal(!rng.chance(nots), pair[1])]);
    }
    if rng.chance(60) {
        let last = order[order.len() - 1] as u16;
        let back = rng.below(goals) as usize;
        made.clause(last, 0, vec![literal(!rng.chance(nots), order[back])]);
    }
    made.0.clauses.sort_by_key(|clause| clause.goal);
    made.0
}

/// A plain book that the desk takes.
fn plain(rng: &mut Rng) -> Book {
    let mut book = match rng.below(10) {
        0..=2 => few_goals(rng),
        3..=4 => keeps_to_levels(rng),
        5..=6 => chain(rng),
        7 => {
            let (goals, nots) = (rng.range(6, 64), rng.pick(&[0, 2, 10]));
            of_any_goals(rng, goals, 2, 2, nots)
        }
        8 => {
            let (goals, nots) = (rng.range(6, 64), rng.pick(&[0, 1, 50]));
            of_any_goals(rng, goals, 6, MOST_LITERALS as u64, nots)
        }
        // levels, and one literal more, which may close a cycle
        _ => {
            let mut book = keeps_to_levels(rng);
            let (goals, clauses) = (book.goals.len() as u64, book.clauses.len() as u64);
            if clauses > 0 {
                let one = &mut book.clauses[rng.below(clauses) as usize].literals;
                one.truncate(MOST_LITERALS - 1);
                one.push(literal(rng.chance(50), rng.below(goals)));
            }
            book
        }
    };
    without_repeats(&mut book);
    book
}

/// One thing that makes a plain book another.
fn spoil(rng: &mut Rng, book: &mut Book) {
    let which = rng.below(9);
    if which < 2 || book.clauses.is_empty() {
        let goals = book.goals.len() as u64;
        let goal = &mut book.goals[rng.below(goals) as usize];
        let coinductive = rng.chance(50);
        (goal.coinductive, goal.floundered) = (coinductive, !coinductive);
        return;
    }
    let clauses = book.clauses.len() as u64;
    let clause = &mut book.clauses[rng.below(clauses) as usize];
    let literals = clause.literals.len() as u64;
    if which < 5 || literals == 0 {
        match rng.below(3) {
            0 => clause.variant = rng.pick(&[1, 256, 65535]),
            1 => clause.cannot_prove = true,
            _ => clause.outsized = true,
        }
        return;
    }
    let literal = &mut clause.literals[rng.below(literals) as usize];
    if !literal.positive || rng.chance(30) {
        literal.outsized = true;
    } else if rng.chance(50) {
        literal.want = Want::Exactly(variant(rng));
    } else {
        literal.want = ranged(rng);
    }
}

/// A plain book, one in four of which is spoiled, or has a clause twice, or names a goal that is not there.
pub fn nearly_plain(rng: &mut Rng) -> Vec<u8> {
    let mut book = plain(rng);
    let beyond = book.goals.len() as u16;
    match rng.below(20) {
        0..=2 => spoil(rng, &mut book),
        3 => copies(rng, &mut book, 60),
        4 => {
            let spoiled = rng.chance(50);
            if let Some(literal) = book.clauses.iter_mut().rev().flat_map(|c| &mut c.literals).next() {
                literal.goal = rng.pick(&[beyond, 64, 256, 65535]);
            }
            if spoiled {
                spoil(rng, &mut book);
            }
        }
        _ => {}
    }
    book.bytes()
}
