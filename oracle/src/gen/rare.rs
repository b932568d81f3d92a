//! Forests made on purpose, for the numbers that chance rarely meets.

use super::books::{any, not, want, Made};
use super::calls::{Forest, Haste};
use crate::book::Literal;
use crate::bounded::Call;
use crate::rng::Rng;

/// Delayed goals in number: 24, by a merge or by a coinductive cycle, or just not.
pub fn delayed_forest(rng: &mut Rng, out: &mut String, compact: bool) -> u64 {
    let mut made = Made::default();
    let root = made.goal(true);
    let middle = made.goal(true);
    // Either the answers merged delay eight goals together and a cycle comes last, or as chance has it.
    let exact = rng.chance(30);
    let (own, merges) = if exact { rng.pick(&[(4, 2), (2, 4)]) } else { (rng.range(1, 5), rng.range(1, 5)) };
    let mut literals: Vec<Literal> = (0..merges).map(|_| any(middle)).collect();
    for _ in 0..if exact { 1 } else { rng.below(3) } {
        let at = if exact { 0 } else { rng.below(literals.len() as u64 + 1) as usize };
        literals.insert(at, any(root));
    }
    literals.truncate(8);
    let variants = if compact { 1 } else { rng.range(1, 2) as u16 };
    for variant in 0..variants {
        made.clause(root, variant, literals.clone());
    }
    for variant in 0..rng.range(1, 2) as u16 {
        let literals = (0..own).map(|_| any(if rng.chance(15) { middle } else { root })).collect();
        made.clause(middle, variant, literals);
    }
    let clock = if rng.chance(90) { 1_000_000 } else { rng.range(1, 20) };
    let made = made.with_ranges(rng).with_copies(rng);
    let mut forest = Forest::begin(rng, &made.0.bytes(), clock, out);
    forest.call(Call::Open { goal: 0 });
    if compact {
        forest.call(Call::Search { table: 0, index: 0, turns: 100 });
        forest.calls_in(2, Haste::Short);
    } else {
        forest.random_calls(12);
    }
    forest.calls
}

/// Live strands in number: 22, in an open, at a copy, or where a search builds a table.
pub fn strands_forest(rng: &mut Rng, out: &mut String, compact: bool) -> u64 {
    let mut made = Made::default();
    let root = made.goal(false);
    let facts = made.goal(false);
    let bulk = made.goal(false);
    let literals = rng.range(2, 8);
    let mut calls: Vec<Call> = vec![Call::Open { goal: 0 }];
    let way = rng.below(if compact { 3 } else { 4 });
    if way == 3 {
        // A few clauses whose copies grow in number.
        made.clause(root, 1, (0..8).map(|_| any(facts)).collect());
        made.clause(root, 2, (0..7).map(|_| any(facts)).collect());
        for variant in 1..=rng.range(2, 5) as u16 {
            made.clause(facts, variant, vec![]);
        }
        for index in 0..3 {
            calls.push(Call::Peek { table: 0, index, rounds: 1000, turns: 5000 });
        }
    } else {
        // A goal with clauses in bulk: open before the copies are made (0), built by the search after
        // them (1), or opened after them (2).
        let last = if way == 1 { bulk } else { facts };
        let body = std::iter::once(last).chain(std::iter::repeat_n(facts, literals as usize - 1));
        made.clause(root, 1, body.map(any).collect());
        made.clause(facts, 1, vec![]);
        let few = rng.below(literals + 1);
        for i in 0..254 - few {
            made.clause(bulk, i as u16, vec![]);
        }
        if way == 0 {
            calls.push(Call::Open { goal: 2 });
        }
        calls.push(Call::Search { table: 0, index: 0, turns: 30 });
        calls.push(Call::Open { goal: 2 });
        calls.push(Call::Search { table: 0, index: 1, turns: 30 });
    }
    let made = made.with_ranges(rng).with_copies(rng);
    let mut forest = Forest::begin(rng, &made.0.bytes(), 1_000_000, out);
    for call in calls {
        forest.call(call);
        if forest.marked() {
            break;
        }
    }
    let more = if compact { 2 } else { 5 };
    forest.calls_in(more, Haste::Short);
    forest.calls
}

/// Answers in number, by facts and a few more that differ in their delayed goals alone: 23.
pub fn facts_forest(rng: &mut Rng, out: &mut String, compact: bool) -> u64 {
    let mut made = Made::default();
    let root = made.goal(true);
    let middle = made.goal(true);
    let end = made.goal(true);
    let facts = made.goal(false);
    made.clause(root, 6, vec![any(middle)]);
    let middles = rng.range(2, 5);
    for variant in 0..middles {
        made.clause(middle, 5 + variant as u16, vec![any(end)]);
    }
    made.clause(end, 1, vec![any(root)]);
    made.clause(end, 2, vec![]);
    // A caller that no answer fits runs through all of them in one peek.
    let caller = (!compact && rng.chance(70)).then(|| made.goal(false));
    let mut count = 253 - middles;
    if let Some(caller) = caller {
        made.clause(caller, 0, vec![want(facts, 60_000)]);
        count -= 1;
    }
    count -= rng.below(2);
    for variant in 1..=count {
        made.clause(facts, variant as u16, vec![]);
    }
    let made = made.with_ranges(rng).with_copies(rng);
    let mut forest = Forest::begin(rng, &made.0.bytes(), 1_000_000, out);
    if let Some(caller) = caller {
        forest.call(Call::Open { goal: u64::from(caller) });
        forest.call(Call::Peek { table: 0, index: 0, rounds: 1000, turns: 5000 });
    } else {
        forest.call(Call::Open { goal: u64::from(facts) });
        for index in 0..if forest.goals() > 0 { count } else { 1 } {
            forest.call(Call::Search { table: 0, index, turns: 10 });
        }
    }
    forest.peek_all(u64::from(root), 1000, 5000, 6);
    if !forest.marked() {
        forest.peek_all(u64::from(end), 1000, 5000, 6);
    }
    forest.calls_in(3, Haste::Short);
    forest.calls
}

/// Answers in number out of a small book: 23. The goals of a chain stay on the stack, since no answer fits
/// the literal of their only clause. Below them one goal's answers differ in what they delay, and another
/// takes some of these together, in every order.
pub fn chain_forest(rng: &mut Rng, out: &mut String) -> u64 {
    let mut made = Made::default();
    let (chain, length, width) =
        rng.pick(&[(2, 4, 2), (2, 4, 2), (2, 2, 4), (3, 3, 2), (4, 1, 4), (3, 2, 3), (2, 3, 2)]);
    for _ in 0..chain {
        made.goal(true);
    }
    let together = made.goal(true);
    let ends = made.goal(true);
    let variant = rng.range(1, 3) as u16;
    for goal in 0..chain {
        made.clause(goal, variant, vec![want(goal + 1, 9)]);
    }
    made.clause(together, variant, (0..width).map(|_| any(ends)).collect());
    for number in 0..chain.pow(length) {
        if rng.chance(99) {
            let literals = (0..length).map(|place| any(number / chain.pow(place) % chain));
            made.clause(ends, number + 1, literals.collect());
        }
    }
    if rng.chance(30) {
        made.clause(ends, 999, vec![]);
    }
    let made = made.with_ranges(rng).with_copies(rng);
    let mut forest = Forest::begin(rng, &made.0.bytes(), 1_000_000, out);
    forest.call(Call::Open { goal: 0 });
    forest.call(Call::Peek { table: 0, index: 0, rounds: 1000, turns: 5000 });
    forest.calls_in(3, Haste::Any);
    forest.calls
}

/// Small books near those cases of document 01 that stop: p4, p5, p6, p7 with something changed.
pub fn near_forest(rng: &mut Rng, out: &mut String, short: bool) -> u64 {
    let mut made = Made::default();
    match rng.pick(&[0, 0, 1, 2, 2, 2, 3, 3, 3]) {
        0 => {
            made.goal(true);
            made.goal(true);
            made.goal(rng.chance(20));
            made.clause(0, 0, vec![any(1)]);
            made.clause(1, rng.below(2) as u16, vec![any(0)]);
            made.clause(2, 0, vec![not(1)]);
        }
        1 => {
            made.goal(false);
            made.goal(false);
            made.0.goals[1].floundered = true;
            let mut literals = vec![not(1)];
            if rng.chance(50) {
                let at = rng.below(2) as usize;
                let literal = rng.pick(&[0, 1, 2]);
                literals.insert(at, any(literal));
                made.goal(false);
            }
            made.clause(0, 0, literals);
        }
        2 => {
            made.goal(false);
            made.goal(false);
            made.clause(0, rng.below(2) as u16, vec![any(0), any(1)]);
            for variant in 1..=rng.range(2, 4) as u16 {
                made.clause(1, variant, vec![]);
            }
        }
        _ => {
            made.goal(false);
            made.goal(false);
            made.clause(0, 0, vec![any(1)]);
            made.clause(0, 2, vec![]);
            made.clause(1, 1, vec![]);
            made.0.clauses[2].cannot_prove = true;
            made.clause(1, 1, vec![any(0)]);
        }
    }
    // Now and then a clause or a literal more.
    let goals = made.0.goals.len() as u64;
    if rng.chance(40) {
        let (goal, variant) = (rng.below(goals) as u16, rng.below(3) as u16);
        let literals = if rng.chance(50) { vec![any(rng.below(goals) as u16)] } else { vec![] };
        made.clause(goal, variant, literals);
    }
    if rng.chance(30) {
        let clauses = made.0.clauses.len() as u64;
        let clause = rng.below(clauses) as usize;
        let goal = rng.below(goals) as u16;
        made.0.clauses[clause].literals.insert(0, any(goal));
    }
    let clock = if rng.chance(85) { 1_000_000 } else { rng.range(1, 20) };
    let made = made.with_ranges(rng).with_copies(rng);
    let mut forest = Forest::begin(rng, &made.0.bytes(), clock, out);
    for goal in 0..goals {
        forest.call(Call::Open { goal });
    }
    if short {
        let haste = forest.rng.pick(&[Haste::Cuts, Haste::Short, Haste::Short]);
        forest.calls_in(22, haste);
    } else {
        forest.random_calls(16);
    }
    forest.calls
}
