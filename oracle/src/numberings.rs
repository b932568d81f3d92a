//! `oracle numberings`: the levels held against all numberings there are, on books with few goals, and against
//! levels raised bit by bit on larger ones; the cycles against walks.
//!
//! Of n goals every numbering with the levels 0 to n is tried. More need not be: in a numbering that satisfies
//! the rule put in place of each level how many different levels lie below it. That keeps what is lower and what
//! is the same, so the rule still holds; no level has become higher; and each is below n, since n goals have at
//! most n levels. So where there is any numbering there is one below n, and the least of all is among those that
//! are tried. One level more than that is tried all the same.
//!
//! By each numbering that satisfies the rule the layered least model must be the same. Those without a gap are enough
//! for that: the model goes from level to level, and a level without a goal adds nothing.

use crate::book::Book;
use crate::demand3::model;
use crate::gen::{self, few_goals, nearly_plain};
use crate::levels::{check, is_plain, named, Named, Refused};
use crate::rng::Rng;
use crate::script::to_hex;

/// What was seen.
#[derive(Default)]
pub struct Seen {
    pub books: u64,
    /// Books that have a numbering, by their highest level, and those that have none.
    pub levelled: Vec<u64>,
    pub not_levelled: u64,
    /// Numberings that satisfy the rule, and those of them by which the model was worked out.
    pub numberings: u64,
    pub models: u64,
}

impl Seen {
    fn see(&mut self, said: &Result<Vec<usize>, Refused>) {
        self.books += 1;
        match said {
            Ok(levels) => {
                let highest = levels.iter().copied().max().unwrap_or(0);
                self.levelled.resize(self.levelled.len().max(highest + 1), 0);
                self.levelled[highest] += 1;
            }
            Err(_) => self.not_levelled += 1,
        }
    }

    pub fn told(&self) -> String {
        let levelled: u64 = self.levelled.iter().sum();
        let highest = self.levelled.len().saturating_sub(1);
        format!(
            "{} books, {levelled} levelled (highest level {highest}), {} not levelled",
            self.books, self.not_levelled
        )
    }
}

/// A positive literal names a goal of no higher level, a "not" one of a lower level.
fn satisfies(named: &Named, levels: &[usize]) -> bool {
    named
        .iter()
        .zip(levels)
        .all(|(steps, &own)| steps.iter().all(|&(to, not)| levels[to] + usize::from(not) <= own))
}

/// The numbering after this one, with levels up to `most`.
fn next(levels: &mut [usize], most: usize) -> bool {
    for level in levels {
        if *level < most {
            *level += 1;
            return true;
        }
        *level = 0;
    }
    false
}

/// Of each goal how many different levels lie below its own.
fn ranks(levels: &[usize]) -> Vec<usize> {
    let mut different = levels.to_vec();
    different.sort_unstable();
    different.dedup();
    levels.iter().map(|own| different.iter().filter(|other| *other < own).count()).collect()
}

/// Of all numberings that satisfy the rule.
#[derive(Default)]
struct All {
    /// Goal by goal the least level.
    least: Option<Vec<usize>>,
    found: u64,
    /// Those that have no level without a goal below one with a goal.
    gapless: Vec<Vec<usize>>,
}

fn all_numberings(named: &Named) -> Result<All, String> {
    let goals = named.len();
    let mut levels = vec![0; goals];
    let mut all = All::default();
    loop {
        if satisfies(named, &levels) {
            all.found += 1;
            let ranks = ranks(&levels);
            if !satisfies(named, &ranks) || ranks.iter().zip(&levels).any(|(r, l)| r > l || *r >= goals) {
                return Err(format!("the ranks {ranks:?} of {levels:?}"));
            }
            let least = all.least.get_or_insert_with(|| levels.clone());
            least.iter_mut().zip(&levels).for_each(|(a, b)| *a = (*a).min(*b));
            all.gapless.extend((ranks == levels).then_some(ranks));
        }
        if !next(&mut levels, goals) {
            return Ok(all);
        }
    }
}

/// The model by levels.
pub fn model_by(book: &Book, levels: &[usize]) -> Vec<bool> {
    model(book, &levels.iter().map(|level| *level as u64).collect::<Vec<_>>())
}

/// Levels raised one literal at a time, as long as one asks for more; none if a level comes to the number of goals.
fn raised(named: &Named) -> Option<Vec<usize>> {
    let mut levels = vec![0; named.len()];
    loop {
        let mut changed = false;
        for (goal, steps) in named.iter().enumerate() {
            for &(to, not) in steps {
                let asked = levels[to] + usize::from(not);
                if asked >= named.len() {
                    return None;
                }
                changed |= levels[goal] < asked;
                levels[goal] = levels[goal].max(asked);
            }
        }
        if !changed {
            return Some(levels);
        }
    }
}

/// The goals from which a walk leads back with a "not" among its steps: all that is come to from each, by the goal
/// and by whether there was a "not".
fn on_cycle(named: &Named) -> Vec<usize> {
    let comes_back = |start: usize| {
        let mut seen = vec![[false; 2]; named.len()];
        let mut ahead = vec![(start, false)];
        while let Some((goal, nots)) = ahead.pop() {
            for &(to, not) in &named[goal] {
                let nots = nots || not;
                if !std::mem::replace(&mut seen[to][usize::from(nots)], true) {
                    ahead.push((to, nots));
                }
            }
        }
        seen[start][1]
    };
    (0..named.len()).filter(|goal| comes_back(*goal)).collect()
}

/// What a plain book that the desk takes must get, by its least levels.
fn expected(named: &Named, least: Option<Vec<usize>>) -> Result<Vec<usize>, Refused> {
    least.ok_or_else(|| Refused { number: 38, on_cycle: on_cycle(named) })
}

fn held(book: &[u8], wanted: &Result<Vec<usize>, Refused>) -> Result<(), String> {
    let said = check(book);
    match wanted {
        Err(refused) if refused.on_cycle.is_empty() => Err("no numbering, and no cycle through \"not\"".into()),
        _ if said == *wanted => Ok(()),
        _ => Err(format!("expected {wanted:?}, found {said:?}")),
    }
    .map_err(|what| format!("{}: {what}", to_hex(book)))
}

/// A book with few goals, by all numberings.
fn by_numberings(book: &Book, seen: &mut Seen) -> Result<(), String> {
    let named = named(book);
    let bytes = book.bytes();
    let wrong = |what: String| format!("{}: {what}", to_hex(&bytes));
    let All { least, found, gapless } = all_numberings(&named).map_err(wrong)?;
    if let Some(least) = &least {
        if !satisfies(&named, least) {
            return Err(wrong(format!("{least:?} does not satisfy the rule")));
        }
        let model = model_by(book, least);
        if let Some(other) = gapless.iter().find(|other| model_by(book, other) != model) {
            return Err(wrong(format!("another model by {other:?} than by {least:?}")));
        }
        seen.models += gapless.len() as u64;
    }
    let wanted = expected(&named, least);
    held(&bytes, &wanted)?;
    seen.numberings += found;
    seen.see(&wanted);
    Ok(())
}

/// Every way in which the goals can name each other, with a clause for each goal: not at all, by a positive
/// literal, by a "not", by both.
fn every_way(goals: usize, seen: &mut Seen) -> Result<(), String> {
    let mut ways = vec![0; goals * goals];
    loop {
        by_numberings(&gen::named_so(goals, &ways), seen)?;
        if !next(&mut ways, 3) {
            return Ok(());
        }
    }
}

/// A larger book, by levels that are raised.
fn by_raising(bytes: &[u8], seen: &mut Seen) -> Result<(), String> {
    let Ok(book) = Book::desk(bytes) else { return Ok(()) };
    if !is_plain(&book) {
        return Ok(());
    }
    let named = named(&book);
    let wanted = expected(&named, raised(&named));
    held(bytes, &wanted)?;
    seen.see(&wanted);
    Ok(())
}

/// All books of up to three goals, COUNT of up to five, and COUNT of up to 64.
pub fn numberings(seed: u64, count: u64) -> Result<[Seen; 3], String> {
    let mut seen = [Seen::default(), Seen::default(), Seen::default()];
    for goals in 1..=3 {
        every_way(goals, &mut seen[0])?;
    }
    let each = |number: u64| -> Rng { gen::rng_of(seed, number) };
    for number in 0..count {
        by_numberings(&few_goals(&mut each(number)), &mut seen[1])?;
        by_raising(&nearly_plain(&mut each(number)), &mut seen[2])?;
    }
    // a check that only ever sees one of the two shows nothing
    let few = seen[1..].iter().find(|s| s.not_levelled * 10 < s.books || s.not_levelled * 10 > 9 * s.books);
    match few {
        Some(seen) => Err(format!("too few of one kind: {}", seen.told())),
        None => Ok(seen),
    }
}
