//! `oracle levels`: the levelled profile. A plain book gets the least level of each goal, from 0; or 38, and the
//! goals that are on a cycle through "not".
//!
//! The definitions raise levels pass by pass. Here the goals are parted into components: two goals are in one if
//! each leads to the other. In a numbering that satisfies the rule the goals of a component have one level, so
//! that a "not" within a component leaves none. Without such a "not" the level of a component is the largest
//! number of "not"s on a way down from it.

use crate::book::{Book, Clause, Literal};
use crate::numberings::model_by;
use chalk_ir::Want;
use std::fmt::Write;
use std::time::{Duration, Instant};

/// Why a book gets no levels: the number, and with 38 the goals on a cycle through "not", in their order.
#[derive(Clone, Debug, PartialEq, Eq)]
pub struct Refused {
    pub number: u8,
    pub on_cycle: Vec<usize>,
}

impl Refused {
    fn by(number: u8) -> Refused {
        Refused { number, on_cycle: Vec::new() }
    }
}

/// Of each goal what the literals of its clauses name: the goal, and whether it is a "not".
pub type Named = Vec<Vec<(usize, bool)>>;

pub fn named(book: &Book) -> Named {
    let mut named = vec![Vec::new(); book.goals.len()];
    for clause in &book.clauses {
        named[clause.goal].extend(clause.literals.iter().map(|l| (usize::from(l.goal), !l.positive)));
    }
    named
}

/// Every variant 0, every positive literal by command 50 with want 0, every flag clear.
pub fn is_plain(book: &Book) -> bool {
    let literal = |literal: &Literal| literal.want == Want::Any && !literal.outsized;
    book.goals.iter().all(|goal| !goal.coinductive && !goal.floundered)
        && book.clauses.iter().all(|clause| {
            clause.variant == 0 && !clause.cannot_prove && !clause.outsized && clause.literals.iter().all(literal)
        })
}

/// All that is not plain in a clause, the `number`th of its goal: the place and what it is, with numbers that say which comes first.
fn faults_of(clause: &Clause, number: usize, out: &mut Vec<([usize; 4], String)>) {
    let goal = clause.goal;
    let mut fault = |literal: Option<usize>, rank: usize, what: &str| {
        let deeper = literal.map_or(String::new(), |literal| format!(", literal {literal}"));
        let at = literal.map_or(0, |literal| literal + 1);
        out.push(([goal, number + 1, at, rank], format!("goal {goal}, clause {number}{deeper}: a {what}\n")));
    };
    if clause.variant != 0 {
        fault(None, 0, "variant");
    }
    if clause.cannot_prove || clause.outsized {
        fault(None, 1, "flag");
    }
    for (at, literal) in clause.literals.iter().enumerate() {
        match literal.want {
            Want::Any => {}
            Want::Exactly(_) => fault(Some(at), 0, "want"),
            Want::Between(..) => fault(Some(at), 0, "range"),
        }
        if literal.outsized {
            fault(Some(at), 1, "flag");
        }
    }
}

/// A line with the first place that is not plain, in book order; none of a book that is plain or that the desk refuses.
pub fn place_line(bytes: &[u8]) -> String {
    let Ok(book) = Book::desk(bytes) else { return String::new() };
    let mut faults = Vec::new();
    for (goal, flags) in book.goals.iter().enumerate() {
        if flags.coinductive || flags.floundered {
            faults.push(([goal, 0, 0, 0], format!("goal {goal}: a flag\n")));
        }
    }
    let mut counted = vec![0; book.goals.len()];
    for clause in &book.clauses {
        faults_of(clause, counted[clause.goal], &mut faults);
        counted[clause.goal] += 1;
    }
    faults.into_iter().min().map_or(String::new(), |(_, line)| line)
}

/// The goals that are led to from a goal and were not seen before, each after those that it leads to, but for
/// those on a cycle with it.
fn walk(goal: usize, leads: &[Vec<usize>], seen: &mut [bool], done: &mut Vec<usize>) {
    if std::mem::replace(&mut seen[goal], true) {
        return;
    }
    for &other in &leads[goal] {
        walk(other, leads, seen, done);
    }
    done.push(goal);
}

/// The components, each after those that it leads to.
fn components(named: &Named) -> Vec<Vec<usize>> {
    let goals = named.len();
    let forward: Vec<Vec<usize>> = named.iter().map(|all| all.iter().map(|&(to, _)| to).collect()).collect();
    let mut back = vec![Vec::new(); goals];
    for (from, all) in forward.iter().enumerate() {
        all.iter().for_each(|&to| back[to].push(from));
    }
    let mut order = Vec::new();
    let mut seen = vec![false; goals];
    (0..goals).for_each(|goal| walk(goal, &forward, &mut seen, &mut order));
    // the other way round, from the goal that was done last: what is found then also leads there
    let mut found = Vec::new();
    seen.fill(false);
    for &goal in order.iter().rev() {
        let mut one = Vec::new();
        walk(goal, &back, &mut seen, &mut one);
        if !one.is_empty() {
            found.push(one);
        }
    }
    found.reverse();
    found
}

/// The least levels; or the goals on a cycle through "not", of which there is one at least.
pub fn least(named: &Named) -> Result<Vec<usize>, Vec<usize>> {
    let all = components(named);
    let mut part = vec![0; named.len()];
    for (number, one) in all.iter().enumerate() {
        one.iter().for_each(|&goal| part[goal] = number);
    }
    let mut through_not = vec![false; all.len()];
    for (from, steps) in named.iter().enumerate() {
        through_not[part[from]] |= steps.iter().any(|&(to, not)| not && part[to] == part[from]);
    }
    let on_cycle: Vec<usize> = (0..named.len()).filter(|&goal| through_not[part[goal]]).collect();
    if !on_cycle.is_empty() {
        return Err(on_cycle);
    }
    let mut levels = vec![0; named.len()];
    for one in &all {
        // a step within the component adds nothing: it is no "not", and the levels here are still 0
        let steps = one.iter().flat_map(|&goal| &named[goal]);
        let level = steps.map(|&(to, not)| levels[to] + usize::from(not)).max().unwrap_or(0);
        one.iter().for_each(|&goal| levels[goal] = level);
    }
    Ok(levels)
}

/// The desk's numbers, then 37, then 38.
pub fn check(bytes: &[u8]) -> Result<Vec<usize>, Refused> {
    let book = Book::desk(bytes).map_err(Refused::by)?;
    if !is_plain(&book) {
        return Err(Refused::by(37));
    }
    least(&named(&book)).map_err(|on_cycle| Refused { number: 38, on_cycle })
}

pub fn sentence(number: u8) -> &'static str {
    match number {
        1 => "a command, an operand or the end is missing",
        2 => "unknown command",
        3 => "a clause before a goal, or a literal before a clause",
        4 => "unknown flag bit",
        5 => "a 65th goal, a 257th clause or a 9th literal of a clause",
        6 => "a literal names no goal",
        7 => "bytes after the end",
        8 => "no goal",
        32 => "a range with its low end above its high end",
        36 => "a goal has the same clause twice",
        37 => "not plain: a variant, a want or a flag that is not 0, or a range",
        38 => "not levelled: no numbers can be given to the goals so that each \"not\" leads lower and no other literal higher",
        39 => "not text of the form that a book is written in",
        _ => "",
    }
}

/// What the program `levels` writes of a book.
pub fn text(bytes: &[u8]) -> String {
    let mut out = String::new();
    match check(bytes) {
        Ok(levels) => {
            out.push_str("within demand 3\n");
            for (goal, level) in levels.iter().enumerate() {
                let _ = writeln!(out, "{goal} {level}");
            }
        }
        Err(Refused { number, on_cycle }) => {
            if number >= 37 {
                out.push_str("outside demand 3\n");
            }
            let _ = writeln!(out, "refused {number}\n{}", sentence(number));
            out.push_str(&place_line(bytes));
            if number == 38 {
                let goals: Vec<String> = on_cycle.iter().map(usize::to_string).collect();
                let _ = writeln!(out, "goals on a cycle through \"not\": {}", goals.join(" "));
            }
        }
    }
    out
}

/// The goals of the layered least model by the least levels, or `refused` and the number.
pub fn model_line(bytes: &[u8]) -> String {
    match (check(bytes), Book::desk(bytes)) {
        (Ok(levels), Ok(book)) => {
            let truth = model_by(&book, &levels);
            let goals: Vec<String> = (0..truth.len()).filter(|g| truth[*g]).map(|g| g.to_string()).collect();
            goals.join(" ") + "\n"
        }
        (Err(refused), _) => format!("refused {}\n", refused.number),
        (_, Err(number)) => format!("refused {number}\n"),
    }
}

/// Microseconds: the least, and the median.
fn told(mut took: Vec<Duration>) -> String {
    took.sort();
    let micro = |d: Duration| d.as_secs_f64() * 1e6;
    format!("least {:.2} median {:.2}", micro(took[0]), micro(took[took.len() / 2]))
}

/// What it takes, in µs, to read a book at the desk, and to read it and give its levels.
pub fn timed(bytes: &[u8], runs: u64) -> String {
    let took = |what: &dyn Fn() -> bool| -> Vec<Duration> {
        (0..runs.max(1))
            .map(|_| {
                let began = Instant::now();
                std::hint::black_box(what());
                began.elapsed()
            })
            .collect()
    };
    let read = took(&|| Book::desk(std::hint::black_box(bytes)).is_ok());
    let whole = took(&|| check(std::hint::black_box(bytes)).is_ok());
    format!("read {}\nlevels {}\n", told(read), told(whole))
}
