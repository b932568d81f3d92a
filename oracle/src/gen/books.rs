//! Books of chance: small ones of every kind, plain levelled ones, books at the limits, damaged bytes.

use crate::book::{Book, Clause, GoalFlags, Literal, CLAUSE, END, GOAL, MOST_CLAUSES, NOT, POSITIVE, RANGE};
use crate::rng::Rng;
use chalk_ir::Want;

/// How likely each thing is in a book, in percent.
pub struct Taste {
    pub goals: (u64, u64),
    pub clauses: (u64, u64),
    pub most_clauses: usize,
    pub literals: (u64, u64),
    pub coinductive: u64,
    pub floundered: u64,
    pub variant: u64,
    pub want: u64,
    /// Of the positive literals that want no single variant.
    pub range: u64,
    pub cannot_prove: u64,
    pub outsized_answer: u64,
    pub outsized_literal: u64,
    pub not: u64,
}

pub fn taste(rng: &mut Rng) -> Taste {
    Taste {
        goals: (1, 5),
        clauses: (0, 3),
        most_clauses: 256,
        literals: (0, 3),
        coinductive: rng.pick(&[0, 0, 30, 60, 100]),
        floundered: rng.pick(&[0, 0, 0, 10, 30]),
        variant: rng.pick(&[0, 20, 50, 90]),
        want: rng.pick(&[0, 0, 20, 50]),
        range: 0,
        cannot_prove: rng.pick(&[0, 0, 10, 40]),
        outsized_answer: rng.pick(&[0, 0, 0, 10, 25]),
        outsized_literal: rng.pick(&[0, 0, 0, 10, 25]),
        not: rng.pick(&[0, 0, 15, 35]),
    }
}

pub fn variant(rng: &mut Rng) -> u16 {
    rng.pick(&[1, 1, 1, 2, 2, 3, 4, 256, 65535])
}

/// How many of a book's literals are to be ranges, in percent.
pub fn share_of_ranges(rng: &mut Rng) -> u64 {
    rng.pick(&[0, 0, 15, 40])
}

/// Variants in use, and those beside them.
const NEAR: &[u16] = &[0, 1, 1, 1, 2, 2, 3, 4, 5, 255, 256, 257, 65534, 65535];

/// A range whose ends are variants in use, or beside them.
pub fn ranged(rng: &mut Rng) -> Want {
    let (low, high) = match rng.below(12) {
        0 => (0, 0),
        1 => (0, 65535),
        2 => (65535, 65535),
        3 => {
            let both = variant(rng);
            (both, both)
        }
        _ => {
            let (one, other) = (rng.pick(NEAR), rng.pick(NEAR));
            (one.min(other), one.max(other))
        }
    };
    Want::Between(low, high)
}

/// A range whose low end is above its high end, by one or by more.
pub fn crossed(rng: &mut Rng) -> Want {
    match ranged(rng) {
        Want::Between(low, high) if low < high => Want::Between(high, low),
        want => {
            let high = want.low().min(65534);
            Want::Between(high + 1, high)
        }
    }
}

/// What a positive literal wants.
fn wanted(rng: &mut Rng, taste: &Taste) -> Want {
    if rng.chance(taste.want) {
        Want::Exactly(variant(rng))
    } else if taste.range > 0 && rng.chance(taste.range) {
        ranged(rng)
    } else {
        Want::Any
    }
}

pub fn random_book(rng: &mut Rng, taste: &Taste) -> Book {
    let goals = rng.range(taste.goals.0, taste.goals.1);
    let mut book = Book::default();
    for goal in 0..goals as usize {
        book.goals.push(GoalFlags {
            coinductive: rng.chance(taste.coinductive),
            floundered: rng.chance(taste.floundered),
        });
        for _ in 0..rng.range(taste.clauses.0, taste.clauses.1) {
            if book.clauses.len() == taste.most_clauses {
                break;
            }
            let mut literals = Vec::new();
            for _ in 0..rng.range(taste.literals.0, taste.literals.1) {
                let positive = !rng.chance(taste.not);
                literals.push(Literal {
                    positive,
                    goal: rng.below(goals) as u16,
                    want: if positive { wanted(rng, taste) } else { Want::Any },
                    outsized: rng.chance(taste.outsized_literal),
                });
            }
            book.clauses.push(Clause {
                goal,
                variant: if rng.chance(taste.variant) { variant(rng) } else { 0 },
                cannot_prove: rng.chance(taste.cannot_prove),
                outsized: rng.chance(taste.outsized_answer),
                literals,
            });
        }
    }
    book
}

/// In some of a hundred cases a clause once more, anywhere among those of its goal, or one that is like it but
/// for one thing.
pub fn copies(rng: &mut Rng, book: &mut Book, percent: u64) {
    while !book.clauses.is_empty() && book.clauses.len() < MOST_CLAUSES && rng.chance(percent) {
        let mut copy = book.clauses[rng.below(book.clauses.len() as u64) as usize].clone();
        if rng.chance(60) {
            alike(rng, &mut copy, book.goals.len() as u64);
        }
        let at = rng.below(book.clauses.len() as u64 + 1) as usize;
        book.clauses.insert(at, copy);
    }
}

/// One thing of a clause changed: its variant, a flag, its goal, a literal, the order of two.
fn alike(rng: &mut Rng, clause: &mut Clause, goals: u64) {
    let other = variant(rng);
    if clause.literals.is_empty() || rng.chance(35) {
        match rng.below(4) {
            0 => clause.variant = rng.pick(&[clause.variant ^ 1, clause.variant ^ 256, other]),
            1 => clause.cannot_prove = !clause.cannot_prove,
            2 => clause.outsized = !clause.outsized,
            _ => clause.goal = rng.below(goals) as usize,
        }
        return;
    }
    let which = rng.below(clause.literals.len() as u64) as usize;
    let literal = &mut clause.literals[which];
    match rng.below(7) {
        0 => literal.outsized = !literal.outsized,
        1 => literal.goal = rng.below(goals) as u16,
        2 => {
            literal.positive = !literal.positive;
            literal.want = Want::Any;
        }
        3 => {
            clause.literals.remove(which);
        }
        4 => {
            let last = clause.literals.len() - 1;
            clause.literals.swap(which, last);
        }
        _ if !literal.positive => literal.goal = rng.below(goals) as u16,
        // the same variants by the other command
        5 => {
            literal.want = match literal.want {
                Want::Between(0, 65535) => Want::Any,
                Want::Between(low, high) if low == high && low > 0 => Want::Exactly(low),
                want => Want::Between(want.low(), want.high()),
            }
        }
        _ => {
            literal.want = match literal.want {
                Want::Between(low, _) if rng.chance(50) => Want::Between(low, 65535),
                Want::Between(_, high) => Want::Between(0, high),
                _ => rng.pick(&[Want::Any, Want::Exactly(other)]),
            }
        }
    }
}

/// A plain book, and levels for its goals that make it a levelled one.
pub fn plain_book(rng: &mut Rng) -> (Book, Vec<u64>) {
    let goals = rng.pick(&[1, 2, 3, 3, 4, 5, 6, 9]);
    let count = rng.pick(&[1, 1, 2, 3]);
    let levels: Vec<u64> = (0..goals).map(|_| rng.below(count)).collect();
    let mut book = Book::default();
    for goal in 0..goals {
        book.goals.push(GoalFlags { coinductive: false, floundered: false });
        for _ in 0..rng.pick(&[0, 1, 1, 2, 2, 3, 4]) {
            let mut literals = Vec::new();
            for _ in 0..rng.pick(&[0, 1, 1, 2, 2, 3]) {
                let positive = !rng.chance(25);
                let named: Vec<usize> = (0..goals)
                    .filter(|other| {
                        levels[*other] < levels[goal] || positive && levels[*other] == levels[goal]
                    })
                    .collect();
                if !named.is_empty() {
                    literals.push(Literal {
                        positive,
                        goal: rng.pick(&named) as u16,
                        want: Want::Any,
                        outsized: false,
                    });
                }
            }
            book.clauses.push(Clause { goal, variant: 0, cannot_prove: false, outsized: false, literals });
        }
    }
    (book, levels)
}

pub fn want(goal: u16, variant: u16) -> Literal {
    Literal { positive: true, goal, want: Want::Exactly(variant), outsized: false }
}

pub fn any(goal: u16) -> Literal {
    Literal { want: Want::Any, ..want(goal, 0) }
}

pub fn not(goal: u16) -> Literal {
    Literal { positive: false, ..any(goal) }
}

/// A builder for books made on purpose.
#[derive(Default)]
pub struct Made(pub Book);

impl Made {
    pub fn goal(&mut self, coinductive: bool) -> u16 {
        self.0.goals.push(GoalFlags { coinductive, floundered: false });
        self.0.goals.len() as u16 - 1
    }

    pub fn clause(&mut self, goal: u16, variant: u16, literals: Vec<Literal>) {
        self.0.clauses.push(Clause {
            goal: usize::from(goal),
            variant,
            cannot_prove: false,
            outsized: false,
            literals,
        });
    }

    /// Now and then a clause twice, or one that is like another.
    pub fn with_copies(mut self, rng: &mut Rng) -> Made {
        copies(rng, &mut self.0, 8);
        self
    }

    /// Some literals as ranges, which take and leave what they did before: no variant in use is above 999, or
    /// from a wanted one on.
    pub fn with_ranges(mut self, rng: &mut Rng) -> Made {
        let percent = rng.pick(&[0, 0, 25, 75]);
        let literals = self.0.clauses.iter_mut().flat_map(|clause| &mut clause.literals);
        for literal in literals.filter(|literal| literal.positive) {
            if rng.chance(percent) {
                let (low, high) = match literal.want {
                    Want::Any => rng.pick(&[(0, 65535), (1, 65535), (0, 999), (1, 999)]),
                    want => (want.low(), rng.pick(&[want.low(), want.low() + 1, 65535])),
                };
                literal.want = Want::Between(low, high);
            }
        }
        self
    }
}

/// A book that fills a limit, or goes one past it.
pub fn limit_book(rng: &mut Rng) -> Vec<u8> {
    let mut made = Made::default();
    let over = rng.below(2);
    match rng.below(3) {
        0 => {
            for _ in 0..64 + over {
                made.goal(rng.chance(10));
            }
            for _ in 0..rng.below(5) {
                let (goal, named) = (rng.below(64) as u16, rng.below(64) as u16);
                made.clause(goal, rng.below(3) as u16, vec![any(named)]);
            }
        }
        1 => {
            let goals = rng.range(1, 4);
            for _ in 0..goals {
                made.goal(false);
            }
            for i in 0..256 + over {
                let literals = if rng.chance(10) { vec![any(rng.below(goals) as u16)] } else { vec![] };
                made.clause(rng.below(goals) as u16, i as u16, literals);
            }
        }
        _ => {
            let goals = rng.range(1, 4);
            for _ in 0..goals {
                made.goal(rng.chance(30));
            }
            for _ in 0..rng.range(1, 3) {
                let count = rng.range(7, 8 + over);
                let literals = (0..count).map(|_| any(rng.below(goals) as u16)).collect();
                made.clause(rng.below(goals) as u16, rng.below(3) as u16, literals);
            }
        }
    }
    made.with_ranges(rng).with_copies(rng).0.bytes()
}

/// A book whose last literal is a range, which may be wrong in more than one way: crossed, with a flag that
/// means nothing, of a goal that is not there, as ninth literal, before a clause, cut short.
fn range_book(rng: &mut Rng) -> Vec<u8> {
    let goals = rng.range(1, 4) as u16;
    let mut bytes = [GOAL, 0].repeat(usize::from(goals));
    if rng.chance(90) {
        bytes.extend([CLAUSE, rng.below(3) as u8, 0, 0]);
        for _ in 0..rng.pick(&[0, 0, 1, 2, 7, 8, 8]) {
            let goal = rng.below(u64::from(goals)) as u16;
            let want = if rng.chance(50) { ranged(rng) } else { Want::Any };
            Literal { want, ..any(goal) }.write(&mut bytes);
        }
    }
    let undefined = rng.chance(20);
    let goal = if undefined { rng.pick(&[goals, goals + 1, 64, 65535]) } else { rng.below(u64::from(goals)) as u16 };
    let want = if rng.chance(75) { crossed(rng) } else { ranged(rng) };
    Literal { want, ..any(goal) }.write(&mut bytes);
    let flags = bytes.len() - 1;
    bytes[flags] = rng.pick(&[0, 0, 0, 0, 0, 0, 1, 1, 2, 255]);
    if rng.chance(10) {
        bytes.truncate(bytes.len() - rng.range(1, 7) as usize);
    } else {
        bytes.push(END);
    }
    bytes
}

/// A book with a clause twice, or nearly so, with other clauses before, between and after. The literals of the
/// last one may stand behind another goal. It may be wrong in another way too: a byte after the end, a literal
/// of a goal that is not there, a crossed range, no end.
fn copied_book(rng: &mut Rng) -> Vec<u8> {
    let mut taste = taste(rng);
    taste.goals = (1, 3);
    taste.clauses = (1, 3);
    taste.range = share_of_ranges(rng);
    let mut book = random_book(rng, &taste);
    let percent = rng.pick(&[40, 70]);
    copies(rng, &mut book, percent);
    if rng.chance(10) {
        let which = rng.below(book.clauses.len() as u64) as usize;
        let beyond = book.goals.len() as u16;
        let literal = match rng.below(3) {
            0 => any(beyond),
            1 => any(65535),
            _ => Literal { want: crossed(rng), ..any(0) },
        };
        book.clauses[which].literals.truncate(7);
        book.clauses[which].literals.push(literal);
        let copy = book.clauses[which].clone();
        book.clauses.push(copy);
    }
    let mut bytes = book.bytes();
    // Where a goal is put before the last literal, that still belongs to the clause before it.
    if let Some(last) = book.clauses.last().and_then(|clause| clause.literals.last()) {
        let mut tail = Vec::new();
        last.write(&mut tail);
        tail.push(END);
        if bytes.ends_with(&tail) && rng.chance(30) {
            let at = bytes.len() - tail.len();
            bytes.splice(at..at, [GOAL, 0]);
        }
    }
    match rng.below(20) {
        0 => bytes.push(0),
        1 => {
            bytes.pop();
        }
        _ => {}
    }
    bytes
}

/// A command with operands of chance, some of them out of bounds.
pub fn random_command(rng: &mut Rng, out: &mut Vec<u8>) {
    let small = |rng: &mut Rng| rng.pick(&[0u16, 0, 1, 1, 2, 3, 63, 64, 256, 65535]).to_le_bytes();
    let flags = |rng: &mut Rng| rng.pick(&[0u8, 0, 0, 0, 0, 1, 1, 2, 3, 4, 255]);
    match rng.below(21) {
        0..=4 => out.extend([GOAL, flags(rng)]),
        5..=9 => {
            out.push(CLAUSE);
            out.extend(small(rng));
            out.push(flags(rng));
        }
        10..=13 => {
            out.push(POSITIVE);
            out.extend(small(rng));
            out.extend(small(rng));
            out.push(flags(rng));
        }
        14..=16 => {
            out.push(NOT);
            out.extend(small(rng));
            out.push(flags(rng));
        }
        17..=18 => out.push(END),
        19 => {
            out.push(RANGE);
            for _ in 0..3 {
                out.extend(small(rng));
            }
            out.push(flags(rng));
        }
        _ => out.push(rng.below(256) as u8),
    }
}

/// Bytes that may be a book: whole, or damaged in one or two ways, or commands in any order.
pub fn damaged_book(rng: &mut Rng) -> Vec<u8> {
    if rng.chance(6) {
        return vec![END];
    }
    if rng.chance(10) {
        return range_book(rng);
    }
    if rng.chance(8) {
        return copied_book(rng);
    }
    let mut bytes = match rng.below(20) {
        0..=5 => limit_book(rng),
        6..=9 => {
            let mut soup = Vec::new();
            if rng.chance(70) {
                soup.extend([GOAL, 0]);
            }
            if rng.chance(50) {
                soup.extend([CLAUSE, 0, 0, 0]);
            }
            for _ in 0..rng.below(8) {
                random_command(rng, &mut soup);
            }
            if rng.chance(70) {
                soup.push(END);
            }
            soup
        }
        10 => {
            let mut noise = Vec::new();
            for _ in 0..rng.below(6) {
                noise.push(rng.below(256) as u8);
            }
            noise
        }
        _ => {
            let mut taste = taste(rng);
            taste.range = share_of_ranges(rng);
            let mut book = random_book(rng, &taste);
            if rng.chance(25) {
                let beyond = book.goals.len() as u16;
                if let Some(literal) = book.clauses.iter_mut().flat_map(|c| &mut c.literals).next() {
                    literal.goal = rng.pick(&[beyond, beyond + 1, 64, 255, 256, 65535]);
                }
            }
            book.bytes()
        }
    };
    damage(rng, &mut bytes);
    bytes
}

/// Damage in none, one or two places.
pub fn damage(rng: &mut Rng, bytes: &mut Vec<u8>) {
    for _ in 0..rng.below(3) {
        if bytes.is_empty() {
            break;
        }
        let at = rng.below(bytes.len() as u64) as usize;
        match rng.below(8) {
            0 => bytes.truncate(at),
            1 => bytes[at] ^= 1 << rng.below(8),
            2 => bytes[at] = rng.below(256) as u8,
            3 => bytes.push(rng.pick(&[0, END, GOAL, 255])),
            4 => {
                bytes.remove(at);
            }
            5 => bytes.insert(at, rng.pick(&[0, 1, GOAL, CLAUSE, POSITIVE, RANGE, NOT, END, 255])),
            6 => bytes[at] = rng.pick(&[GOAL, CLAUSE, POSITIVE, RANGE, NOT, END]),
            _ => {
                bytes.pop();
            }
        }
    }
}
