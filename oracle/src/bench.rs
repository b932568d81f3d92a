//! `oracle bench`: the time of a turn and of a call. With another program's command after it, that program
//! is given the same scripts and timed beside the oracle's own `run quiet`, and their outputs are compared.

use crate::book::{Book, Clause, GoalFlags, Literal};
use crate::bounded::{Bounded, Reply};
use crate::gen::{self, Profile};
use crate::script::{parse, to_hex, Form, Line, Runner};
use chalk_ir::Want;
use std::fmt::Write as _;
use std::io::Write;
use std::process::{Command, Stdio};
use std::time::{Duration, Instant};

fn plain(bodies: &[(usize, Vec<u16>)], goals: usize) -> Vec<u8> {
    let book = Book {
        goals: vec![GoalFlags { coinductive: false, floundered: false }; goals],
        clauses: bodies
            .iter()
            .map(|(goal, body)| Clause {
                goal: *goal,
                variant: 0,
                cannot_prove: false,
                outsized: false,
                literals: body
                    .iter()
                    .map(|named| Literal { positive: true, goal: *named, want: Want::Any, outsized: false })
                    .collect(),
            })
            .collect(),
    };
    book.bytes()
}

/// Goals 0 to n - 1, two clauses `i :- i + 1` each, the last goal's one `:- 0`.
pub fn ladder(goals: usize) -> Vec<u8> {
    let mut bodies = Vec::new();
    for goal in 0..goals - 1 {
        bodies.push((goal, vec![goal as u16 + 1]));
        bodies.push((goal, vec![goal as u16 + 1]));
    }
    bodies.push((goals - 1, vec![0]));
    plain(&bodies, goals)
}

/// Goals 0 to n - 1, each with the clause `i :- i + 1`, the last `:- 0`.
pub fn ring(goals: usize) -> Vec<u8> {
    let bodies: Vec<_> = (0..goals).map(|goal| (goal, vec![((goal + 1) % goals) as u16])).collect();
    plain(&bodies, goals)
}

struct Load {
    name: &'static str,
    script: String,
    /// What is counted: turns, or calls.
    turns: bool,
}

fn loads() -> Vec<Load> {
    let ladder = format!("book {} clock 1000000000\nopen 0\npeek 0 0 1000 10000000\n", to_hex(&ladder(20)));
    let mut rings = String::new();
    for _ in 0..100 {
        let _ = write!(rings, "book {} clock 1000000000\nopen 0\npeek 0 0 1000 1000000\n", to_hex(&ring(64)));
    }
    let mut random = String::new();
    let mut plain = String::new();
    for number in 0..10_000 {
        gen::forest(&mut gen::rng_of(7, number), Profile::Timed, &mut random);
        gen::forest(&mut gen::rng_of(7, number), Profile::TimedPlain, &mut plain);
    }
    vec![
        Load { name: "ladder of 20 goals", script: ladder, turns: true },
        Load { name: "ring of 64 goals", script: rings, turns: true },
        Load { name: "random books", script: random, turns: false },
        Load { name: "plain books", script: plain, turns: false },
    ]
}

/// Runs a script with no output at all: turns, calls, time.
fn inside(script: &str) -> (u64, u64, Duration) {
    let lines: Vec<Line> = script.lines().map(parse).collect();
    let (mut turns, mut calls) = (0, 0);
    let mut bounded: Option<Bounded> = None;
    let start = Instant::now();
    for line in &lines {
        calls += 1;
        match line {
            Line::Book { entry, bytes, clock } => bounded = Some(Bounded::after(*entry, bytes, *clock)),
            Line::Call(call) => {
                if let Some(bounded) = &mut bounded {
                    if let Reply::Search(ended) | Reply::Peek(ended) = bounded.call(*call) {
                        turns += ended.all_turns;
                    }
                }
            }
            _ => {}
        }
    }
    (turns, calls, start.elapsed())
}

/// Gives a script to a program: its output, and the time from start to end.
fn outside(program: &str, arguments: &[String], script: &str) -> Result<(Vec<u8>, Duration), String> {
    let start = Instant::now();
    let mut child = Command::new(program)
        .args(arguments)
        .stdin(Stdio::piped())
        .stdout(Stdio::piped())
        .spawn()
        .map_err(|e| format!("{program}: {e}"))?;
    let mut stdin = child.stdin.take().unwrap();
    let text = script.as_bytes().to_vec();
    let writer = std::thread::spawn(move || {
        let _ = stdin.write_all(&text);
    });
    let output = child.wait_with_output().map_err(|e| e.to_string())?;
    let _ = writer.join();
    if !output.status.success() {
        return Err(format!("{program} failed: {}", output.status));
    }
    Ok((output.stdout, start.elapsed()))
}

fn each(time: Duration, count: u64) -> f64 {
    time.as_nanos() as f64 / count.max(1) as f64
}

pub fn bench(other: &[&str]) -> Result<(), String> {
    let own = std::env::current_exe().map_err(|e| e.to_string())?;
    let own = own.to_str().ok_or("no name for this program")?;
    println!(
        "| load | count | engine alone, ns each | oracle run quiet, ns each | {} |",
        match other {
            [] => "-".to_string(),
            _ => format!("{}, ns each, output", other.join(" ")),
        }
    );
    println!("|---|---|---|---|---|");
    for load in loads() {
        let (turns, calls, time) = inside(&load.script);
        let (count, unit) = if load.turns { (turns, "turns") } else { (calls, "calls") };
        let (expected, run) = outside(own, &["run".into(), "quiet".into()], &load.script)?;
        let beside = match other {
            [] => "-".to_string(),
            [program, arguments @ ..] => {
                let arguments: Vec<String> = arguments.iter().map(|a| a.to_string()).collect();
                let (output, time) = outside(program, &arguments, &load.script)?;
                let same = if output == expected { "same" } else { "DIFFERS" };
                format!("{:.1}, {same}", each(time, count))
            }
        };
        println!(
            "| {} | {count} {unit} | {:.1} | {:.1} | {beside} |",
            load.name,
            each(time, count),
            each(run, count),
        );
    }
    Ok(())
}

/// The scripts themselves, for a comparison by hand.
pub fn script(name: &str) -> Option<String> {
    let load = loads().into_iter().find(|load| load.name.starts_with(name))?;
    // Each of them runs.
    let mut runner = Runner::new(Form::Quiet);
    let _ = runner.step(load.script.lines().next()?, &mut String::new());
    Some(load.script)
}
