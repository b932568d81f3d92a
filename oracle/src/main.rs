//! The oracle: chalk-engine's control files run on books. See README.md for the subcommands.

mod bench;
mod book;
mod bounded;
mod certify;
mod check;
mod demand3;
mod gen;
mod levels;
mod list;
mod mend;
mod numberings;
mod peeks;
mod rng;
mod script;
mod xsb;

use std::io::{self, Read, Write};
use std::process::ExitCode;

const USAGE: &str = "usage: oracle list [hex] < BOOK
       oracle lists < LINES OF HEX
       oracle skips < LINES OF HEX
       oracle levels [hex] < BOOK
       oracle levels lines < LINES OF HEX
       oracle levels time RUNS < BOOK
       oracle levels model < LINES OF HEX
       oracle certify [hex] < BOOK
       oracle certify lines < LINES OF HEX
       oracle to-xsb [hex] < BOOK
       oracle to-xsb lines < LINES OF HEX
       oracle from-xsb [hex] < TEXT
       oracle from-xsb lines < LINES OF HEX
       oracle mend [hex] < BOOK
       oracle mend lines < LINES OF HEX
       oracle mend damaged SEED COUNT
       oracle numberings SEED COUNT
       oracle run [batch] [quiet|bare|counted] < SCRIPT
       oracle searches < SCRIPT
       oracle read < LINES OF HEX
       oracle gen SEED COUNT [mix|plain|tiny|bytes|answers|small|limits|large|lines]
       oracle books SEED COUNT [damaged|plain|levelled|few|torn]
       oracle check [CALLS [SEED]]
       oracle demand3 SEED COUNT
       oracle bench [PROGRAM [ARGUMENT..]]
       oracle load ladder|ring|random|plain";

/// A book or a text from standard input: its bytes, or with the word `hex` their digits.
fn input(words: &[&str]) -> Result<Vec<u8>, String> {
    let mut bytes = Vec::new();
    io::stdin().read_to_end(&mut bytes).map_err(|e| e.to_string())?;
    if words == ["hex"] {
        let text: String = String::from_utf8_lossy(&bytes).split_whitespace().collect();
        return script::hex(&text).ok_or("no hex digits".into());
    }
    Ok(bytes)
}

/// For each line of hex: `accepted`, or `refused` and the number; where the desk alone refuses, that and the place.
fn read_books() -> Result<(), String> {
    let mut out = io::BufWriter::new(io::stdout().lock());
    for line in io::stdin().lines() {
        let line = line.map_err(|e| e.to_string())?;
        let text: String = line.split(' ').collect();
        match script::hex(&text).map(|bytes| book::Book::read(&bytes)) {
            None => writeln!(out, "no hex"),
            Some(Ok(book)) => match book.repeat() {
                None => writeln!(out, "accepted"),
                Some(book::Repeat { goal, clause, earlier }) => {
                    writeln!(out, "accepted, desk refused 36 goal {goal} clause {clause} as {earlier}")
                }
            },
            Some(Err(number)) => writeln!(out, "refused {number}"),
        }
        .map_err(|e| e.to_string())?;
    }
    out.flush().map_err(|e| e.to_string())
}

/// For each line of hex what is said of that book or text (its listing, its levels, ..), and a line of its own to end it.
fn each_book(said: fn(&[u8]) -> Result<String, String>) -> Result<(), String> {
    let mut out = io::BufWriter::new(io::stdout().lock());
    for line in io::stdin().lines() {
        let line = line.map_err(|e| e.to_string())?;
        let bytes = script::hex(&line).ok_or("no hex digits")?;
        let text = said(&bytes)?;
        writeln!(out, "{text}.").map_err(|e| e.to_string())?;
    }
    out.flush().map_err(|e| e.to_string())
}

/// What came of a book or a text on standard output; a refusal on standard error, with nothing on standard output.
fn given(said: Result<Vec<u8>, String>) -> Result<(), String> {
    match said {
        Ok(bytes) => io::stdout().write_all(&bytes).map_err(|e| e.to_string()),
        Err(lines) => {
            eprint!("{lines}");
            Ok(())
        }
    }
}

/// A line on standard error for each clause that goes, and then the rest of the book; of a refusal the number alone.
fn mended(said: Result<mend::Mended, u8>) -> Result<(), String> {
    match said {
        Ok(mended) => {
            eprint!("{}", mended.lines());
            io::stdout().write_all(&mended.bytes).map_err(|e| e.to_string())
        }
        Err(number) => {
            eprint!("{}", mend::refusal(number));
            Ok(())
        }
    }
}

fn number(word: &str) -> Result<u64, String> {
    word.parse().map_err(|_| format!("{word} is no number"))
}

/// Calls before any book, and COUNT scripts, each with a forest of its own.
fn generate(seed: u64, count: u64, profile: gen::Profile) -> Result<(), String> {
    let mut stdout = io::BufWriter::new(io::stdout().lock());
    let mut out = String::new();
    gen::early_calls(&mut gen::rng_of(seed, count), &mut out);
    for forest in 0..count {
        gen::forest(&mut gen::rng_of(seed, forest), profile, &mut out);
        stdout.write_all(out.as_bytes()).map_err(|e| e.to_string())?;
        out.clear();
    }
    stdout.flush().map_err(|e| e.to_string())
}

/// COUNT books as lines of hex.
fn books(seed: u64, count: u64, made: fn(&mut rng::Rng) -> Vec<u8>) -> Result<(), String> {
    let mut stdout = io::BufWriter::new(io::stdout().lock());
    for book in 0..count {
        let bytes = made(&mut gen::rng_of(seed, book));
        writeln!(stdout, "{}", script::to_hex(&bytes)).map_err(|e| e.to_string())?;
    }
    stdout.flush().map_err(|e| e.to_string())
}

/// A script, by words in any order.
fn run(words: &[&str]) -> Result<(), String> {
    let others: Vec<&str> = words.iter().copied().filter(|word| *word != "batch").collect();
    let form = match others[..] {
        [] => script::Form::Plain,
        ["quiet"] => script::Form::Quiet,
        ["bare"] => script::Form::Bare,
        ["counted"] => script::Form::Counted,
        _ => return Err(USAGE.into()),
    };
    let runner = if words.contains(&"batch") { script::Runner::in_batches(form) } else { script::Runner::new(form) };
    script::run(runner, io::stdin().lock(), io::stdout().lock())
}

fn command(words: &[&str]) -> Result<(), String> {
    match words {
        ["list", rest @ ..] => {
            let text = list::list(&input(rest)?)?;
            io::stdout().write_all(text.as_bytes()).map_err(|e| e.to_string())
        }
        ["lists"] => each_book(list::list),
        ["skips"] => each_book(list::skips),
        ["levels", "lines"] => each_book(|bytes| Ok(levels::text(bytes))),
        ["levels", "time", runs] => {
            print!("{}", levels::timed(&input(&[])?, number(runs)?));
            Ok(())
        }
        ["levels", "model"] => each_book(|bytes| Ok(levels::model_line(bytes))),
        ["levels", rest @ ..] => {
            io::stdout().write_all(levels::text(&input(rest)?).as_bytes()).map_err(|e| e.to_string())
        }
        ["certify", "lines"] => each_book(|bytes| Ok(certify::text(bytes))),
        ["certify", rest @ ..] => {
            io::stdout().write_all(certify::text(&input(rest)?).as_bytes()).map_err(|e| e.to_string())
        }
        ["to-xsb", "lines"] => each_book(|bytes| Ok(xsb::text_line(bytes))),
        ["to-xsb", rest @ ..] => given(xsb::export_or_lines(&input(rest)?)),
        ["from-xsb", "lines"] => each_book(|text| Ok(xsb::book_line(text))),
        ["from-xsb", rest @ ..] => given(xsb::import(&input(rest)?).map(|book| book.bytes()).map_err(xsb::refusal)),
        ["mend", "lines"] => each_book(|bytes| Ok(mend::said(bytes))),
        ["mend", "damaged", seed, count] => {
            print!("{}", mend::damaged::damaged(number(seed)?, number(count)?)?.told());
            Ok(())
        }
        ["mend", rest @ ..] => mended(mend::mend(&input(rest)?)),
        ["numberings", seed, count] => {
            let [every, few, larger] = numberings::numberings(number(seed)?, number(count)?)?;
            println!("every way to name each other, up to three goals: {}", every.told());
            println!("up to five goals: {}", few.told());
            let (found, models) = (every.numberings + few.numberings, every.models + few.models);
            println!("{found} numberings satisfy the rule: the levels are the least of them; by {models} the same model");
            println!("up to 64 goals, beside levels that are raised: {}", larger.told());
            Ok(())
        }
        ["run", words @ ..] => run(words),
        ["searches"] => peeks::searches(io::stdin().lock(), io::BufWriter::new(io::stdout().lock())),
        ["read"] => read_books(),
        ["gen", seed, count] => generate(number(seed)?, number(count)?, gen::Profile::Mix),
        ["gen", seed, count, profile] => {
            let profile = gen::Profile::named(profile).ok_or(USAGE)?;
            generate(number(seed)?, number(count)?, profile)
        }
        ["books", seed, count] | ["books", seed, count, "damaged"] => {
            books(number(seed)?, number(count)?, gen::damaged_book)
        }
        ["books", seed, count, "plain"] => books(number(seed)?, number(count)?, gen::nearly_plain),
        ["books", seed, count, "levelled"] => {
            books(number(seed)?, number(count)?, |rng| gen::plain_book(rng).0.bytes())
        }
        ["books", seed, count, "few"] => {
            books(number(seed)?, number(count)?, |rng| gen::few_goals(rng).bytes())
        }
        ["books", seed, count, "torn"] => books(number(seed)?, number(count)?, gen::torn_paper),
        ["check"] => check::check(check::STANDARD_CALLS, check::STANDARD_SEED),
        ["check", calls] => check::check(number(calls)?, check::STANDARD_SEED),
        ["check", calls, seed] => check::check(number(calls)?, number(seed)?),
        ["demand3", seed, count] => {
            let totals = demand3::demand3(number(seed)?, number(count)?)?;
            println!(
                "demand 3 held: {count} books, {} calls, {} answers, {} none, {} again, {} cut, {} stopped (21); \
                 the bound was reached exactly in {} books",
                totals.calls,
                totals.answers,
                totals.none,
                totals.again,
                totals.cut,
                totals.stopped,
                totals.tight
            );
            Ok(())
        }
        ["bench", other @ ..] => bench::bench(other),
        ["load", name] => {
            print!("{}", bench::script(name).ok_or(USAGE)?);
            Ok(())
        }
        _ => Err(USAGE.into()),
    }
}

fn main() -> ExitCode {
    // The stops 25 to 29 are panics of the control files; what matters of them is reported by us.
    std::panic::set_hook(Box::new(|info| {
        let message = info.payload_as_str().unwrap_or("");
        if chalk_engine::solve::known_panic(message).is_none() {
            eprintln!("oracle: {info}");
        }
    }));
    let words: Vec<String> = std::env::args().skip(1).collect();
    let words: Vec<&str> = words.iter().map(String::as_str).collect();
    match command(&words) {
        Ok(()) => ExitCode::SUCCESS,
        Err(message) => {
            eprintln!("{message}");
            ExitCode::FAILURE
        }
    }
}
