//! What the order says of texts, by hand.

use super::{export, import};
use crate::book::Book;
use crate::gen::{few_goals, nearly_plain, rng_of};
use crate::script::hex;

/// So many table lines, and these below them.
fn text(tables: usize, below: &str) -> String {
    (0..tables).map(|goal| format!(":- table g{goal}/0.\n")).collect::<String>() + below
}

fn bytes(digits: &str) -> Vec<u8> {
    hex(&digits.replace(' ', "")).unwrap()
}

fn number(text: &str) -> u8 {
    import(text.as_bytes()).err().unwrap_or(0)
}

/// The book and the text are one another's.
fn both_ways(book: &str, text: &str) {
    assert_eq!(export(&bytes(book)).as_deref(), Ok(text));
    assert_eq!(import(text.as_bytes()).unwrap().bytes(), bytes(book));
}

#[test]
fn a_book_and_its_text() {
    both_ways(
        "47 00 43 00 00 00 50 01 00 00 00 00 4E 02 00 00 47 00 43 00 00 00 47 00 43 00 00 00 50 02 00 00 00 00 45",
        ":- table g0/0.\n:- table g1/0.\n:- table g2/0.\ng0 :- g1, tnot(g2).\ng1.\ng2 :- g2.\n",
    );
    both_ways("47 00 45", ":- table g0/0.\n");
    both_ways("47 00 43 00 00 00 4E 00 00 00 45", ":- table g0/0.\ng0 :- tnot(g0).\n");
}

#[test]
fn a_literal_behind_a_later_goal_is_the_clause_s() {
    let written_so = bytes("47 00 43 00 00 00 47 00 4E 01 00 00 45");
    let text = export(&written_so).unwrap();
    assert_eq!(text, ":- table g0/0.\n:- table g1/0.\ng0 :- tnot(g1).\n");
    assert_eq!(import(text.as_bytes()).unwrap().bytes(), bytes("47 00 43 00 00 00 4E 01 00 00 47 00 45"));
}

#[test]
fn books_that_are_turned_down() {
    assert_eq!(export(&bytes("47 00 43 00 00 00 50 01 00 00 00 00 47 02 45")), Err(37));
    assert_eq!(export(&bytes("")), Err(1));
    assert_eq!(export(&bytes("45")), Err(8));
    assert_eq!(export(&bytes("47 00 43 00 00 00 43 00 00 00 45")), Err(36));
}

#[test]
fn another_form() {
    let two = [
        "g00.\n", "g0 :- g01.\n", "g0 :- g1 , g1.\n", "g0 :-  g1.\n", "g0 :- g1,  g1.\n", "g0.", "g0.\r\n", "g1.\ng0.\n",
        "g2.\n", "g0 :- .\n", "g0 :- g1,.\n", "g0 :- tnot (g1).\n", "g0 :- tnot(g1.\n", "G0.\n", "g0:- g1.\n", "g0\n", "\n", "g0..\n",
        "g0.\n\n", "g0.g1.\n", "g.\n", "g0 :- g.\n", "g0 :- g-1.\n", "g0 :- g+1.\n", "g0.\n:- table g2/0.\n", ":- table g1/0.\n",
        "g0 :- \\+ g1.\n", "% g0.\n", "g0\u{e9}.\n", "g0 :- g1 :- g1.\n", " g0.\n", "g0. \n",
    ];
    for below in two {
        assert_eq!(number(&text(2, below)), 39, "{below:?}");
    }
    for whole in ["g0.\n", ":- table g1/0.\n", ":- table g00/0.\n", ":- table g0/1.\n", ":-table g0/0.\n", ":- table g0/0.", "\n"] {
        assert_eq!(number(whole), 39, "{whole:?}");
    }
    assert_eq!(import(b":- table g0/0.\ng0\xff.\n"), Err(39));
}

#[test]
fn the_desk_s_numbers() {
    assert_eq!(number(""), 8);
    for digits in ["7", "1", "99999999999999999999", "65535", "65536", "4294967296", "18446744073709551615", "18446744073709551616"] {
        assert_eq!(number(&text(1, &format!("g0 :- g{digits}.\n"))), 6, "{digits}");
        assert_eq!(number(&text(1, &format!("g0 :- g0, tnot(g{digits}).\n"))), 6, "{digits}");
    }
    assert_eq!(number(&text(1, "g0.\ng0.\n")), 36);
    assert_eq!(number(&text(1, &format!("g0 :- {}g0.\n", "g0, ".repeat(7)))), 0);
    assert_eq!(number(&text(1, &format!("g0 :- {}g0.\n", "g0, ".repeat(8)))), 5);
    assert_eq!(number(&text(1, &"g0.\n".repeat(257))), 5);
    assert_eq!(number(&text(64, "")), 0);
    assert_eq!(number(&text(65, "")), 5);
}

#[test]
fn another_form_comes_first() {
    assert_eq!(number(&text(65, "x")), 39);
    assert_eq!(number(&text(1, "g0 :- g9.\ng0.\ng0.\ng0")), 39);
    assert_eq!(number(&text(1, "g0 :- g9.\ng1.\n")), 39);
    assert_eq!(number(&text(65, "g65.\n")), 39);
    assert_eq!(number(&text(2, "g1.\ng1.\ng0.\n")), 39);
    assert_eq!(number(&text(1, "g0 :- g9.\ng0.\ng0.\n")), 6);
    assert_eq!(number(&text(65, "g0 :- g99.\n")), 5);
    assert_eq!(number(&text(70000, "g0 :- g69999.\ng69999.\n")), 5);
}

#[test]
fn books_of_chance_come_back() {
    let (mut back, mut turned_down) = (0, 0);
    for number in 0..3000 {
        let rng = &mut rng_of(13, number);
        let book = if number % 2 == 0 { few_goals(rng).bytes() } else { nearly_plain(rng) };
        match export(&book) {
            Ok(text) => {
                let found = import(text.as_bytes()).unwrap();
                assert_eq!((&found, &found.bytes()), (&Book::desk(&book).unwrap(), &book));
                back += 1;
            }
            Err(refused) => turned_down += i32::from([6, 36, 37].contains(&refused)),
        }
    }
    assert_eq!((back + turned_down, back > 2000, turned_down > 100), (3000, true, true));
}
