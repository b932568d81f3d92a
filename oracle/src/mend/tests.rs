//! What the order says of papers, by hand.

use super::damaged::damaged;
use super::{mend, said};
use crate::script::{hex, to_hex};

fn bytes(digits: &str) -> Vec<u8> {
    hex(&digits.replace(' ', "")).unwrap()
}

/// The lines, and what is left.
fn mended(paper: &str, lines: &str, left: &str) {
    let found = mend(&bytes(paper)).unwrap();
    assert_eq!((found.lines().as_str(), to_hex(&found.bytes)), (lines, left.replace(' ', "")), "{paper}");
}

fn unchanged(paper: &str) {
    mended(paper, "", paper);
}

fn refused(paper: &str, number: u8) {
    assert_eq!(mend(&bytes(paper)), Err(number), "{paper}");
    assert_eq!(said(&bytes(paper)), format!("refused {number}\n"));
}

#[test]
fn a_later_equal_clause_goes() {
    mended("47 00 43 00 00 00 43 00 00 00 45", "0 1 36\n", "47 00 43 00 00 00 45");
    let (fact, other) = ("43 00 00 00", "43 01 00 00");
    mended(
        &format!("47 00 {fact} {other} {fact} {fact} 45"),
        "0 2 36\n0 3 36\n",
        &format!("47 00 {fact} {other} 45"),
    );
    // of each goal its own
    unchanged(&format!("47 00 {fact} 47 00 {fact} 45"));
    mended(
        &format!("47 00 {fact} 47 01 {other} {fact} {other} 45"),
        "1 2 36\n",
        &format!("47 00 {fact} 47 01 {other} {fact} 45"),
    );
}

#[test]
fn a_clause_with_an_undefined_goal_goes() {
    let (fact, on_5) = ("43 00 00 00", "43 00 00 00 50 05 00 00 00 00");
    mended(&format!("47 00 {on_5} {fact} 45"), "0 0 6\n", &format!("47 00 {fact} 45"));
    mended(&format!("47 00 {on_5} {on_5} 45"), "0 0 6\n0 1 6\n", "47 00 45");
    // 5 is there as soon as there are six goals, 261 is not
    let six = "47 00 47 00 47 00 47 00 47 00 47 00";
    unchanged(&format!("{six} {on_5} 45"));
    for literal in [
        "50 05 01 00 00 00",
        "4E 05 01 00",
        "52 05 01 00 00 FF FF 00",
        "4E 06 00 00",
        "50 FF FF 01 00 01",
        "4E 00 01 00",
    ] {
        mended(&format!("{six} {fact} {literal} 45"), "5 0 6\n", &format!("{six} 45"));
    }
    // the last of eight literals
    mended(&format!("47 00 {fact} {} 4E 01 00 00 45", ["4E 00 00 00"; 7].join(" ")), "0 0 6\n", "47 00 45");
}

#[test]
fn literals_behind_a_later_goal() {
    let text = |named: &str| format!("47 00 43 00 00 00 47 00 50 {named} 00 00 00 45");
    unchanged(&text("00 00"));
    mended(&text("09 00"), "0 0 6\n", "47 00 47 00 45");
    // a goal on either side of the literals that go, and one that stays
    mended(
        "47 00 43 01 00 00 4E 00 00 00 43 02 00 00 47 01 4E 01 00 00 47 02 50 07 00 00 00 00 47 03 43 00 00 00 45",
        "0 1 6\n",
        "47 00 43 01 00 00 4E 00 00 00 47 01 47 02 47 03 43 00 00 00 45",
    );
    // equal, though their literals stand in different places
    mended(
        "47 00 43 00 00 00 4E 00 00 00 43 00 00 00 47 00 4E 00 00 00 45",
        "0 1 36\n",
        "47 00 43 00 00 00 4E 00 00 00 47 00 45",
    );
}

#[test]
fn clauses_are_equal_by_command_and_operands() {
    unchanged("47 00 43 00 00 00 50 00 00 03 00 00 43 00 00 00 52 00 00 03 00 03 00 00 45");
    unchanged("47 00 43 00 00 00 50 00 00 00 00 00 43 00 00 00 52 00 00 00 00 FF FF 00 45");
    unchanged("47 00 43 00 00 00 43 00 01 00 43 00 00 01 43 00 00 02 43 00 00 03 45");
    unchanged("47 00 43 00 00 00 4E 00 00 00 43 00 00 00 4E 00 00 01 43 00 00 00 50 00 00 00 00 00 45");
    unchanged("47 00 47 00 43 00 00 00 4E 00 00 00 4E 01 00 00 43 00 00 00 4E 01 00 00 4E 00 00 00 45");
}

#[test]
fn both_reasons() {
    // 6 is told, and an equal clause of another goal has its own reason
    let on_9 = "43 00 00 00 4E 09 00 00";
    mended(&format!("47 00 {on_9} {on_9} 47 00 {on_9} 45"), "0 0 6\n0 1 6\n1 0 6\n", "47 00 47 00 45");
    mended(&format!("47 00 43 00 00 00 {on_9} 43 00 00 00 45"), "0 1 6\n0 2 36\n", "47 00 43 00 00 00 45");
}

#[test]
fn refused_papers() {
    refused("", 1);
    refused("47 00", 1);
    refused("47 00 43 00 00 00 50 09 00", 1);
    refused("47 00 44", 2);
    refused("43 00 00 00 45", 3);
    refused("47 04 45", 4);
    refused(&format!("47 00 43 00 00 00 {} 45", ["4E 09 00 00"; 9].join(" ")), 5);
    refused(&format!("{} 45", ["47 00"; 65].join(" ")), 5);
    refused("47 00 43 00 00 00 43 00 00 00 45 45", 7);
    refused("45", 8);
    refused("47 00 43 00 00 00 52 09 00 04 00 03 00 00 45", 32);
}

#[test]
fn as_many_as_there_can_be() {
    let fact = "43 00 00 00";
    let many = |clause: &str| format!("47 00 {} 45", [clause; 256].join(" "));
    let lines = |from: usize, reason: u8| (from..256).map(|n| format!("0 {n} {reason}\n")).collect::<String>();
    mended(&many(fact), &lines(1, 36), &format!("47 00 {fact} 45"));
    mended(&many(&format!("{fact} 4E 01 00 00")), &lines(0, 6), "47 00 45");
}

#[test]
fn papers_of_chance() {
    let told = damaged(11, 4000).map(|seen| seen.told()).unwrap();
    for number in [1, 2, 3, 4, 5, 7, 8, 32] {
        assert!(told.contains(&format!("refused {number}: ")), "{told}");
    }
    assert!(!told.contains("refused 6") && !told.contains("refused 36"), "{told}");
}
