use super::*;
use crate::{rows, Row};

fn row(text: &str) -> Row {
    Row::new(&text.bytes().map(|byte| byte == b'(').collect::<Vec<_>>())
}

fn pass<'a>(row: &'a Row, nodes: &'a [i64], block: u64) -> Passed<'a> {
    Passed { words: &row.words, bits: row.bits as u64, nodes, block, most: MOST_WORDS }
}

/// Makes a call with a node buffer as built.
fn asked(text: &str, call: Call) -> Answer {
    let row = row(text);
    let nodes = pass(&row, &[], 8).build();
    ask(pass(&row, &nodes, 8), call)
}

const T: &str = "(()(()))";
const NOTHING: Answer = Answer::Value(-1);

#[test]
fn cases_a_to_l() {
    let at = Answer::Value;
    assert_eq!(asked(T, Call::FwdSearch { at: 0, r: -1 }), at(7), "a");
    assert_eq!(asked(T, Call::FwdSearch { at: 0, r: 1 }), at(1), "b");
    assert_eq!(asked(T, Call::FwdSearch { at: 2, r: 0 }), at(6), "c");
    assert_eq!(asked(T, Call::FwdSearch { at: 7, r: -1 }), NOTHING, "d");
    assert_eq!(asked(T, Call::BwdSearch { at: 7, r: 0 }), at(3), "e");
    assert_eq!(asked(T, Call::BwdSearch { at: 4, r: 1 }), NOTHING, "f");
    assert_eq!(asked(T, Call::Enclose { at: 6 }), at(0), "g");
    assert_eq!(asked(T, Call::LevelNext { node: 1 }), at(3), "h");
    assert_eq!(asked(T, Call::LevelPrev { node: 3 }), at(1), "i");
    assert_eq!(asked(T, Call::LevelAncestor { node: 4, level: 2 }), at(0), "j");
    assert_eq!(asked(T, Call::LevelAncestor { node: 4, level: 3 }), NOTHING, "j");
    assert_eq!(asked(T, Call::LevelRightmost { level: 2 }), at(4), "k");
    assert_eq!(asked(T, Call::LevelRightmost { level: 0 }), at(0), "l");
    assert_eq!(asked("()", Call::LevelRightmost { level: 0 }), NOTHING, "l");
}

#[test]
fn the_small_rows_that_are_run() {
    assert_eq!(pass(&row(T), &[], 8).build(), [0, 0, 3, 0, 0, 3]);
    let forty = Row::new(&[true; 40]);
    let admitted = |nodes: usize, block| pass(&forty, &vec![0; nodes], block).admit();
    assert_eq!((admitted(35, 8), admitted(36, 8)), (Err(4), Ok(())));
    assert_eq!((admitted(36, 65_536), admitted(36, 65_544), admitted(36, 12)), (Ok(()), Err(1), Err(1)));
    for call in Call::every(0) {
        let answers = [NOTHING, Answer::refused(5), Answer::Value(0), Answer::Value(1)];
        assert!(answers.contains(&asked("", call)), "{call:?}");
    }
}

#[test]
fn inner_nodes_are_counted_as_tabled() {
    let inner = |leaves: usize| pass(&Row::new(&vec![true; 8 * leaves]), &[], 8).inner();
    assert_eq!([1, 2, 3, 4, 5, 8, 9].map(inner), [1, 1, 3, 3, 7, 7, 15]);
}

/// Returns E(0), E(1), .., E(n).
fn excess(row: &Row) -> Vec<i64> {
    let mut sums = vec![0];
    sums.extend((0..row.bits).scan(0, |sum, i| {
        *sum += if row.opens(i) { 1 } else { -1 };
        Some(*sum)
    }));
    sums
}

#[test]
fn over_nodes_as_built_the_walk_finds_what_the_definitions_say() {
    for row in (0..=12).flat_map(rows::every) {
        let e = excess(&row);
        let nodes = pass(&row, &[], 8).build();
        for i in 0..row.bits {
            for r in -(row.bits as i64)..=row.bits as i64 {
                let fwd = (i + 1..row.bits).find(|&j| e[j + 1] == e[i + 1] + r);
                let bwd = (0..i).rev().find(|&j| e[j] == e[i] + r);
                let at = i as u64;
                let asked = |call| ask(pass(&row, &nodes, 8), call);
                assert_eq!(
                    asked(Call::FwdSearch { at, r }),
                    Answer::from(fwd.map(|j| j as u64)),
                    "{} {i} {r}",
                    row.text()
                );
                assert_eq!(
                    asked(Call::BwdSearch { at, r }),
                    Answer::from(bwd.map(|j| j as u64)),
                    "{} {i} {r}",
                    row.text()
                );
            }
        }
    }
}

/// A foreign node buffer leads the search to a close bit. The listing answers that position, then refusal 5, and then ends.
#[test]
fn a_listing_over_foreign_nodes_ends_in_refusal_5() {
    let row = row("((((())))((()()())))");
    let mut nodes = pass(&row, &[], 8).build();
    nodes[3 * 4] += 3;
    let steps = ask(pass(&row, &nodes, 8), Call::RevChildren { node: 9, room: 10 });
    assert_eq!(steps, Answer::Steps(vec![5, -6, -1]));
}

#[test]
fn a_hit_on_a_blocks_first_bit_is_not_lost_going_back() {
    assert_eq!(asked("((()()()()", Call::BwdSearch { at: 9, r: -3 }), Answer::Value(0));
    assert_eq!(asked("))))))))(()(()()))", Call::BwdSearch { at: 17, r: -1 }), Answer::Value(8));
    assert_eq!(asked("((((((((())()))))(", Call::BwdSearch { at: 17, r: -3 }), Answer::Value(0));
}

#[test]
fn text_is_tested_whole_before_it_is_read() {
    assert_eq!(read_text(b"(()(()))", 1, MOST_WORDS), Ok(vec![0b0001_1011]));
    assert_eq!(read_text(b"(()x", 0, MOST_WORDS), Err(6));
    assert_eq!(read_text(b"(()(", 0, MOST_WORDS), Err(3));
    assert_eq!(read_text(&[b'x'; 4097], 0, MOST_BYTES), Err(2));
    assert_eq!(read_text(b"", 0, MOST_WORDS), Ok(vec![]));
}
