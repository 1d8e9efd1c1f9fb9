//! Rounds of random calls. A round has one case and many calls on it.

use crate::{check_build, check_text, hostile, rows, Call, Case, Rng, Tally, BLOCKS};

/// The number of calls per round.
const CALLS: usize = 200;

/// Runs a round of a random kind over a row of up to `most` bits. Half of these rounds have wrong arguments.
pub fn any(rng: &mut Rng, most: usize, tally: &mut Tally) {
    match rng.below(8) {
        0..3 => {
            let block = rng.pick(&BLOCKS);
            honest(rng, most, block, tally)
        }
        3..7 => dishonest(rng, most, tally),
        _ => writing(rng, most, tally),
    }
}

/// Runs a round on a case with a node buffer as built. Its answers are also compared with the original.
pub fn honest(rng: &mut Rng, most: usize, block: u64, tally: &mut Tally) {
    let row = rows::any(rng, most);
    let case = Case::built(&row, block, rng);
    check_build(&case.words, case.bits, &case.nodes, block, rng, tally);
    ask(&case, rng, tally);
}

/// Runs a round on a case with wrong arguments.
pub fn dishonest(rng: &mut Rng, most: usize, tally: &mut Tally) {
    let case = hostile::any(rng, most);
    check_build(&case.words, case.bits, &case.nodes, case.block, rng, tally);
    ask(&case, rng, tally);
}

/// Makes random calls on a case.
fn ask(case: &Case, rng: &mut Rng, tally: &mut Tally) {
    for _ in 0..CALLS {
        case.check(Call::any(rng, case), tally);
    }
}

/// Runs the text readers on one text. The text is mostly valid, and the row mostly has enough words.
pub fn writing(rng: &mut Rng, most: usize, tally: &mut Tally) {
    let mut text = rows::any(rng, most).text().into_bytes();
    if rng.once_in(3) && !text.is_empty() {
        let k = rng.index(text.len());
        text[k] = rng.any() as u8;
    }
    let need = text.len().div_ceil(64);
    let room = if rng.once_in(3) { rng.index(need + 1) } else { need + rng.index(4) };
    let words: Vec<u64> = (0..room).map(|_| rng.any()).collect();
    check_text(&text, &words, rng, tally);
}
