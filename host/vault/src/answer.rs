//! Decodes the `i64` that each C function returns.
//!
//! | value | meaning |
//! |---|---|
//! | 0 or more | a position, a count, 1 for yes, 0 for no, or 0 for a successful build |
//! | -1 | nothing: there is no such position |
//! | -2 to -9 | refusal k, which has the value `-(k + 1)` |

use crate::Refusal;

/// Returns the refusal that an answer below -1 encodes. Panics if the answer encodes none.
fn refusal(answer: i64) -> Refusal {
    let of_number = |refusal: &&Refusal| -1 - i64::from(refusal.number()) == answer;
    *Refusal::ALL.iter().find(of_number).unwrap_or_else(|| panic!("the C functions never answer {answer}"))
}

/// Decodes a position or nothing.
#[inline]
pub(crate) fn position(answer: i64) -> Result<Option<u64>, Refusal> {
    match answer {
        0.. => Ok(Some(answer as u64)),
        -1 => Ok(None),
        _ => Err(refusal(answer)),
    }
}

/// Decodes yes, no or nothing.
#[inline]
pub(crate) fn told(answer: i64) -> Result<Option<bool>, Refusal> {
    Ok(position(answer)?.map(|yes| yes == 1))
}

/// Decodes the count of a call that never returns -1.
#[inline]
pub(crate) fn count(answer: i64) -> Result<u64, Refusal> {
    Ok(position(answer)?.expect("this call never returns -1"))
}

/// Decodes yes or no of a call that never returns -1.
#[inline]
pub(crate) fn decided(answer: i64) -> Result<bool, Refusal> {
    Ok(count(answer)? == 1)
}

/// Decodes the success of a build.
#[inline]
pub(crate) fn done(answer: i64) -> Result<(), Refusal> {
    count(answer).map(|_| ())
}

#[cfg(test)]
mod tests {
    use super::*;

    #[test]
    fn answers_are_read_as_documented() {
        assert_eq!(position(0), Ok(Some(0)));
        assert_eq!(position(1 << 32), Ok(Some(1 << 32)));
        assert_eq!(position(-1), Ok(None));
        assert_eq!((told(1), told(0), told(-1)), (Ok(Some(true)), Ok(Some(false)), Ok(None)));
        assert_eq!((decided(1), decided(0), done(0), count(7)), (Ok(true), Ok(false), Ok(()), Ok(7)));
        for refusal in Refusal::ALL {
            assert_eq!(position(-1 - i64::from(refusal.number())), Err(refusal));
        }
    }

    #[test]
    #[should_panic(expected = "never answer -10")]
    fn an_answer_past_the_refusals_is_no_answer() {
        let _ = position(-10);
    }
}
