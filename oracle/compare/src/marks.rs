//! The marks of guessed ids, which the crate does not know. Where a reading may mark rows the crate's line must be the model's with the marks
//! off, and everywhere else the model's own.

use records::{Request, ADD_PATH, GUESS};

/// Whether the rows that a request puts may have marks: those of a reading by the guess.
fn may_be_marked(request: &Request) -> bool {
    matches!(request.op, 2 | 4 | 10 | 22 | 24) && request.has(GUESS) && !request.has(ADD_PATH)
}

/// Which of the model's lines the crate's must be.
pub fn line_of_crate<'a>(request: &Request, model: &'a str, unmarked: &'a str) -> &'a str {
    if may_be_marked(request) {
        unmarked
    } else {
        model
    }
}

#[cfg(test)]
mod tests {
    use super::line_of_crate;
    use records::{Request, LAST_OP, LAST_SETTINGS};

    #[test]
    fn marks_are_off_in_readings_by_the_guess_that_put_rows() {
        for op in 1..=LAST_OP {
            for settings in 0..=LAST_SETTINGS {
                let line = line_of_crate(&Request { op, settings, ..Request::default() }, "model", "unmarked");
                let is_guess = settings % 4 == 2;
                assert_eq!(line == "unmarked", is_guess && [2, 4, 10, 22, 24].contains(&op));
            }
        }
    }
}
