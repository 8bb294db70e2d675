//! Answers request records by the model; with the word `unmarked`, with the marks of guessed ids taken off the rows, as the crate has none.

use records::ending;
use std::io;
use std::process::ExitCode;

fn main() -> ExitCode {
    let words: Vec<String> = std::env::args_os().skip(1).map(|word| word.to_string_lossy().into_owned()).collect();
    match words.iter().map(String::as_str).collect::<Vec<_>>()[..] {
        [] => records::serve("model", |request| Some(model::answer(request))),
        ["unmarked"] => records::serve("model", |request| Some(model::answer_without_marks(request))),
        _ => ending::end("model", Err(io::Error::other("usage: model [unmarked]"))),
    }
}
