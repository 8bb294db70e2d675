//! Totals per op and per refusal number, and the first differences.

use crate::marks::line_of_crate;
use crate::refusals::{self, PAST_ALL};
use records::{Request, LAST_OP};
use std::io::{self, Write};

/// Differences shown in full; the others are counted.
const SHOWN: usize = 20;

/// Bytes of a request shown in hexadecimal.
const SHOWN_BYTES: usize = 400;

#[derive(Default, Clone, Copy)]
struct OpTotals {
    requests: u64,
    by_crate: u64,
    crate_differs: u64,
    by_answers: u64,
    answers_differs: u64,
    refusals: [u64; PAST_ALL],
}

pub struct Report {
    ops: [OpTotals; LAST_OP as usize + 1],
    known: [bool; PAST_ALL],
    differences: usize,
}

impl Default for Report {
    fn default() -> Report {
        Report { ops: Default::default(), known: refusals::known(), differences: 0 }
    }
}

/// The lines that the three programs gave for one request, the model's also without marks.
pub struct Given<'a> {
    pub model: &'a str,
    pub unmarked: &'a str,
    pub by_crate: &'a str,
    pub answers: Option<&'a str>,
}

impl Report {
    /// Counts the lines of one request, and shows them where they differ.
    pub fn add(&mut self, record: u64, request: &Request, given: &Given, out: &mut impl Write) -> io::Result<()> {
        let totals = &mut self.ops[usize::from(request.op)];
        totals.requests += 1;
        let refusal = given.model.split(' ').nth(2).and_then(|field| field.parse::<usize>().ok());
        let refusal = refusal.filter(|refusal| self.known.get(*refusal) == Some(&true));
        // a request that the format does not give ends both programs alike; and no answer has a number that is not in the list
        let mut differs = refusal.is_none();
        if let Some(refusal) = refusal {
            totals.refusals[refusal] += 1;
        }
        if given.by_crate != "-" {
            totals.by_crate += 1;
            if given.by_crate != line_of_crate(request, given.model, given.unmarked) {
                totals.crate_differs += 1;
                differs = true;
            }
        }
        if let Some(answers) = given.answers {
            totals.by_answers += 1;
            if answers != given.model {
                totals.answers_differs += 1;
                differs = true;
            }
        }
        self.differences += usize::from(differs);
        if differs && self.differences <= SHOWN {
            show(record, request, given, out)?;
        }
        Ok(())
    }

    /// A program went on after the line of the last request.
    pub fn add_more(&mut self, name: &str, last: u64, out: &mut impl Write) -> io::Result<()> {
        self.differences += 1;
        if self.differences <= SHOWN {
            writeln!(out, "difference after request {last}: {name} prints more than is asked for")?;
        }
        Ok(())
    }

    /// How many requests differ so far.
    pub fn differences(&self) -> usize {
        self.differences
    }

    /// Prints the totals; whether there was no difference.
    pub fn finish(&self, out: &mut impl Write) -> io::Result<bool> {
        writeln!(
            out,
            "op  requests  by crate  crate differs  by answers  answers differs | requests per refusal number"
        )?;
        let mut all = OpTotals::default();
        for (op, totals) in self.ops.iter().enumerate().filter(|(_, totals)| totals.requests > 0) {
            print_totals(&op.to_string(), totals, out)?;
            all.requests += totals.requests;
            all.by_crate += totals.by_crate;
            all.crate_differs += totals.crate_differs;
            all.by_answers += totals.by_answers;
            all.answers_differs += totals.answers_differs;
            for (sum, count) in all.refusals.iter_mut().zip(totals.refusals) {
                *sum += count;
            }
        }
        print_totals("all", &all, out)?;
        writeln!(out, "refusal  requests  given exactly when")?;
        for (number, sentence) in refusals::all() {
            writeln!(out, "{number:>7} {:>9}  {sentence}", all.refusals[number])?;
        }
        Ok(self.differences == 0)
    }
}

fn show(record: u64, request: &Request, given: &Given, out: &mut impl Write) -> io::Result<()> {
    let mut bytes = vec![];
    request.write_to(&mut bytes);
    let hex: String = bytes.iter().take(SHOWN_BYTES).map(|byte| format!("{byte:02x}")).collect();
    writeln!(out, "difference in request {record}: op {} settings {}", request.op, request.settings)?;
    writeln!(out, "  request {hex}{}", if bytes.len() > SHOWN_BYTES { ".." } else { "" })?;
    writeln!(out, "  model   {}", given.model)?;
    if given.unmarked != given.model {
        writeln!(out, "  without marks {}", given.unmarked)?;
    }
    writeln!(out, "  crate   {}", given.by_crate)?;
    match given.answers {
        Some(answers) => writeln!(out, "  answers {answers:.SHOWN_BYTES$}"),
        None => Ok(()),
    }
}

fn print_totals(name: &str, totals: &OpTotals, out: &mut impl Write) -> io::Result<()> {
    let refusals: Vec<String> = totals
        .refusals
        .iter()
        .enumerate()
        .filter(|(_, count)| **count > 0)
        .map(|(number, count)| format!("{number}:{count}"))
        .collect();
    writeln!(
        out,
        "{name:>3} {:>9} {:>9} {:>14} {:>11} {:>16} | {}",
        totals.requests,
        totals.by_crate,
        totals.crate_differs,
        totals.by_answers,
        totals.answers_differs,
        refusals.join(" ")
    )
}

#[cfg(test)]
mod tests {
    use super::*;

    /// How many requests differ, where all programs give one line.
    fn differences(line: &str) -> usize {
        let mut report = Report::default();
        let given = Given { model: line, unmarked: line, by_crate: line, answers: Some(line) };
        report.add(1, &Request { op: 9, ..Request::default() }, &given, &mut io::sink()).unwrap();
        report.differences()
    }

    #[test]
    fn an_answer_has_a_number_of_the_list() {
        let known = |refusal| differences(&format!("1 9 {refusal} 0 0 0 0 0 0 0 0")) == 0;
        assert!((0..=20).filter(|refusal| *refusal != 5).all(known), "no refusal, and each number that is given");
        assert!(
            [5, 21, 31, 32, 65_535].into_iter().all(|refusal| !known(refusal)),
            "the one that is never given, and those after the last"
        );
    }

    #[test]
    fn a_line_without_a_number_differs() {
        assert_eq!(differences("stop 1"), 1);
    }
}
