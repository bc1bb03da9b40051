//! A case: the question `NAME: CALL key=value key=value`, and the answer that completes its line. A run that is lent
//! stands in both, as it is before the call and after it.

use second::answer::Refusal;
use std::fmt::Display;

#[derive(Clone)]
pub struct Case {
    pub question: String,
    pub answer: String,
}

pub struct Line {
    name: String,
    question: String,
    given: String,
    left: String,
}

impl Line {
    pub fn new(name: &str, call: &str) -> Line {
        let question = format!("{name}: {call}");
        Line { name: name.to_string(), question, given: String::new(), left: String::new() }
    }

    /// An input.
    pub fn key(mut self, key: &str, value: impl Display) -> Line {
        self.question += &format!(" {key}={value}");
        self
    }

    /// A run that is lent.
    pub fn lent(self, key: &str, before: impl Display, after: impl Display) -> Line {
        let mut line = self.key(key, before);
        line.left += &format!(" {key}={after}");
        line
    }

    /// What is answered beside the verdict.
    pub fn gives(mut self, key: &str, value: impl Display) -> Line {
        self.given += &format!(" {key}={value}");
        self
    }

    pub fn answered<T>(self, outcome: &Result<T, Refusal>) -> Case {
        let number = outcome.as_ref().err().map_or(0, |refusal| refusal.number);
        assert!(name_fits(&self.name, number), "the case {} is answered with {number}", self.question);
        let verdict = match outcome {
            Ok(_) => "done".to_string(),
            Err(refusal) => format!("refused {} {}", refusal.number, refusal.place),
        };
        Case { question: self.question, answer: format!(" -> {verdict}{}{}\n", self.given, self.left) }
    }

    /// What is printed comes on lines of its own.
    pub fn printed(self, text: &str) -> Case {
        if let Some(number) = self.name.strip_prefix("refusal ") {
            assert!(text.contains(&format!("refused {number} ")), "{} prints {text}", self.question);
        }
        Case { question: self.question, answer: format!("\n{text}") }
    }
}

/// `refusal N` is to be refused with N, and `done` is to be done. The other names promise nothing.
fn name_fits(name: &str, number: u16) -> bool {
    match name.strip_prefix("refusal ") {
        Some(row) => row == number.to_string(),
        None => name != "done" || number == 0,
    }
}
