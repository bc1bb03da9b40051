//! Runs the program on files and compares what it prints.

use crate::good::Job;
use second::random::Random;
use second::rules;
use std::collections::BTreeSet;
use std::io::Write;
use std::path::{Path, PathBuf};
use std::process::{ChildStdin, Command, Output, Stdio};
use std::sync::atomic::{AtomicUsize, Ordering};
use std::thread;
use std::time::Duration;

/// How many programs are run at a time.
const AT_A_TIME: usize = 2;

/// How many bytes of a file, and of a text, a message shows.
const SHOWN_BYTES: usize = 400;
const SHOWN_TEXT: usize = 1200;

/// Between two pieces, so that a program that reads only what is there sees the end of a piece; of a file in many pieces
/// only behind the first ones.
const PAUSE: Duration = Duration::from_micros(200);
const PAUSES: usize = 1000;

/// How many files of a list are run before their texts are compared: huge ones do not fit all together.
const TOGETHER: usize = 64;

/// What has been compared.
pub struct Tally {
    program: PathBuf,
    files: usize,
    /// The numbers that were to be printed: 0 for a file without refusal.
    seen: BTreeSet<u16>,
}

impl Tally {
    pub fn new(program: &Path) -> Tally {
        Tally { program: program.to_path_buf(), files: 0, seen: BTreeSet::new() }
    }

    pub fn files(&self) -> usize {
        self.files
    }

    /// Compares every file of a list. Answers the first difference in words.
    pub fn compare(&mut self, list: &str, jobs: &[Job]) -> Result<(), String> {
        for (batch, some) in jobs.chunks(TOGETHER).enumerate() {
            for (index, output) in outputs(&self.program, some)?.iter().enumerate() {
                let text = rules::job::printed(&some[index].bytes);
                self.seen.insert(number(&text));
                // How the program ends is not laid down, but it must end by itself.
                if output.stdout != text.as_bytes() || output.status.code().is_none() {
                    let name = format!("{list}, file {} of {}: {}", batch * TOGETHER + index, jobs.len(), some[index].what);
                    return Err(difference(&name, &some[index], &text, output));
                }
            }
        }
        println!("{list}: {} files", jobs.len());
        self.files += jobs.len();
        Ok(())
    }

    /// A comparison that never reaches one of the numbers proves nothing about it.
    pub fn must_have_seen(&self, numbers: &[u16]) -> Result<(), String> {
        let seen: Vec<u16> = self.seen.iter().copied().collect();
        if seen == numbers {
            return Ok(());
        }
        Err(format!("INCOMPLETE: files were to be compared on the numbers {numbers:?}, but were on {seen:?}"))
    }
}

/// The number of the refusal that a text ends with, or 0.
fn number(text: &str) -> u16 {
    let refusal = text.lines().last().and_then(|line| line.strip_prefix("refused "));
    match refusal.and_then(|words| words.split(' ').next()) {
        Some(word) => word.parse().expect("a number follows"),
        None => 0,
    }
}

/// What the program prints for each file, in the order of the files.
fn outputs(program: &Path, jobs: &[Job]) -> Result<Vec<Output>, String> {
    let next = AtomicUsize::new(0);
    let work = || -> Result<Vec<(usize, Output)>, String> {
        let mut done = Vec::new();
        loop {
            let index = next.fetch_add(1, Ordering::Relaxed);
            match jobs.get(index) {
                Some(job) => done.push((index, output(program, job)?)),
                None => return Ok(done),
            }
        }
    };
    let mut all = Vec::new();
    thread::scope(|scope| {
        let workers: Vec<_> = (0..AT_A_TIME).map(|_| scope.spawn(work)).collect();
        for worker in workers {
            all.extend(worker.join().expect("a worker ends by itself")?);
        }
        Ok::<(), String>(())
    })?;
    all.sort_by_key(|(index, _)| *index);
    Ok(all.into_iter().map(|(_, output)| output).collect())
}

/// One run. The file is fed from a thread of its own: the program may print before it has read everything.
fn output(program: &Path, job: &Job) -> Result<Output, String> {
    let said = |error: std::io::Error| format!("{}: {error}", program.display());
    let mut command = Command::new(program);
    let mut child = command.stdin(Stdio::piped()).stdout(Stdio::piped()).spawn().map_err(said)?;
    let input = child.stdin.take().expect("standard input is a pipe");
    thread::scope(|scope| {
        scope.spawn(move || feed(input, job));
        child.wait_with_output().map_err(said)
    })
}

/// Gives the program its file. A program that knows its answer need not read on, so a closed pipe is no fault.
fn feed(mut input: ChildStdin, job: &Job) {
    let mut random = job.uneven.map(Random::new);
    let mut rest = &job.bytes[..];
    for turn in 0.. {
        let length = random.as_mut().map_or(job.piece, |random| 1 + random.below(job.piece));
        let (piece, behind) = rest.split_at(length.min(rest.len()));
        if piece.is_empty() {
            return;
        }
        if (1..PAUSES).contains(&turn) {
            thread::sleep(PAUSE);
        }
        if input.write_all(piece).is_err() {
            return;
        }
        rest = behind;
    }
}

/// A difference in words.
fn difference(name: &str, job: &Job, expected: &str, output: &Output) -> String {
    let got = String::from_utf8_lossy(&output.stdout);
    let same = expected.bytes().zip(&output.stdout).take_while(|(wanted, found)| wanted == *found).count();
    [
        format!("DIFFERENCE in {name}"),
        format!("  {} bytes: {}", job.bytes.len(), hex(&job.bytes)),
        format!("  the first {same} bytes of the two texts are equal; the program ended with {}", output.status),
        format!("  expected {} bytes:\n{}", expected.len(), shortened(expected)),
        format!("  got {} bytes:\n{}", output.stdout.len(), shortened(&got)),
    ]
    .join("\n")
}

fn hex(bytes: &[u8]) -> String {
    let words: Vec<String> = bytes.iter().take(SHOWN_BYTES).map(|byte| format!("{byte:02x}")).collect();
    let more = bytes.len().saturating_sub(SHOWN_BYTES);
    if more == 0 { words.join(" ") } else { format!("{} and {more} more", words.join(" ")) }
}

fn shortened(text: &str) -> String {
    let length = text.chars().count();
    if length <= SHOWN_TEXT {
        return text.to_string();
    }
    // The end tells a refusal, the beginning where the text is.
    let head: String = text.chars().take(SHOWN_TEXT / 2).collect();
    let tail: String = text.chars().skip(length - SHOWN_TEXT / 2).collect();
    format!("{head}\n[...]\n{tail}")
}

#[cfg(test)]
mod tests {
    use super::number;

    #[test]
    fn the_number_of_a_text_is_that_of_its_last_line() {
        assert_eq!(number("SLT 1 0\n"), 0);
        assert_eq!(number("refused 24 0\n"), 24);
        assert_eq!(number("SLT 1 1\nrefused 4 1000\n"), 4);
    }
}
