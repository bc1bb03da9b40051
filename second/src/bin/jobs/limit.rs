//! How much the program reads: up to the byte at the limit and none behind it, also where a pipe stays open there.

use crate::good::{file, file_2, filling};
use second::rules;
use second::rules::job::{LONGEST, LONGEST_2};
use std::fs::{self, File};
use std::io::{Read, Seek, Write};
use std::path::Path;
use std::process::{Command, Stdio};
use std::thread;
use std::time::{Duration, Instant};

/// How long a program may take that has all it needs.
const PATIENCE: Duration = Duration::from_secs(60);

/// Files that are over-long, and how much of each may be read; and one that is as long as it may be.
fn files() -> Vec<(&'static str, Vec<u8>, usize)> {
    let long = |length: usize| file_2(&filling(length - 7));
    vec![
        ("version 2, a byte at the limit", long(LONGEST_2 + 1), LONGEST_2 + 1),
        ("version 2, many bytes behind the limit", long(LONGEST_2 + 70_000), LONGEST_2 + 1),
        ("version 2, as long as it may be", long(LONGEST_2), LONGEST_2),
        ("version 1, a byte at the limit", file(&filling(LONGEST + 1 - 6)), LONGEST + 1),
        ("version 1, many bytes behind the limit", file(&filling(LONGEST + 70_000 - 6)), LONGEST + 1),
    ]
}

/// The program is given each as a file, and leaves off where it may read no more.
pub fn reads_no_more(program: &Path, work: &Path) -> Result<(), String> {
    let said = |error: std::io::Error| format!("{}: {error}", work.display());
    for (name, bytes, most) in files() {
        fs::write(work, &bytes).map_err(said)?;
        let mut input = File::open(work).map_err(said)?;
        let again = input.try_clone().map_err(said)?;
        let output = Command::new(program).stdin(Stdio::from(again)).output().map_err(said)?;
        let read = input.stream_position().map_err(said)?;
        fs::remove_file(work).map_err(said)?;
        if read != most as u64 || output.stdout != rules::job::printed(&bytes).into_bytes() {
            return Err(format!("DIFFERENCE in what is read of a file of {name}: {read} bytes of at most {most}, or the text"));
        }
    }
    println!("what is read: {} files, none behind its limit", files().len());
    Ok(())
}

/// The program is given each through a pipe up to the limit's byte, and ends though the pipe stays open.
pub fn ends_at_the_limit(program: &Path) -> Result<(), String> {
    let said = |error: std::io::Error| format!("{}: {error}", program.display());
    let over_long = || files().into_iter().filter(|(_, bytes, most)| bytes.len() >= *most && *most != LONGEST_2);
    for (name, bytes, most) in over_long() {
        let mut child = Command::new(program).stdin(Stdio::piped()).stdout(Stdio::piped()).spawn().map_err(said)?;
        let mut input = child.stdin.take().expect("standard input is a pipe");
        let mut output = child.stdout.take().expect("standard output is a pipe");
        let reader = thread::spawn(move || {
            let mut text = Vec::new();
            output.read_to_end(&mut text).map(|_| text)
        });
        input.write_all(&bytes[..most]).map_err(said)?;
        let begin = Instant::now();
        while child.try_wait().map_err(said)?.is_none() {
            if begin.elapsed() > PATIENCE {
                child.kill().map_err(said)?;
                return Err(format!("DIFFERENCE: {name}: the program waits for a byte behind the limit"));
            }
            thread::sleep(Duration::from_millis(1));
        }
        drop(input);
        let text = reader.join().expect("the reader ends by itself").map_err(said)?;
        if text != rules::job::printed(&bytes).into_bytes() {
            return Err(format!("DIFFERENCE: {name}: another text where the pipe stays open"));
        }
    }
    println!("a pipe that stays open at the limit: {} files, all ended", over_long().count());
    Ok(())
}
