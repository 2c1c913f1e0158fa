//! Runs a program of ours and compares what it writes with what the documents have it write.

pub mod hall;
pub mod paper;

use crate::tally::Tally;
use std::io::Write;
use std::process::{Command, Stdio};
use std::time::Duration;

/// A program: its path, and what it has to write for an input.
struct Program<'a> {
    path: &'a str,
    wanted: fn(&[u8]) -> Vec<u8>,
}

impl Program<'_> {
    /// Runs the command, feeds it the parts of its input one after the other and compares what it writes.
    fn compare_run(&self, tally: &mut Tally, mut command: Command, what: &str, parts: &[&[u8]]) {
        let mut child = (command.stdin(Stdio::piped()).stdout(Stdio::piped()))
            .spawn()
            .expect("the program starts");
        let mut pipe = child.stdin.take().expect("its input is a pipe");
        for (i, part) in parts.iter().enumerate() {
            if i > 0 {
                // so that the program reads the part before by itself
                std::thread::sleep(Duration::from_millis(5));
            }
            // a program that has read enough may have ended, and then the pipe is broken
            let _ = pipe.write_all(part);
        }
        drop(pipe);
        let ended = child.wait_with_output().expect("the program ends");
        let (rust, ours) = ((self.wanted)(&parts.concat()), ended.stdout);
        let what = || format!("what {} writes for {what}", self.path);
        tally.same(
            || format!("the length of {}", what()),
            rust.len(),
            ours.len(),
        );
        tally.same_bytes(what, &rust, &ours);
        let status = || format!("the status after {}", what());
        tally.same(status, Some(0), ended.status.code());
    }

    fn compare_input(&self, tally: &mut Tally, input: &[u8]) {
        let what = match input.len() {
            0..20 => format!("{input:x?}"),
            n => format!("{n} bytes"),
        };
        self.compare_run(tally, Command::new(self.path), &what, &[input]);
    }

    /// Inputs of few bytes and of some thousands, those of the lengths `slow` also byte by byte, and a closed one.
    fn compare_lengths(&self, tally: &mut Tally, slow: &[usize]) {
        for len in (0..=13).chain([4096, 65_536, 70_000]) {
            self.compare_input(tally, &input_of(len));
        }
        for &len in slow {
            let (input, what) = (input_of(len), format!("{len} bytes, one by one"));
            let parts: Vec<&[u8]> = input.chunks(1).collect();
            self.compare_run(tally, Command::new(self.path), &what, &parts);
        }
        let mut closed = Command::new("sh");
        closed.args(["-c", "exec \"$0\" <&-", self.path]);
        self.compare_run(tally, closed, "a closed input", &[]);
    }
}

/// An input of this length: 9 down to 1, over and over, so that its ninth byte is the number of a style.
fn input_of(len: usize) -> Vec<u8> {
    (0..len).map(|i| (9 - i % 9) as u8).collect()
}
