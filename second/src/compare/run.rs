//! Runs of the other implementation: its input is written by one thread while another reads its
//! output, under a time limit. A program that hangs, dies or prints too much is told as such.

use std::ffi::OsString;
use std::io::{Read, Write};
use std::process::{Child, Command, Stdio};
use std::sync::mpsc::{channel, RecvTimeoutError};
use std::sync::{Arc, Mutex};
use std::thread;
use std::time::{Duration, Instant};

/// A command: the prefix words, then the program's path.
#[derive(Clone)]
pub struct Program {
    pub words: Vec<OsString>,
}

pub struct Output {
    pub bytes: Vec<u8>,
    /// What went wrong with the run itself.
    pub trouble: Option<String>,
    pub never_started: bool,
}

impl Program {
    fn start(&self) -> Result<Child, Output> {
        Command::new(&self.words[0])
            .args(&self.words[1..])
            .stdin(Stdio::piped())
            .stdout(Stdio::piped())
            .stderr(Stdio::null())
            .spawn()
            .map_err(|error| Output {
                bytes: Vec::new(),
                trouble: Some(format!("{:?} could not be started: {error}", self.words)),
                never_started: true,
            })
    }

    /// The output to an input. Over `most` bytes the run is ended. With `pause`, the input comes
    /// in two parts, so that the program meets a short read.
    pub fn run(&self, input: &[u8], most: usize, limit: Duration, pause: bool) -> Output {
        let begin = Instant::now();
        let mut child = match self.start() {
            Ok(child) => child,
            Err(output) => return output,
        };
        let mut to = child.stdin.take().expect("piped");
        let mut from = child.stdout.take().expect("piped");
        let input = input.to_vec();
        thread::spawn(move || {
            // A program may stop reading before the input ends: no error of ours.
            if pause {
                let (first, rest) = input.split_at(input.len() / 2);
                let _ = to.write_all(first);
                thread::sleep(Duration::from_millis(300));
                let _ = to.write_all(rest);
            } else {
                let _ = to.write_all(&input);
            }
        });
        let held = Arc::new(Mutex::new(Vec::new()));
        let filled = held.clone();
        let (tell, told) = channel();
        thread::spawn(move || {
            let mut chunk = vec![0; 65_536];
            loop {
                let count = from.read(&mut chunk).unwrap_or(0);
                let mut held = filled.lock().expect("no panic here");
                held.extend_from_slice(&chunk[..count]);
                if count == 0 || held.len() > most {
                    let _ = tell.send(count == 0);
                    return;
                }
            }
        });
        let trouble = match told.recv_timeout(limit) {
            Ok(true) => ended(&mut child, limit.saturating_sub(begin.elapsed())),
            Ok(false) => Some("printed too much and was stopped".to_string()),
            Err(_) => Some(format!("was stopped after {} seconds", limit.as_secs())),
        };
        let _ = child.kill();
        let _ = child.wait();
        let bytes = held.lock().expect("no panic here").clone();
        Output { bytes, trouble, never_started: false }
    }

    /// The answers to lines that are sent one at a time, each after the last one's answer.
    /// Every line comes in two parts. It stops at the first line that isn't answered.
    pub fn talk(&self, lines: &[Vec<u8>], limit: Duration) -> Output {
        let mut child = match self.start() {
            Ok(child) => child,
            Err(output) => return output,
        };
        let mut to = child.stdin.take().expect("piped");
        let mut from = child.stdout.take().expect("piped");
        let (tell, told) = channel();
        thread::spawn(move || {
            let mut chunk = vec![0; 65_536];
            loop {
                let count = from.read(&mut chunk).unwrap_or(0);
                if count == 0 || tell.send(chunk[..count].to_vec()).is_err() {
                    return;
                }
            }
        });
        let mut bytes = Vec::new();
        let mut trouble = None;
        'lines: for (i, line) in lines.iter().enumerate() {
            let (first, rest) = line.split_at(line.len() / 2);
            let _ = to.write_all(first);
            thread::sleep(Duration::from_millis(5));
            let _ = to.write_all(rest);
            while bytes.iter().filter(|&&byte| byte == b'\n').count() <= i {
                match told.recv_timeout(limit) {
                    Ok(more) => bytes.extend(more),
                    Err(RecvTimeoutError::Timeout) => {
                        trouble = Some("did not answer a line before the next came".to_string());
                        break 'lines;
                    }
                    Err(RecvTimeoutError::Disconnected) => {
                        trouble = Some("ended before its input did".to_string());
                        break 'lines;
                    }
                }
            }
        }
        drop(to);
        if trouble.is_none() {
            while let Ok(more) = told.recv_timeout(limit) {
                bytes.extend(more);
            }
            trouble = ended(&mut child, limit);
        }
        let _ = child.kill();
        let _ = child.wait();
        Output { bytes, trouble, never_started: false }
    }
}

/// Waits for a program that has closed its output; tells a bad end.
fn ended(child: &mut Child, limit: Duration) -> Option<String> {
    let begin = Instant::now();
    loop {
        match child.try_wait() {
            Ok(Some(status)) if status.success() => return None,
            Ok(Some(status)) => return Some(format!("ended with {status}")),
            Ok(None) if begin.elapsed() > limit => return Some("did not end".to_string()),
            Ok(None) => thread::sleep(Duration::from_millis(1)),
            Err(error) => return Some(format!("could not be waited for: {error}")),
        }
    }
}
