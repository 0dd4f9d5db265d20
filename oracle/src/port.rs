//! The port, a program that is asked over its standard input and output. It
//! ends when its input does.

use std::env;
use std::io;
use std::io::ErrorKind;
use std::process;
use std::process::Child;
use std::process::Command;
use std::process::Stdio;

use crate::frame;

pub struct Port {
    command: Vec<String>,
    running: Option<Child>,
}

impl Port {
    /// The program that the environment variable PORT names, with its
    /// arguments.
    pub fn from_environment() -> Option<Self> {
        let command = env::var("PORT").ok()?;
        let command: Vec<String> = command.split_whitespace().map(String::from).collect();
        (!command.is_empty()).then_some(Port {
            command,
            running: None,
        })
    }

    /// The words of the answers to a frame. A port that fails is started anew
    /// for the next frame.
    pub fn ask(&mut self, request: &[u64]) -> io::Result<Vec<u64>> {
        let answers = self.exchange(request);
        if answers.is_err() {
            self.stop();
        }
        answers
    }

    fn exchange(&mut self, request: &[u64]) -> io::Result<Vec<u64>> {
        let running = self.running.get_or_insert_with(|| start(&self.command));
        frame::write(running.stdin.as_mut().unwrap(), request)?;
        let answers = frame::read(running.stdout.as_mut().unwrap(), frame::ANSWERS)?;
        answers.ok_or(ErrorKind::UnexpectedEof.into())
    }

    /// Ends a port that failed.
    fn stop(&mut self) {
        if let Some(mut running) = self.running.take() {
            let _ = running.kill();
            let _ = running.wait();
        }
    }
}

fn start(command: &[String]) -> Child {
    let started = Command::new(&command[0])
        .args(&command[1..])
        .stdin(Stdio::piped())
        .stdout(Stdio::piped())
        .spawn();
    started.unwrap_or_else(|error| {
        eprintln!("The port can't be started: {error}.");
        process::exit(2);
    })
}
