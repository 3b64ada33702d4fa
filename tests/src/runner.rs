//! Programs that answer an input: the reference, with or without a slip, or an external program.

use crate::control::Control;
use crate::seen::Seen;
use crate::slip::Slip;
use crate::{host_calls, host_session, synprint, synrun, synstat};
use std::io::{self, Read, Write};
use std::ops::Range;
use std::path::PathBuf;
use std::process::{Child, ChildStdin, ChildStdout, Command, Stdio};
use std::sync::mpsc;
use std::thread::{self, JoinHandle};
use std::time::Duration;

/// An external program that runs longer has failed.
const PATIENCE: Duration = Duration::from_secs(60);

/// The forms of input.
#[derive(Clone, Copy, PartialEq, Eq, Debug)]
pub enum Form {
    /// Set text and beats, what `synrun` reads.
    Synrun,
    /// A host session.
    Host,
    /// A host session of thousands of steps over a full set.
    Long,
    /// What `synprint` reads, which is what `synrun` reads.
    Print,
    /// What `synstat` reads, which is what `synrun` reads.
    Stat,
}

impl Form {
    pub const ALL: [Form; 5] = [Form::Synrun, Form::Host, Form::Long, Form::Print, Form::Stat];

    pub fn name(self) -> &'static str {
        match self {
            Form::Synrun => "synrun",
            Form::Host => "host",
            Form::Long => "long",
            Form::Print => "print",
            Form::Stat => "stat",
        }
    }

    pub fn named(name: &str) -> Option<Form> {
        Form::ALL.into_iter().find(|form| form.name() == name)
    }
}

/// Seeds for each form.
#[derive(Clone, Default)]
pub struct Seeds {
    pub synrun: Range<u64>,
    pub host: Range<u64>,
    pub long: Range<u64>,
    pub print: Range<u64>,
    pub stat: Range<u64>,
}

impl Seeds {
    pub fn of(&self, form: Form) -> Range<u64> {
        match form {
            Form::Synrun => self.synrun.clone(),
            Form::Host => self.host.clone(),
            Form::Long => self.long.clone(),
            Form::Print => self.print.clone(),
            Form::Stat => self.stat.clone(),
        }
    }

    pub fn put(&mut self, form: Form, seeds: Range<u64>) {
        match form {
            Form::Synrun => self.synrun = seeds,
            Form::Host => self.host = seeds,
            Form::Long => self.long = seeds,
            Form::Print => self.print = seeds,
            Form::Stat => self.stat = seeds,
        }
    }
}

/// Runs the form's program of the reference.
pub fn work(form: Form, input: &[u8], control: &mut Control, out: &mut dyn Write) -> io::Result<()> {
    match form {
        Form::Synrun => synrun::run(input, control, out),
        Form::Host | Form::Long => host_session::run(input, control, out),
        Form::Print => synprint::run(input, control, out),
        Form::Stat => synstat::run(input, control, out),
    }
}

/// What the reference prints.
pub fn reference(form: Form, input: &[u8], slip: Slip) -> Vec<u8> {
    let mut out = Vec::new();
    work(form, input, &mut Control::new(slip, Seen::default()), &mut out).expect("writing to memory");
    out
}

/// What the reference prints, and where its flags and its history first decide otherwise.
pub fn watched(form: Form, input: &[u8], slip: Slip) -> (Vec<u8>, Option<String>) {
    let mut out = Vec::new();
    let mut control = Control::watched(slip, Seen::default());
    work(form, input, &mut control, &mut out).expect("writing to memory");
    (out, control.witness.difference)
}

/// The external programs, as far as given.
#[derive(Clone, Default)]
pub struct External {
    pub synrun: Option<PathBuf>,
    pub host: Option<PathBuf>,
    pub print: Option<PathBuf>,
    pub stat: Option<PathBuf>,
}

impl External {
    /// What the program of this form prints, or how it failed; None if there is no such program.
    pub fn output(&self, form: Form, input: &[u8]) -> Option<Vec<u8>> {
        let program = match form {
            Form::Synrun => self.synrun.as_ref()?,
            Form::Host | Form::Long => self.host.as_ref()?,
            Form::Print => self.print.as_ref()?,
            Form::Stat => self.stat.as_ref()?,
        };
        Some(
            answered(program, form, input)
                .unwrap_or_else(|error| format!("cannot run: {error}\n").into_bytes()),
        )
    }
}

/// What the program of a form answers; then how it failed, if it did.
fn answered(program: &PathBuf, form: Form, input: &[u8]) -> io::Result<Vec<u8>> {
    let mut child = Command::new(program).stdin(Stdio::piped()).stdout(Stdio::piped()).spawn()?;
    let stdin = child.stdin.take().ok_or(io::ErrorKind::BrokenPipe)?;
    let stdout = child.stdout.take().ok_or(io::ErrorKind::BrokenPipe)?;
    let watch = Watch::over(child);
    let mut printed = match form {
        Form::Synrun | Form::Print | Form::Stat => fed(stdin, stdout, input.to_vec()),
        Form::Host | Form::Long => host_calls::run(input, stdin, stdout),
    };
    printed.extend(watch.failure()?.into_bytes());
    Ok(printed)
}

/// What a program prints for an input, which is fed from a thread: the program may end before it has read all.
fn fed(mut stdin: ChildStdin, mut stdout: ChildStdout, input: Vec<u8>) -> Vec<u8> {
    thread::spawn(move || stdin.write_all(&input).ok());
    let mut output = Vec::new();
    stdout.read_to_end(&mut output).ok();
    output
}

/// A thread that ends a program which runs too long.
struct Watch {
    done: mpsc::Sender<()>,
    failure: JoinHandle<io::Result<String>>,
}

impl Watch {
    fn over(mut child: Child) -> Watch {
        let (done, ended) = mpsc::channel();
        let failure = thread::spawn(move || {
            if ended.recv_timeout(PATIENCE).is_err() {
                child.kill()?;
                child.wait()?;
                return Ok("does not end\n".into());
            }
            let status = child.wait()?;
            Ok(if status.success() { String::new() } else { format!("ended with {status}\n") })
        });
        Watch { done, failure }
    }

    /// How the program failed, once its pipes are closed; empty if it did not.
    fn failure(self) -> io::Result<String> {
        self.done.send(()).ok();
        self.failure.join().expect("the watch ends")
    }
}
