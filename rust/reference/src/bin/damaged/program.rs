//! Runs a program under trial on one file and takes its answer.

use std::io::{self, Read, Write};
use std::process::{Child, ChildStdin, ChildStdout, Command, ExitStatus, Stdio};
use std::sync::mpsc::{self, Receiver};
use std::thread;
use std::time::Duration;

/// A program that says nothing for so long is taken to hang.
const PATIENCE: Duration = Duration::from_secs(10);

/// Bytes read beyond the expected ones, enough for a line that differs. A
/// program that never ends its output then fills no memory.
const MORE: usize = 256;

/// What the program printed, and its exit status if it ended by itself.
#[derive(Debug)]
pub struct Answer {
    pub output: Vec<u8>,
    pub status: Option<ExitStatus>,
}

impl Answer {
    pub fn is(&self, expected: &[u8]) -> bool {
        self.output == expected && self.status.map_or(false, |status| status.success())
    }
}

/// A program that has been started on a file.
pub struct Running {
    child: Child,
    output: Option<Receiver<Vec<u8>>>,
    most: usize,
}

/// Starts a program on a file, for which it is expected to print so many bytes.
pub fn start(program: &str, file: &[u8], expected: usize) -> io::Result<Running> {
    let mut command = Command::new(program);
    command.stdin(Stdio::piped()).stdout(Stdio::piped()).stderr(Stdio::null());
    let named =
        |problem: io::Error| io::Error::new(problem.kind(), format!("{program}: {problem}"));
    let mut child = command.spawn().map_err(named)?;
    if let Some(stdin) = child.stdin.take() {
        write_apart(stdin, file.to_vec());
    }
    let most = expected + MORE;
    let output = child.stdout.take().map(|stdout| read_apart(stdout, most));
    Ok(Running { child, output, most })
}

impl Running {
    /// Waits for the answer, or ends a program that gives none.
    pub fn answer(mut self) -> io::Result<Answer> {
        let output = self.output.and_then(|output| output.recv_timeout(PATIENCE).ok());
        match output {
            Some(output) if output.len() < self.most => {
                let status = Some(self.child.wait()?);
                Ok(Answer { output, status })
            }
            unended => {
                end(&mut self.child)?;
                Ok(Answer { output: unended.unwrap_or_default(), status: None })
            }
        }
    }
}

/// Writes in a thread of its own, because the program may print before it has
/// read everything. It may also leave a part unread, so a broken pipe is no
/// fault. The end of the thread closes the pipe.
fn write_apart(mut stdin: ChildStdin, file: Vec<u8>) {
    thread::spawn(move || {
        let _ = stdin.write_all(&file);
    });
}

/// Reads in a thread of its own, so that the wait for it can end.
fn read_apart(stdout: ChildStdout, most: usize) -> Receiver<Vec<u8>> {
    let (sender, receiver) = mpsc::channel();
    thread::spawn(move || {
        let mut output = Vec::new();
        // What was read before a failure is the answer all the same.
        let _ = stdout.take(most as u64).read_to_end(&mut output);
        let _ = sender.send(output);
    });
    receiver
}

/// Ends our own child; it may have ended meanwhile.
fn end(child: &mut Child) -> io::Result<()> {
    let _ = child.kill();
    child.wait().map(|_| ())
}

#[cfg(test)]
mod tests {
    use super::*;

    fn answer(program: &str, file: &[u8], expected: usize) -> io::Result<Answer> {
        start(program, file, expected)?.answer()
    }

    #[test]
    fn input_comes_back_whole() {
        for length in [0, 1, 65_536, 65_537, 1_000_000] {
            let file: Vec<u8> = (0..length).map(|i| i as u8).collect();
            assert!(answer("cat", &file, file.len()).unwrap().is(&file));
        }
    }

    #[test]
    fn unread_input_is_no_fault() {
        let answer = answer("true", &[0; 1_000_000], 0).unwrap();
        assert!(answer.is(b""));
        assert!(!answer.is(b"x"));
    }

    #[test]
    fn exit_status_counts() {
        assert!(!answer("false", b"", 0).unwrap().is(b""));
    }

    #[test]
    fn endless_output_is_ended() {
        let answer = answer("yes", b"", 10).unwrap();
        assert_eq!((answer.output.len(), answer.status), (10 + MORE, None));
    }

    #[test]
    fn missing_program_is_an_error() {
        assert!(answer("./no such program", b"", 0).is_err());
    }
}
