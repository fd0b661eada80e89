//! The port's program `calls`, a line at a time.
use std::io::{BufRead, BufReader, Write};
use std::process::{Child, ChildStdin, ChildStdout, Command, Stdio};

pub struct Port {
    child: Child,
    input: Option<ChildStdin>,
    output: BufReader<ChildStdout>,
}

impl Port {
    pub fn start(program: &str) -> Self {
        let started = Command::new(program).stdin(Stdio::piped()).stdout(Stdio::piped()).spawn();
        let mut child = started.unwrap_or_else(|e| panic!("{program}: {e}"));
        let input = child.stdin.take();
        let output = BufReader::new(child.stdout.take().unwrap());
        Self { child, input, output }
    }

    /// A line that is answered by nothing.
    pub fn tell(&mut self, line: &str) {
        let input = self.input.as_mut().unwrap();
        input.write_all(format!("{line}\n").as_bytes()).unwrap();
    }

    pub fn ask(&mut self, line: &str) -> String {
        self.tell(line);
        let mut answer = vec![];
        self.output.read_until(b'\n', &mut answer).unwrap();
        assert!(answer.pop() == Some(b'\n'), "the port ended at {line}");
        String::from_utf8_lossy(&answer).into()
    }
}

impl Drop for Port {
    fn drop(&mut self) {
        self.input.take();
        let _ = self.child.wait();
    }
}
