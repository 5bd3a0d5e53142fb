//! Our program: one process for each batch of requests.
use std::io::{Read, Write};
use std::process::{Child, Command, Stdio};
use std::thread;

/// The bytes of standard input that the program has room for.
pub const ROOM: usize = 262_144;

/// What the program wrote, and what is wrong beside.
pub struct Lines {
    pub lines: Vec<String>,
    pub problem: Option<String>,
}

/// The words that start the program.
pub struct Program {
    pub words: Vec<String>,
}

impl Program {
    /// The lines that the program answers to a text, and what else is wrong. Meanwhile something else is done.
    pub fn lines<T>(&self, text: &str, meanwhile: impl FnOnce() -> T) -> (Lines, T) {
        let mut child = self.started();
        let (mut input, mut output) = (child.stdin.take().unwrap(), child.stdout.take().unwrap());
        let (bytes, done) = thread::scope(|s| {
            // A program that ends early leaves its input. Its missing lines tell of that.
            s.spawn(move || input.write_all(text.as_bytes()).ok());
            let reader = s.spawn(move || {
                let mut bytes = vec![];
                output.read_to_end(&mut bytes).expect("the program's output can be read");
                bytes
            });
            let done = meanwhile();
            (reader.join().expect("the reader does not stop"), done)
        });
        let status = child.wait().expect("the program was started");
        let output = String::from_utf8_lossy(&bytes);
        let problem = if !status.success() {
            Some(format!("the program ended with {status}"))
        } else if !output.is_empty() && !output.ends_with('\n') {
            Some("the program's last line does not end".into())
        } else {
            None
        };
        (Lines { lines: output.lines().map(String::from).collect(), problem }, done)
    }

    fn started(&self) -> Child {
        let mut command = Command::new(&self.words[0]);
        command.args(&self.words[1..]).stdin(Stdio::piped()).stdout(Stdio::piped());
        command.spawn().unwrap_or_else(|e| {
            eprintln!("{} does not start: {e}", self.words[0]);
            std::process::exit(2)
        })
    }
}
