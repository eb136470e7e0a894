//! Running the program.

use std::io::Write;
use std::process::{Command, Stdio};

/// What a run left.
#[derive(Debug)]
pub struct Run {
    pub status: i32,
    pub out: Vec<u8>,
    pub said: String,
}

impl Run {
    pub fn text(&self) -> &str {
        str::from_utf8(&self.out).expect("the output is text")
    }

    /// The run was refused, with nothing printed and with this on standard error.
    pub fn assert_refused(&self, said: &str) {
        assert_eq!((self.status, self.said.as_str()), (1, said));
        assert!(self.out.is_empty(), "a refused run printed something");
    }

    /// What was printed by a run that went well.
    pub fn done(self) -> Vec<u8> {
        assert_eq!((self.status, self.said.as_str()), (0, ""));
        self.out
    }
}

pub fn command() -> Command {
    Command::new(env!("CARGO_BIN_EXE_house"))
}

/// Runs the program with these arguments and this on standard input.
pub fn house(arguments: &[&str], input: &[u8]) -> Run {
    let mut command = command();
    command.args(arguments).stdin(Stdio::piped()).stdout(Stdio::piped()).stderr(Stdio::piped());
    let mut child = command.spawn().expect("the program starts");
    let mut pipe = child.stdin.take().expect("its input is a pipe");
    // The program prints only once it has read all, or stops reading where there is too much.
    let _ = pipe.write_all(input);
    drop(pipe);
    let output = child.wait_with_output().expect("the program ends");
    Run {
        status: output.status.code().expect("it ends by itself"),
        out: output.stdout,
        said: String::from_utf8(output.stderr).expect("what is said is text"),
    }
}
