//! Running the program, and judging what it says.

pub mod desk;
pub mod header;
pub mod pads;
pub mod system;
pub mod trace;
pub mod tree;

use std::ffi::OsStr;
use std::io::Write;
use std::process::{Child, Command, Output, Stdio};
use std::sync::mpsc::{channel, RecvTimeoutError};
use std::thread;
use std::time::{Duration, Instant};

/// What the system says, as it stands in the program's lines.
pub const MISSING: &str = "No such file or directory (os error 2)";
pub const CLOSED: &str = "Bad file descriptor (os error 9)";
pub const DENIED: &str = "Permission denied (os error 13)";
pub const FOLDER: &str = "Is a directory (os error 21)";
pub const LARGE: &str = "File too large (os error 27)";
pub const FULL: &str = "No space left on device (os error 28)";
pub const PIPE: &str = "Broken pipe (os error 32)";
/// What the program says of what it does not overwrite.
pub const THERE: &str = "it is there already";

/// The commands.
pub const COMMANDS: [&str; 7] = [
    "pallet",
    "seal",
    "show",
    "open",
    "read",
    "check-chain",
    "explain",
];

/// How long a run may take before it is ended.
const PATIENCE: Duration = Duration::from_secs(60);

/// The program with arguments: no standard input, and all that it prints is kept. Each may be set anew.
pub fn command<S: AsRef<OsStr>>(args: &[S]) -> Command {
    piped(Command::new(env!("CARGO_BIN_EXE_bowlinette")), args)
}

/// The program run by a shell, which is given what to do to its own streams or limits first.
pub fn by_shell<S: AsRef<OsStr>>(first: &str, streams: &str, args: &[S]) -> Command {
    let mut shell = Command::new("sh");
    let script = format!("{first} exec \"$0\" \"$@\" {streams}");
    shell
        .args(["-c", &script])
        .arg(env!("CARGO_BIN_EXE_bowlinette"));
    piped(shell, args)
}

fn piped<S: AsRef<OsStr>>(mut command: Command, args: &[S]) -> Command {
    let command_line = command.args(args).stdin(Stdio::null());
    command_line.stdout(Stdio::piped()).stderr(Stdio::piped());
    command
}

/// The program run with arguments.
pub fn run<S: AsRef<OsStr>>(args: &[S]) -> Ran {
    finish(&mut command(args))
}

/// The program run with arguments and a standard input.
pub fn run_with<S: AsRef<OsStr>>(args: &[S], input: &[u8]) -> Ran {
    let mut child = command(args).stdin(Stdio::piped()).spawn().unwrap();
    let mut pipe = child.stdin.take().unwrap();
    thread::scope(|scope| {
        // A program that has heard enough closes the pipe before all is written.
        scope.spawn(move || pipe.write_all(input).is_ok());
        ended(child)
    })
}

/// A command run to its end.
pub fn finish(command: &mut Command) -> Ran {
    ended(command.spawn().expect("the program starts"))
}

/// What a run ends with; one that does not end is killed, which is no status that any test expects.
pub fn ended(child: Child) -> Ran {
    let (id, (ended, watched)) = (child.id(), channel::<()>());
    let output = thread::scope(|scope| {
        scope.spawn(move || {
            if watched.recv_timeout(PATIENCE) == Err(RecvTimeoutError::Timeout) {
                system::signal(id, system::KILL);
            }
        });
        let output = child.wait_with_output().expect("the program ends");
        drop(ended);
        output
    });
    Ran::of(&output)
}

/// Waits until something holds; it must come to hold.
pub fn wait_until(what: &str, mut holds: impl FnMut() -> bool) {
    let begin = Instant::now();
    while !holds() {
        assert!(begin.elapsed() < PATIENCE, "in vain: {what}");
        thread::sleep(Duration::from_millis(2));
    }
}

/// What a run printed, and its status, if it was not ended by a signal.
#[derive(Debug)]
pub struct Ran {
    pub status: Option<i32>,
    pub out: Vec<u8>,
    pub err: String,
}

impl Ran {
    pub fn of(output: &Output) -> Ran {
        Ran {
            status: output.status.code(),
            out: output.stdout.clone(),
            err: String::from_utf8_lossy(&output.stderr).into_owned(),
        }
    }

    /// Done, with nothing on standard error: what is on standard output.
    pub fn done(self) -> Vec<u8> {
        assert_eq!((self.status, &self.err[..]), (Some(0), ""), "{self:?}");
        self.out
    }

    /// The same as text.
    pub fn text(self) -> String {
        String::from_utf8(self.done()).expect("text")
    }

    /// Done with nothing printed at all.
    pub fn silent(self) {
        assert_eq!(self.text(), "");
    }

    /// The one line on standard error.
    pub fn line(&self) -> &str {
        let line = self.err.strip_suffix('\n').unwrap_or("no whole line");
        let whole = line.starts_with("bowlinette") && !line.contains('\n');
        assert!(whole, "not one line of the program: {self:?}");
        line
    }

    /// Failed with a status and exactly this line, and nothing on standard output.
    fn failed(&self, status: i32, line: &str) {
        let told = (self.status, self.line(), &self.out[..]);
        assert_eq!(told, (Some(status), line, &b""[..]));
    }

    /// Refused, with the header's sentence.
    pub fn refused(&self, command: &str, what: &str, number: u32) {
        let sentence = header::sentence(number);
        let line = format!("bowlinette {command}: {what}: refused {number}: {sentence}");
        self.failed(2, &line);
    }

    /// Refused for a record of an ink file.
    pub fn refused_at(&self, command: &str, what: &str, number: u32, offset: usize) {
        let sentence = header::sentence(number);
        let place = format!("refused {number}, record at offset {offset}");
        let line = format!("bowlinette {command}: {what}: {place}: {sentence}");
        self.failed(2, &line);
    }

    /// The system said no, or something is there already.
    pub fn hindered(&self, command: &str, what: &str, error: &str) {
        self.failed(3, &format!("bowlinette {command}: {what}: {error}"));
    }

    /// The system said no; the line has these words in it.
    pub fn hindered_by(&self, words: &[&str]) {
        let line = self.line();
        let named = words.iter().all(|word| line.contains(word));
        assert!(self.status == Some(3) && named, "{words:?}: {self:?}");
    }

    /// Wrong usage of a command, or of none.
    pub fn misused(&self, command: Option<&str>) {
        let (begin, end) = match command {
            Some(name) => (
                format!("bowlinette {name}: "),
                format!(" (bowlinette {name} --help)"),
            ),
            None => ("bowlinette: ".into(), " (bowlinette --help)".into()),
        };
        let line = self.line();
        let framed = line.starts_with(&begin) && line.ends_with(&end);
        let says = framed && line.len() > begin.len() + end.len();
        assert!(says, "not of the usage of {command:?}: {self:?}");
        assert_eq!((self.status, &self.out[..]), (Some(64), &b""[..]), "{line}");
    }
}
