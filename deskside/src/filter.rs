//! A Rattle program that runs beside: it is given events on its standard input, and says whole lines on its standard output.

use std::ffi::{OsStr, OsString};
use std::io::{self, BufRead, BufReader, Write};
use std::path::PathBuf;
use std::process::{Child, Command, ExitStatus, Stdio};

/// How a program is started: by a runner, where there is one, which is given the program's file as its first word.
#[derive(Clone, Debug, Default)]
pub struct Program {
    pub runner: Option<PathBuf>,
    pub file: PathBuf,
}

impl Program {
    pub fn command(&self) -> Command {
        match &self.runner {
            Some(runner) => {
                let mut command = Command::new(runner);
                command.arg(&self.file);
                command
            }
            None => Command::new(&self.file),
        }
    }

    /// What it writes where it is run on a file. Where it failed, a last line has how: what stands before it may be why, as of a bad recording, or only
    /// a part. Where it failed and wrote nothing, that is an error.
    pub fn of(&self, file: &OsStr) -> io::Result<String> {
        let output = self.command().arg(file).stdin(Stdio::null()).stderr(Stdio::inherit()).output()?;
        let text = String::from_utf8_lossy(&output.stdout).into_owned();
        match succeeded(output.status) {
            Err(why) if !text.is_empty() => Ok(format!("{}\n{why}\n", text.trim_end_matches('\n'))),
            ended => ended.map(|()| text),
        }
    }
}

fn succeeded(status: ExitStatus) -> io::Result<()> {
    match status.success() {
        true => Ok(()),
        false => Err(io::Error::other(format!("the program ended with {status}"))),
    }
}

/// A program that runs.
pub struct Filter {
    child: Option<Child>,
    to: Option<Box<dyn Write + Send>>,
    from: Box<dyn BufRead + Send>,
}

impl Filter {
    pub fn start(program: &Program, words: &[OsString]) -> io::Result<Filter> {
        let mut child = program.command().args(words).stdin(Stdio::piped()).stdout(Stdio::piped()).spawn()?;
        let (Some(to), Some(from)) = (child.stdin.take(), child.stdout.take()) else {
            return Err(io::Error::other("no pipes"));
        };
        Ok(Filter { child: Some(child), to: Some(Box::new(to)), from: Box::new(BufReader::new(from)) })
    }

    /// One that is no process, for tests.
    pub fn over(to: impl Write + Send + 'static, from: impl BufRead + Send + 'static) -> Filter {
        Filter { child: None, to: Some(Box::new(to)), from: Box::new(from) }
    }

    pub fn id(&self) -> u32 {
        self.child.as_ref().map_or(0, Child::id)
    }

    pub fn give(&mut self, event: &[u8]) -> io::Result<()> {
        let Some(to) = &mut self.to else { return Err(io::ErrorKind::BrokenPipe.into()) };
        to.write_all(event)?;
        to.flush()
    }

    /// The next whole line; none where the program has ended, also where it ended within a line.
    pub fn line(&mut self) -> io::Result<Option<String>> {
        let mut line = Vec::new();
        self.from.read_until(b'\n', &mut line)?;
        Ok((line.pop() == Some(b'\n')).then(|| String::from_utf8_lossy(&line).into_owned()))
    }

    /// Its input ends, and so does the program; an error where it failed.
    pub fn end(&mut self) -> io::Result<()> {
        self.to = None;
        match &mut self.child {
            Some(child) => child.wait().and_then(succeeded),
            None => Ok(()),
        }
    }
}

#[cfg(test)]
mod tests {
    use super::*;

    #[test]
    fn only_whole_lines() {
        let mut filter = Filter::over(io::sink(), &b"done\nsend disp"[..]);
        assert_eq!(filter.line().unwrap().as_deref(), Some("done"));
        assert_eq!(filter.line().unwrap(), None);
        assert_eq!(filter.line().unwrap(), None);
    }

    #[test]
    fn a_program_is_given_and_says() {
        let program = Program { runner: None, file: "cat".into() };
        let mut filter = Filter::start(&program, &[]).unwrap();
        filter.give(b"done\n").unwrap();
        assert_eq!(filter.line().unwrap().as_deref(), Some("done"));
        filter.end().unwrap();
    }

    /// What `sh -c` is given stands in the place of a file.
    fn shell() -> Program {
        Program { runner: Some("sh".into()), file: "-c".into() }
    }

    #[test]
    fn a_program_that_fails_is_not_an_empty_text() {
        let of = |script: &str| shell().of(script.as_ref()).map_err(|why| why.to_string());
        assert_eq!(of("echo records 3"), Ok("records 3\n".into()));
        assert_eq!(of("true"), Ok("".into()));
        assert_eq!(of("exit 2"), Err("the program ended with exit status: 2".into()));
        assert_eq!(of("echo bad 23 at 0; exit 1"), Ok("bad 23 at 0\nthe program ended with exit status: 1\n".into()));
        assert_eq!(
            of("printf 'upper ask'; kill -9 $$"),
            Ok("upper ask\nthe program ended with signal: 9 (SIGKILL)\n".into())
        );
    }

    #[test]
    fn how_a_program_ended() {
        for (script, wanted) in [
            ("cat", None),
            ("exit 3", Some("the program ended with exit status: 3")),
            ("kill -9 $$", Some("the program ended with signal: 9 (SIGKILL)")),
        ] {
            let ended = Filter::start(&shell(), &[script.into()]).unwrap().end();
            assert_eq!(ended.err().map(|why| why.to_string()).as_deref(), wanted, "{script}");
        }
    }
}
