//! obriska-talk: talk to the proved rights broker, line by line.

mod answer;
mod arguments;
mod completion;
mod condition;
mod hex;
mod line;
mod reports;
mod request;
mod session;
mod sids;
mod state;
mod token;
mod vocabulary;
mod words;

use std::fs;
use std::io::{self, BufRead, IsTerminal, Write};
use std::process::ExitCode;

use session::{Next, Session};
use words::Mistake;

const USAGE: &str = "\
usage: obriska-talk [--hex] [SCRIPT]

Sends each line of SCRIPT, or of standard input, to a broker at its start and prints the answers.
  --hex      shows the bytes both ways
  --words    the names that lines may have, one a line, for completion
  --help     this text and the requests
  --version  the program's version and the library's

Ends with 0; with 1 if a line was bad (it is named, and nothing is sent), an answer was not as
expected, or a file could not be saved or loaded; with 2 if the words on the command line were bad,
or the script could not be read.
";

/// What the command line asks for.
struct Options {
    shows_bytes: bool,
    script: Option<String>,
}

fn main() -> ExitCode {
    let mut options = Options { shows_bytes: false, script: None };
    for word in std::env::args().skip(1) {
        match word.as_str() {
            "--hex" => options.shows_bytes = true,
            "--help" | "-h" => {
                print!("{USAGE}\n{}", include_str!("help.txt"));
                return ExitCode::SUCCESS;
            }
            "--words" => {
                completion::words().for_each(|word| println!("{word}"));
                return ExitCode::SUCCESS;
            }
            "--version" => {
                let [major, minor, patch] = obriska::library_version();
                println!(
                    "obriska-talk {}, library {major}.{minor}.{patch}, layout {}",
                    env!("CARGO_PKG_VERSION"),
                    obriska::library_layout()
                );
                return ExitCode::SUCCESS;
            }
            _ if !word.starts_with('-') && options.script.is_none() => options.script = Some(word),
            _ => {
                eprint!("obriska-talk: '{word}' was not expected\n\n{USAGE}");
                return ExitCode::from(2);
            }
        }
    }
    match play(&options) {
        Ok(true) => ExitCode::SUCCESS,
        Ok(false) => ExitCode::FAILURE,
        Err(error) if error.kind() == io::ErrorKind::BrokenPipe => ExitCode::SUCCESS,
        Err(error) => {
            let name = options.script.as_deref().unwrap_or("standard input");
            eprintln!("obriska-talk: {name}: {error}");
            ExitCode::from(2)
        }
    }
}

/// Plays the script, or standard input; false if a line was wrong.
fn play(options: &Options) -> io::Result<bool> {
    let mut talk = Talk {
        session: Session::new(options.shows_bytes),
        name: options.script.as_deref().unwrap_or("-"),
        echoes: true,
        wrong_lines: 0,
    };
    if let Some(path) = &options.script {
        let script = fs::read_to_string(path)?;
        talk.play(script.lines().map(|line| Ok(line.to_string())))?;
    } else if io::stdin().is_terminal() {
        talk.echoes = false;
        talk.play(prompted())?;
        return Ok(true);
    } else {
        talk.play(io::stdin().lock().lines())?;
    }
    Ok(talk.wrong_lines == 0)
}

/// The lines typed at a prompt; where they end without 'quit', the prompt's own line ends too.
fn prompted() -> impl Iterator<Item = io::Result<String>> {
    println!("Eight stations at their start. 'help' lists the requests, 'quit' ends.");
    let mut lines = io::stdin().lines();
    std::iter::from_fn(move || {
        print!("obriska> ");
        io::stdout().flush().ok()?;
        let line = lines.next();
        if line.is_none() {
            println!();
        }
        line
    })
}

/// A session and where its lines come from.
struct Talk<'a> {
    session: Session,
    name: &'a str,
    echoes: bool,
    wrong_lines: usize,
}

impl Talk<'_> {
    fn play(&mut self, lines: impl Iterator<Item = io::Result<String>>) -> io::Result<()> {
        for (index, line) in lines.enumerate() {
            if !self.take(index + 1, line?.trim_end())? {
                break;
            }
        }
        Ok(())
    }

    /// Takes a line; true if the session goes on.
    fn take(&mut self, number: usize, line: &str) -> io::Result<bool> {
        let mut out = io::stdout().lock();
        let parsed = line::parse(line, self.session.reports(), &self.session.table());
        let command = parsed.as_ref().ok().and_then(Option::as_ref);
        if self.echoes {
            self.session.echo(line, command, &mut out)?;
        } else {
            self.session.echo_bytes(command, &mut out)?;
        }
        let next = match parsed {
            Ok(None) => Next::On,
            Ok(Some(command)) => self.session.run(&command, &mut out)?,
            Err(mistake) => {
                self.session.forget();
                Next::Wrong(mistake)
            }
        };
        out.flush()?;
        if let Next::Wrong(mistake) = &next {
            self.name_wrong(number, mistake);
        }
        Ok(!matches!(next, Next::End))
    }

    /// Says what is wrong with a line, and counts it.
    fn name_wrong(&mut self, number: usize, mistake: &Mistake) {
        self.wrong_lines += 1;
        eprintln!("{}:{number}:{}: {}", self.name, mistake.column, mistake.message);
    }
}
