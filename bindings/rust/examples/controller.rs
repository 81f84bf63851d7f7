//! A host on a serial line at 9600 baud, over a journal in a file: bindings/c/controller.c says its words, its input and its
//! statuses.
//!
//!     controller SETUP PORT JOURNAL [echo]
#![forbid(unsafe_code)]

use litchihull::{Ask, Host, Refused, MOST_ASKED, MOST_HEARD};
use std::error::Error;
use std::fs::{self, File, OpenOptions};
use std::io::{self, Read, Write};
use std::os::unix::fs::{FileExt, OpenOptionsExt};
use std::process::{Command, ExitCode};

/// Of Linux: a port that is opened doesn't become the program's terminal.
const O_NOCTTY: i32 = 0o400;

/// A job that asks more often than this is left for the next line.
const MOST_STEPS: usize = 4096;

type Done = Result<(), Box<dyn Error>>;

struct Machine {
    host: Host,
    port: File,
    journal: File,
    echoes: bool,
}

/// The port as a raw line at 9600 baud, 8 bits, no parity, whose read gives up after a fifth of a second.
fn open_port(path: &str) -> io::Result<File> {
    let port = OpenOptions::new().read(true).write(true).custom_flags(O_NOCTTY).open(path)?;
    let words = ["-F", path, "9600", "raw", "-echo", "clocal", "cread", "min", "0", "time", "2"];
    if !Command::new("stty").args(words).status()?.success() {
        return Err(io::Error::other("stty can't set the port"));
    }
    Ok(port)
}

impl Machine {
    /// Opens all, and starts the host over what the journal has.
    fn begin(setup: &str, port: &str, journal: &str, echoes: bool) -> Result<Machine, Box<dyn Error>> {
        let host = Host::new(&fs::read(setup)?, &fs::read(journal)?)?;
        let journal = OpenOptions::new().read(true).write(true).open(journal)?;
        Ok(Machine { host, port: open_port(port)?, journal, echoes })
    }

    /// Sends a message, once, and hears what comes up to a silence: the echo, and then a reply. What came before is dropped.
    fn exchange(&mut self, sent: &[u8]) -> Done {
        let mut heard = [0; MOST_HEARD];
        while self.port.read(&mut heard)? > 0 {}
        self.port.write_all(sent)?;
        let mut got = if self.echoes { 0 } else { sent.len() };
        heard[..got].copy_from_slice(&sent[..got]);
        loop {
            match self.port.read(&mut heard[got..])? {
                0 => break,
                count => got += count,
            }
        }
        Ok(self.host.heard(&heard[..got])?)
    }

    /// What became of a call on the journal. What isn't sure to be kept is lost.
    fn keep(&mut self, kept: io::Result<()>) -> Done {
        match kept {
            Ok(()) => Ok(self.host.done()?),
            Err(why) => {
                self.host.lost();
                Err(why.into())
            }
        }
    }

    /// Does what the host asks for, at an address, until nothing is left to do there. At address 1 nothing is sent: there
    /// records of sales are put.
    fn serve(&mut self, address: u8) -> Done {
        let mut out = [0; MOST_ASKED];
        for _ in 0..MOST_STEPS {
            match self.host.ask(address, &mut out) {
                Ask::Idle => break,
                Ask::Write { at, bytes } => {
                    let kept = self.journal.write_all_at(bytes, at);
                    self.keep(kept)?;
                }
                Ask::Sync => {
                    let kept = self.journal.sync_data();
                    self.keep(kept)?;
                }
                Ask::Take(line) => {
                    io::stdout().write_all(line)?;
                    io::stdout().flush()?;
                    self.host.taken()?;
                }
                Ask::Send(message) => self.exchange(message)?,
                Ask::Hear | Ask::Ended => return Err("the host is over".into()),
            }
        }
        Ok(())
    }

    /// Does what a line of input says.
    fn take_line(&mut self, line: &str) -> Done {
        if let Some(address) = line.strip_prefix("do ") {
            return self.serve(address.parse()?);
        }
        if line == "balance" {
            let has = self.host.totals();
            println!("balance {} {} {} {}", has.available, has.reserved, has.paid, has.sold);
            return Ok(());
        }
        match self.host.command(line.as_bytes()) {
            Err(Refused::BAD_COMMAND) => {
                eprintln!("refused: {line}");
                Ok(())
            }
            taken => {
                taken?;
                self.serve(1)
            }
        }
    }

    /// Does what all lines say.
    fn work(&mut self) -> Done {
        self.serve(1)?;
        for line in io::stdin().lines() {
            self.take_line(&line?)?;
        }
        Ok(())
    }
}

fn main() -> ExitCode {
    let words: Vec<String> = std::env::args().skip(1).collect();
    let begun = match &words[..] {
        [setup, port, journal] => Machine::begin(setup, port, journal, false),
        [setup, port, journal, echo] if echo == "echo" => Machine::begin(setup, port, journal, true),
        _ => Err("controller SETUP PORT JOURNAL [echo]".into()),
    };
    let mut machine = match begun {
        Ok(machine) => machine,
        Err(why) => {
            eprintln!("no host: {why}");
            return ExitCode::from(2);
        }
    };
    match machine.work() {
        Ok(()) => ExitCode::SUCCESS,
        Err(why) => {
            eprintln!("{why}");
            ExitCode::FAILURE
        }
    }
}
