//! The host, step by step: it calls nothing, and says what it wants.

use crate::owned::Owned;
use crate::raw::{self, RawAsk, Totals};
use crate::Refused;
use std::cell::Cell;
use std::fmt;

/// Room for all that a host asks for at once.
pub const MOST_ASKED: usize = 3000;

/// The most bytes that are heard after a message: its echo, and a reply.
pub const MOST_HEARD: usize = 520;

/// What a host asks for. docs/EMBED.md says by which call each is answered.
#[derive(Clone, Copy, Debug, PartialEq, Eq)]
pub enum Ask<'a> {
    /// Nothing at this address.
    Idle,
    /// Send this message, once, and say by `heard` what came.
    Send(&'a [u8]),
    /// A message was sent: say by `heard` what came.
    Hear,
    /// Write these bytes to the part from `at` on; then `done` or `lost`.
    Write { at: u64, bytes: &'a [u8] },
    /// Make sure that the part keeps all that was written; then `done` or `lost`.
    Sync,
    /// Take this line, which ends with a line feed; then `taken`.
    Take(&'a [u8]),
    /// Nothing any more: make another host over what the part has now.
    Ended,
}

/// Why there is no host, with the number of the refused line of the setup, from 1, or the index of the bad record, from 0.
#[derive(Clone, Copy, Debug, PartialEq, Eq)]
pub struct NoHost {
    pub why: Refused,
    pub at: u32,
}

impl fmt::Display for NoHost {
    fn fmt(&self, f: &mut fmt::Formatter<'_>) -> fmt::Result {
        write!(f, "{}, at {}", self.why, self.at)
    }
}

impl std::error::Error for NoHost {}

/// A host with a journal on the caller's storage. It stays on its thread.
pub struct Host(Owned);

impl Host {
    /// A host of the machine that setup lines say, over what its part holds now. It copies both.
    pub fn new(setup: &[u8], part: &[u8]) -> Result<Host, NoHost> {
        let at = Cell::new(0);
        let owned = Owned::new(
            |out| unsafe { raw::lh_raw_machine_new(setup.as_ptr(), setup.len(), at.as_ptr(), out) },
            |machine, out| unsafe { raw::lh_raw_host_new(machine, part.as_ptr(), part.len(), at.as_ptr(), out) },
        );
        owned.map(Host).map_err(|why| NoHost { why, at: at.get() })
    }

    /// What is to be done next; at an address, if nothing else is due. Its bytes are written to the front of `out`.
    pub fn ask<'o>(&mut self, address: u8, out: &'o mut [u8; MOST_ASKED]) -> Ask<'o> {
        let mut ask = RawAsk::default();
        let (to, room) = (out.as_mut_ptr(), out.len());
        self.0
            .call(|host, back| unsafe { raw::lh_raw_host_ask(host, address, &mut ask, to, room, back) })
            .expect("there is room for all that is asked");
        let bytes = &out[..ask.count];
        match ask.what {
            0 => Ask::Idle,
            1 => Ask::Send(bytes),
            2 => Ask::Hear,
            3 => Ask::Write { at: ask.at, bytes },
            4 => Ask::Sync,
            5 => Ask::Take(bytes),
            _ => Ask::Ended,
        }
    }

    /// The write or the sync was made.
    pub fn done(&mut self) -> Result<(), Refused> {
        self.0.call(|host, back| unsafe { raw::lh_raw_host_done(host, back) })
    }

    /// The write or the sync failed, or it isn't known whether it was made: the host is over.
    pub fn lost(&mut self) {
        let _ = self.0.call(|host, back| unsafe { raw::lh_raw_host_lost(host, back) });
    }

    /// The line was taken.
    pub fn taken(&mut self) -> Result<(), Refused> {
        self.0.call(|host, back| unsafe { raw::lh_raw_host_taken(host, back) })
    }

    /// After the message that was sent these bytes came, its echo first.
    pub fn heard(&mut self, bytes: &[u8]) -> Result<(), Refused> {
        self.0.call(|host, back| unsafe { raw::lh_raw_host_heard(host, bytes.as_ptr(), bytes.len(), back) })
    }

    /// The operator gives a command, a line without its line feed.
    pub fn command(&mut self, line: &[u8]) -> Result<(), Refused> {
        self.0.call(|host, back| unsafe { raw::lh_raw_host_command(host, line.as_ptr(), line.len(), back) })
    }

    /// What the operator has.
    pub fn totals(&mut self) -> Totals {
        let mut totals = Totals::default();
        let _ = self.0.call(|host, back| unsafe { raw::lh_raw_host_totals(host, &mut totals, back) });
        totals
    }
}
