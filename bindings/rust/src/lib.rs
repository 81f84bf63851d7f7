//! The proved parts of Litchihull for Rust: the host, checks, messages, a framer and device cores. litchihull.h says more of
//! each call.

mod host;
mod owned;
mod raw;

pub use host::{Ask, Host, NoHost, MOST_ASKED, MOST_HEARD};
pub use raw::{Event, Reply, Settings, Totals};

use owned::Owned;
use raw::{Frame, Framer as RawFramer};
use std::fmt;

/// The most bytes of a message.
pub const MOST: usize = 260;

/// Which check messages carry.
#[derive(Clone, Copy, Debug, PartialEq, Eq)]
pub enum Check {
    Simple = 0,
    Crc = 1,
}

/// The form in which a reply is wanted.
#[derive(Clone, Copy, Debug, PartialEq, Eq)]
pub enum Form {
    Ack = 0,
    Credits = 1,
    Mask = 2,
    Master = 3,
    Path = 4,
    CoinId = 5,
    Status = 6,
    Life = 7,
    Remaining = 8,
    Register = 9,
    Text = 10,
    Serial = 11,
    Revision = 12,
    Accepts = 13,
}

/// Why a call did nothing: a code of litchihull.h.
#[derive(Clone, Copy, Debug, PartialEq, Eq)]
pub struct Refused(pub u32);

impl Refused {
    /// The line is no command.
    pub const BAD_COMMAND: Refused = Refused(31);
    /// Something else is due first: `Host::ask` says what.
    pub const NOT_NOW: Refused = Refused(32);
}

impl fmt::Display for Refused {
    fn fmt(&self, f: &mut fmt::Formatter<'_>) -> fmt::Result {
        write!(f, "code {} of litchihull.h", self.0)
    }
}

impl std::error::Error for Refused {}

fn checked(code: u32) -> Result<(), Refused> {
    if code == 0 { Ok(()) } else { Err(Refused(code)) }
}

/// The sum of bytes modulo 256.
pub fn simple_sum(bytes: &[u8]) -> u8 {
    unsafe { raw::lh_raw_simple_sum(bytes.as_ptr(), bytes.len()) }
}

/// The CRC of bytes: CRC-16/XMODEM.
pub fn crc16(bytes: &[u8]) -> u16 {
    unsafe { raw::lh_raw_crc16(bytes.as_ptr(), bytes.len()) }
}

/// A message as it stands in the piece that carries it.
#[derive(Clone, Copy, Debug, PartialEq, Eq)]
pub struct Message<'a> {
    pub to: u8,
    /// `None` under the CRC.
    pub from: Option<u8>,
    pub header: u8,
    pub data: &'a [u8],
}

/// Writes a message to the front of `out`, and gives its bytes there.
pub fn write<'o>(check: Check, message: &Message<'_>, out: &'o mut [u8]) -> Result<&'o [u8], Refused> {
    let (data, from, mut written) = (message.data, message.from.unwrap_or(1), 0);
    checked(unsafe {
        raw::lh_raw_frame_write(check as u8, message.to, from, message.header, data.as_ptr(), data.len(),
            out.as_mut_ptr(), out.len(), &mut written)
    })?;
    Ok(&out[..written])
}

/// Reads the one message that a whole piece is.
pub fn read(check: Check, piece: &[u8]) -> Result<Message<'_>, Refused> {
    let mut frame = Frame::default();
    checked(unsafe { raw::lh_raw_frame_read(check as u8, piece.as_ptr(), piece.len(), &mut frame) })?;
    Ok(Message {
        to: frame.to,
        from: (frame.named != 0).then_some(frame.from),
        header: frame.header,
        data: &piece[4..4 + usize::from(frame.count)],
    })
}

/// Writes the request with a header and data bytes to the front of `out`, and gives its bytes there.
pub fn request<'o>(check: Check, to: u8, header: u8, data: &[u8], out: &'o mut [u8]) -> Result<&'o [u8], Refused> {
    let mut written = 0;
    checked(unsafe {
        raw::lh_raw_request_write(check as u8, to, header, data.as_ptr(), data.len(),
            out.as_mut_ptr(), out.len(), &mut written)
    })?;
    Ok(&out[..written])
}

/// Reads the reply of a form after what was sent; on a line without an echo, pass no bytes as `sent`.
pub fn reply(check: Check, address: u8, form: Form, sent: &[u8], heard: &[u8]) -> Result<Reply, Refused> {
    let mut reply = Reply {
        number: 0, mask: 0, counter: 0, value: 0, remaining: 0, paid: 0, unpaid: 0, release: 0, major: 0, minor: 0,
        events: [Event::default(); 5], id: [0; 6], count: 0, text: [0; 255],
    };
    checked(unsafe {
        raw::lh_raw_reply_read(check as u8, address, form as u8, sent.as_ptr(), sent.len(),
            heard.as_ptr(), heard.len(), &mut reply)
    })?;
    Ok(reply)
}

impl Reply {
    /// The text of a reply in that form.
    pub fn text(&self) -> &[u8] {
        &self.text[..usize::from(self.count)]
    }
}

/// The bytes of a line since the last gap.
pub struct Framer(RawFramer);

impl Framer {
    pub fn new(check: Check) -> Framer {
        Framer(RawFramer { check: check as u8, count: 0, bytes: [0; MOST] })
    }

    /// One byte more: whether the bytes since the gap are a message now.
    pub fn feed(&mut self, byte: u8) -> bool {
        unsafe { raw::lh_raw_framer_feed(&mut self.0, byte) == 0 }
    }

    pub fn gap(&mut self) {
        let check = self.0.check;
        unsafe { raw::lh_raw_framer_gap(&mut self.0, check) };
    }

    /// The bytes since the gap, 260 at most.
    pub fn bytes(&self) -> &[u8] {
        &self.0.bytes[..usize::from(self.0.count)]
    }
}

/// A device core. It stays on its thread.
pub struct Core(Owned);

impl Core {
    /// A device as after power-up.
    pub fn new(settings: &Settings) -> Result<Core, Refused> {
        let owned = Owned::new(
            |out| unsafe { raw::lh_raw_settings_new(settings, out) },
            |kept, out| unsafe { raw::lh_raw_core_new(kept, out) },
        );
        owned.map(Core)
    }

    /// It hears one byte more.
    pub fn byte(&mut self, byte: u8) {
        let _ = self.0.call(|core, back| unsafe { raw::lh_raw_core_byte(core, byte, back) });
    }

    /// A gap: its answer, at the front of `out`, or none. `out` has room for 260 bytes.
    pub fn gap<'o>(&mut self, out: &'o mut [u8; MOST]) -> Option<&'o [u8]> {
        let mut written = 0;
        let (at, room) = (out.as_mut_ptr(), out.len());
        self.0.call(|core, back| unsafe { raw::lh_raw_core_gap(core, at, room, &mut written, back) }).ok()?;
        Some(&out[..written])
    }

    /// A coin or a bill is put in: the sorter path of a coin that is accepted, 0 of a bill that is held.
    pub fn put(&mut self, place: u8) -> Result<u8, Refused> {
        let mut path = 0;
        self.0.call(|core, back| unsafe { raw::lh_raw_core_put(core, place, &mut path, back) })?;
        Ok(path)
    }

    /// An object that is no coin is put in.
    pub fn alien(&mut self) -> Result<(), Refused> {
        self.0.call(|core, back| unsafe { raw::lh_raw_core_alien(core, back) })
    }

    /// A coin falls out of a hopper.
    pub fn fall(&mut self) -> Result<(), Refused> {
        self.0.call(|core, back| unsafe { raw::lh_raw_core_fall(core, back) })
    }

    /// A coin is stuck in a hopper.
    pub fn jam(&mut self) -> Result<(), Refused> {
        self.0.call(|core, back| unsafe { raw::lh_raw_core_jam(core, back) })
    }

    /// It starts again as after power-up.
    pub fn reset(&mut self) {
        let _ = self.0.call(|core, back| unsafe { raw::lh_raw_core_reset(core, back) });
    }
}
