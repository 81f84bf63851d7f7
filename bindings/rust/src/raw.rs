//! The calls of litchihull.h as they are, and the memory that cores and hosts ask for.

use std::ffi::c_void;

/// A message that was read.
#[repr(C)]
#[derive(Clone, Copy, Default)]
pub struct Frame {
    pub to: u8,
    pub named: u8,
    pub from: u8,
    pub header: u8,
    pub count: u8,
}

/// An event: what `a` and `b` say is in litchihull.h.
#[repr(C)]
#[derive(Clone, Copy, Debug, Default, PartialEq, Eq)]
pub struct Event {
    pub a: u8,
    pub b: u8,
}

/// A reply. Which fields belong to a form is in litchihull.h; the others are 0.
#[repr(C)]
#[derive(Clone, Copy, Debug)]
pub struct Reply {
    pub number: u32,
    pub mask: u16,
    pub counter: u8,
    pub value: u8,
    pub remaining: u8,
    pub paid: u8,
    pub unpaid: u8,
    pub release: u8,
    pub major: u8,
    pub minor: u8,
    pub events: [Event; 5],
    pub id: [u8; 6],
    pub(crate) count: u8,
    pub(crate) text: [u8; 255],
}

/// The bytes since the last gap.
#[repr(C)]
#[derive(Clone, Copy)]
pub struct Framer {
    pub(crate) check: u8,
    pub(crate) count: u16,
    pub(crate) bytes: [u8; 260],
}

/// What a device is; the ranges are in litchihull.h.
#[repr(C)]
#[derive(Clone, Copy)]
pub struct Settings {
    pub family: u8,
    pub check: u8,
    pub address: u8,
    pub serial: u32,
    pub count: u32,
    pub maker: [u8; 24],
    pub product: [u8; 24],
    pub software: [u8; 24],
    pub build: [u8; 24],
    pub ids: [[u8; 6]; 16],
}

/// What a host asks for.
#[repr(C)]
#[derive(Default)]
pub struct RawAsk {
    pub(crate) at: u64,
    pub(crate) count: usize,
    pub(crate) what: u8,
}

/// What the operator has, in units of value.
#[repr(C)]
#[derive(Clone, Copy, Debug, Default, PartialEq, Eq)]
pub struct Totals {
    pub available: u64,
    pub reserved: u64,
    pub paid: u64,
    pub sold: u64,
}

#[repr(C)]
pub struct Opaque {
    none: u8,
}

#[repr(C)]
#[derive(Clone, Copy)]
pub struct Handle {
    pub at: *mut Opaque,
}

extern "C" {
    pub fn lh_raw_simple_sum(bytes: *const u8, count: usize) -> u8;
    pub fn lh_raw_crc16(bytes: *const u8, count: usize) -> u16;
    #[rustfmt::skip]
    pub fn lh_raw_frame_write(check: u8, to: u8, from: u8, header: u8, data: *const u8, count: usize,
        out: *mut u8, room: usize, written: *mut usize) -> u32;
    pub fn lh_raw_frame_read(check: u8, piece: *const u8, count: usize, frame: *mut Frame) -> u32;
    #[rustfmt::skip]
    pub fn lh_raw_request_write(check: u8, to: u8, header: u8, data: *const u8, count: usize,
        out: *mut u8, room: usize, written: *mut usize) -> u32;
    #[rustfmt::skip]
    pub fn lh_raw_reply_read(check: u8, address: u8, form: u8, sent: *const u8, sent_count: usize,
        heard: *const u8, heard_count: usize, reply: *mut Reply) -> u32;
    pub fn lh_raw_framer_gap(framer: *mut Framer, check: u8) -> u32;
    pub fn lh_raw_framer_feed(framer: *mut Framer, byte: u8) -> u32;
    pub fn lh_raw_settings_new(settings: *const Settings, out: *mut *mut Opaque) -> u32;
    pub fn lh_raw_core_new(settings: Handle, out: *mut *mut Opaque) -> u32;
    pub fn lh_raw_core_byte(core: Handle, byte: u8, back: *mut *mut Opaque) -> u32;
    #[rustfmt::skip]
    pub fn lh_raw_core_gap(core: Handle, out: *mut u8, room: usize, written: *mut usize,
        back: *mut *mut Opaque) -> u32;
    #[rustfmt::skip]
    pub fn lh_raw_core_put(core: Handle, place: u8, path: *mut u8, back: *mut *mut Opaque) -> u32;
    pub fn lh_raw_core_alien(core: Handle, back: *mut *mut Opaque) -> u32;
    pub fn lh_raw_core_fall(core: Handle, back: *mut *mut Opaque) -> u32;
    pub fn lh_raw_core_jam(core: Handle, back: *mut *mut Opaque) -> u32;
    pub fn lh_raw_core_reset(core: Handle, back: *mut *mut Opaque) -> u32;
    pub fn lh_raw_machine_new(text: *const u8, count: usize, line: *mut u32, out: *mut *mut Opaque) -> u32;
    #[rustfmt::skip]
    pub fn lh_raw_host_new(machine: Handle, part: *const u8, count: usize, index: *mut u32,
        out: *mut *mut Opaque) -> u32;
    #[rustfmt::skip]
    pub fn lh_raw_host_ask(host: Handle, address: u8, ask: *mut RawAsk, out: *mut u8, room: usize,
        back: *mut *mut Opaque) -> u32;
    pub fn lh_raw_host_done(host: Handle, back: *mut *mut Opaque) -> u32;
    pub fn lh_raw_host_lost(host: Handle, back: *mut *mut Opaque) -> u32;
    pub fn lh_raw_host_taken(host: Handle, back: *mut *mut Opaque) -> u32;
    pub fn lh_raw_host_heard(host: Handle, bytes: *const u8, count: usize, back: *mut *mut Opaque) -> u32;
    pub fn lh_raw_host_command(host: Handle, line: *const u8, count: usize, back: *mut *mut Opaque) -> u32;
    pub fn lh_raw_host_totals(host: Handle, totals: *mut Totals, back: *mut *mut Opaque) -> u32;
    pub fn lh_raw_free(handle: Handle);

    fn malloc(size: usize) -> *mut c_void;
    fn free(at: *mut c_void);
}

/// What the library is told of memory that it asked for.
#[repr(C)]
pub struct Tried {
    ok: bool,
    at: *mut c_void,
}

static mut NOTHING: u8 = 0;

/// Memory for cores and hosts. malloc aligns to 16.
#[no_mangle]
pub extern "C" fn rattle_alloc(size: usize, align: usize) -> Tried {
    let at = unsafe { malloc(if size > 0 { size } else { align }) };
    if at.is_null() {
        return Tried { ok: false, at: std::ptr::addr_of_mut!(NOTHING).cast() };
    }
    Tried { ok: true, at }
}

/// Frees it.
///
/// # Safety
/// The library alone calls it, with what `rattle_alloc` gave it.
#[no_mangle]
pub unsafe extern "C" fn rattle_dealloc(at: *mut c_void) {
    free(at);
}
