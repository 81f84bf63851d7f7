//! What is wanted is written here by docs/PROTOCOL.md and the published check value of the CRC.

use litchihull::{crc16, read, reply, request, simple_sum, write, Check, Core, Event, Form, Framer, Message, Refused, Settings};

fn text(word: &str) -> [u8; 24] {
    let mut text = [0; 24];
    text[..word.len()].copy_from_slice(word.as_bytes());
    text
}

fn settings(family: u8) -> Settings {
    Settings {
        family, check: 0, address: 2, serial: 1, count: 0,
        maker: text("ACME"), product: text("DEMO"), software: text("1.04"), build: text("JUNE"), ids: [*b"EU100A"; 16],
    }
}

fn hear(core: &mut Core, bytes: &[u8]) -> Vec<u8> {
    let mut out = [0; 260];
    bytes.iter().for_each(|byte| core.byte(*byte));
    core.gap(&mut out).unwrap_or(&[]).to_vec()
}

#[test]
fn checks_and_messages() {
    assert_eq!(crc16(b"123456789"), 0x31c3);
    assert_eq!(simple_sum(b"\x02\x00\x01\xe5\x18"), 0);
    let mut out = [0; 260];
    let asked = request(Check::Simple, 2, 231, b"\x10\x00", &mut out).unwrap();
    assert_eq!(asked, b"\x02\x02\x01\xe7\x10\x00\x04");
    let message = Message { to: 2, from: Some(1), header: 231, data: b"\x10\x00" };
    assert_eq!(read(Check::Simple, asked), Ok(message));
    assert_eq!(write(Check::Simple, &message, &mut [0; 260]), Ok(b"\x02\x02\x01\xe7\x10\x00\x04".as_slice()));
    assert_eq!(request(Check::Simple, 2, 231, b"\x10", &mut [0; 260]), Err(Refused(5)));
    assert_eq!(request(Check::Simple, 2, 254, b"", &mut [0; 4]), Err(Refused(4)));
}

#[test]
fn a_framer_tells_a_message() {
    let mut framer = Framer::new(Check::Simple);
    let whole: Vec<bool> = b"\x02\x00\x01\xfe\xff".iter().map(|byte| framer.feed(*byte)).collect();
    assert_eq!(whole, [false, false, false, false, true]);
    assert_eq!(framer.bytes(), b"\x02\x00\x01\xfe\xff");
    framer.gap();
    assert!(framer.bytes().is_empty());
}

#[test]
fn a_coin_is_taken_and_told() {
    let mut core = Core::new(&settings(0)).unwrap();
    assert_eq!(core.put(5), Err(Refused(25)));
    assert_eq!(hear(&mut core, b"\x02\x02\x01\xe7\x10\x00\x04"), b"\x01\x00\x02\x00\xfd");
    assert_eq!(core.put(5), Ok(1));
    let asked = b"\x02\x00\x01\xe5\x18";
    let heard = [asked.as_slice(), &hear(&mut core, asked)].concat();
    let told = reply(Check::Simple, 2, Form::Credits, asked, &heard).unwrap();
    assert_eq!((told.counter, told.events[0], told.events[1]), (2, Event { a: 5, b: 1 }, Event { a: 0, b: 2 }));
    assert_eq!(core.fall(), Err(Refused(24)));
    assert_eq!(core.put(17), Err(Refused(23)));
}

#[test]
fn wrong_settings_make_no_core() {
    assert_eq!(Core::new(&Settings { address: 1, ..settings(0) }).err(), Some(Refused(17)));
    assert_eq!(Core::new(&Settings { serial: 1 << 24, ..settings(1) }).err(), Some(Refused(18)));
    assert_eq!(Core::new(&Settings { ids: [*b"EU 00A"; 16], ..settings(2) }).err(), Some(Refused(21)));
}
