//! A host over a part in memory, and an acceptor core at its line. What is wanted is written here by docs/SCRIPT.md and
//! docs/JOURNAL.md.

use litchihull::{Ask, Core, Host, NoHost, Refused, Settings, MOST_ASKED};

const SETUP: &[u8] = b"acceptor 2 simple 197 0\nvalue 2 5 100 EU100A\n";
const NOT_NOW: Refused = Refused(32);

fn text(word: &str) -> [u8; 24] {
    let mut text = [0; 24];
    text[..word.len()].copy_from_slice(word.as_bytes());
    text
}

fn acceptor() -> Core {
    let settings = Settings {
        family: 0, check: 0, address: 2, serial: 197, count: 0,
        maker: text("ACME"), product: text("DEMO"), software: text("1.04"), build: text("JUNE"), ids: [*b"EU100A"; 16],
    };
    Core::new(&settings).unwrap()
}

/// Does what the host asks for at address 2, until it is idle there, and gives the lines that it took.
fn serve(host: &mut Host, part: &mut [u8], acceptor: &mut Core) -> String {
    let (mut out, mut said, mut lines) = ([0; MOST_ASKED], [0; 260], String::new());
    loop {
        match host.ask(2, &mut out) {
            Ask::Idle => return lines,
            Ask::Write { at, bytes } => {
                part[at as usize..at as usize + bytes.len()].copy_from_slice(bytes);
                host.done().unwrap();
            }
            Ask::Sync => host.done().unwrap(),
            Ask::Take(line) => {
                lines += std::str::from_utf8(line).unwrap();
                host.taken().unwrap();
            }
            Ask::Send(message) => {
                message.iter().for_each(|byte| acceptor.byte(*byte));
                let heard = [message, acceptor.gap(&mut said).unwrap_or(&[])].concat();
                host.heard(&heard).unwrap();
            }
            other => panic!("{other:?}"),
        }
    }
}

#[test]
fn a_coin_is_posted_and_stays() {
    let (mut part, mut acceptor) = (vec![0; 4096], acceptor());
    let mut host = Host::new(SETUP, &part).unwrap();
    assert_eq!(host.command(b"start 2 0010"), Err(NOT_NOW));
    serve(&mut host, &mut part, &mut acceptor);
    host.command(b"start 2 0010").unwrap();
    assert!(serve(&mut host, &mut part, &mut acceptor).contains("\nstarted 2\n"));
    assert_eq!(acceptor.put(5), Ok(1));
    host.command(b"round 2").unwrap();
    assert!(serve(&mut host, &mut part, &mut acceptor).contains("\nposted 2\n"));
    assert_eq!(host.command(b"no command"), Err(Refused(31)));
    assert_eq!(host.totals().available, 100);
    drop(host);
    assert_eq!(Host::new(SETUP, &part).unwrap().totals().available, 100);
}

#[test]
fn what_is_not_due_is_refused() {
    let mut host = Host::new(SETUP, &[0; 2368]).unwrap();
    assert_eq!((host.taken(), host.heard(b"")), (Err(NOT_NOW), Err(NOT_NOW)));
    let mut out = [0; MOST_ASKED];
    assert!(matches!(host.ask(2, &mut out), Ask::Write { .. }));
    host.lost();
    assert_eq!(host.ask(2, &mut out), Ask::Ended);
    assert_eq!(host.done(), Err(NOT_NOW));
}

#[test]
fn no_host_without_a_setup_and_a_part() {
    let no = |setup, part| Host::new(setup, part).err();
    assert_eq!(no(b"acceptor 2 simple 197 0\nvalue 2 17 100 EU100A\n", &[0; 2368]), Some(NoHost { why: Refused(27), at: 2 }));
    assert_eq!(no(SETUP, &[0; 2367]), Some(NoHost { why: Refused(28), at: 0 }));
    assert_eq!(no(SETUP, &[1; 2368]), Some(NoHost { why: Refused(29), at: 0 }));
}
