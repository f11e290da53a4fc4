//! Values that were worked out by hand.

use peer::devices::{Console, Disk};
use peer::machine::{Station, Stop};
use peer::text::{assemble, list, Cause, Fault};

#[test]
fn a_hello_prints_and_halts() {
    let words = assemble(b"MOVI\ta0\t65\t0\nOUT\ta0\nHALT\n", 12).unwrap();
    assert_eq!(words, [0x80, 0x60, 0x08, 0x20, 0xc8, 0x60, 0, 0, 0xf8, 0, 0, 0]);
    let mut bytes = words.clone();
    bytes.resize(512, 0);
    let (mut disk, mut console) = (Disk::overlay(&bytes), Console::script(b"", 10));
    let (mut station, mut memory) = (Station::default(), vec![0; 512]);
    station.start(&mut memory, &disk, &console).unwrap();
    assert_eq!(station.run(&mut memory, &mut disk, &mut console, 9), Ok((3, Stop::Halt)));
    assert_eq!(console.collect(9), b"A");
    assert_eq!(station.tally(&memory, &disk, b"R\t3\t65\t5\nE\tHALT\t2\nM\t512\t0\t9\n"), Ok(7));
}

#[test]
fn exact_encodings_are_listed_by_operation() {
    assert_eq!(list(&[0x40, 0x21, 0x88, 0x00], 19).unwrap(), b"ADD\tv0\ta0\ta1\n");
    assert_eq!(list(&[0x40, 0x21, 0x88, 0x01], 19).unwrap(), b"WORD\t1075939329\n");
}

#[test]
fn the_first_wrong_field_is_told() {
    let fault = |text: &[u8]| assemble(text, 99).unwrap_err().fault;
    assert_eq!(fault(b"HALT\nMOVI\tr1\t65536\t32\n"), Some(Fault { line: 2, field: 3, cause: Cause::Size }));
    assert_eq!(fault(b"HALT\nHALT"), Some(Fault { line: 2, field: 0, cause: Cause::End }));
}
