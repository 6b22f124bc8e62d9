//! The example `cut_row`: what it prints, and that no row makes it panic.

#[allow(dead_code)]
#[path = "../examples/cut_row.rs"]
mod example;

use example::{cut_row, luggage_row, RowError};
use jigshard::{describe, widest_row, Refusal};

fn stored(name: &str) -> Vec<u8> {
    let folder = concat!(env!("CARGO_MANIFEST_DIR"), "/../../tests/replies/");
    std::fs::read(format!("{folder}{name}")).expect("a stored reply")
}

/// Every beginning of a row that can be cut is told to end early.
fn beginnings_end_early(reply: &[u8], row: &[u8]) {
    for length in 0..row.len() {
        let error = cut_row(reply, &row[..length]).unwrap_err();
        assert!(
            matches!(error, RowError::EndsEarly { .. }),
            "{length}: {error}"
        );
    }
}

fn lines(values: &[(String, String)]) -> String {
    values
        .iter()
        .map(|(name, value)| format!("{name}: {value}\n"))
        .collect()
}

#[test]
fn row_in_words() {
    let values = cut_row(&stored("luggage.bin"), &luggage_row()).unwrap();
    let expected = "\
TAG: BAG0004711
PASSENGER: Ada Lovelace
FLIGHT: LH 400
PIECES: 2
WEIGHT: 23.5
FEE: -45.99
DESK: 117
CHECKED_IN: 2026-03-21-09.15.00.000000
";
    assert_eq!(lines(&values), expected);
}

#[test]
fn row_in_page_037() {
    let mut row = vec![0xC1, 0xF1, 0x40, 0x40, 0x40, 0x40, 0x40, 0x40, 0x40, 0x40];
    row.extend([0, 3, 0xC4, 0x96, 0xC0]);
    row.extend([0x12, 0x34, 0x5D]);
    row.push(0xFF);
    row.extend([0xC5, 0xD5, 0xC4, 0x40]);
    let values = cut_row(&stored("luggage-ebcdic.bin"), &row).unwrap();
    let expected = "TAG: A1\nPASSENGER: Do{\nWEIGHT: -1234.5\nSIZE: missing\nCOL5: END\n";
    assert_eq!(lines(&values), expected);
}

/// A row of luggage-graphic.bin: PASSENGER is `passenger` as it stands in the row, ROOM is 4 characters.
fn graphic_row(passenger: &[u8], room: &str) -> Vec<u8> {
    let mut row = b"BAG0004711".to_vec();
    row.extend(passenger);
    row.extend(room.encode_utf16().flat_map(u16::to_be_bytes));
    row.extend([0, 2]);
    row
}

#[test]
fn row_of_double_byte_characters() {
    let reply = stored("luggage-graphic.bin");
    let name = [&[0x00, 0, 2], &[0x5C, 0x71, 0x75, 0x30][..]].concat();
    let values = cut_row(&reply, &graphic_row(&name, "12Ä ")).unwrap();
    assert_eq!(
        lines(&values),
        "TAG: BAG0004711\nPASSENGER: 山田\nROOM: 12Ä\nPIECES: 2\n"
    );
    let missing = cut_row(&reply, &graphic_row(&[0xFF], "12Ä ")).unwrap();
    assert_eq!(missing[1].1, "missing");

    // The longest name fills the widest row; one character more is no value of the column.
    let longest = [&[0x00, 0, 20], &[0x98; 40][..]].concat();
    let row = graphic_row(&longest, "12Ä ");
    assert_eq!(row.len(), 10 + (1 + 2 + 2 * 20) + 2 * 4 + 2);
    assert_eq!(widest_row(&describe(&reply).unwrap().1), Ok(row.len()));
    assert_eq!(cut_row(&reply, &row).unwrap()[3].1, "2");
    let longer = [&[0x00, 0, 21], &[0x98; 42][..]].concat();
    assert!(matches!(
        cut_row(&reply, &graphic_row(&longer, "12Ä ")),
        Err(RowError::NoValue { name, .. }) if name == "PASSENGER"
    ));
    beginnings_end_early(&reply, &row);
    assert_eq!(
        cut_row(&reply, &row[..55]).unwrap_err().to_string(),
        "the row ends early: ROOM needs 8 bytes, 2 are left"
    );
}

#[test]
fn rows_of_other_lengths() {
    let reply = stored("luggage.bin");
    let row = luggage_row();
    assert!(row.len() <= widest_row(&describe(&reply).unwrap().1).unwrap());
    beginnings_end_early(&reply, &row);
    assert_eq!(
        cut_row(&reply, &row[..40]).unwrap_err().to_string(),
        "the row ends early: FEE needs 5 bytes, 4 are left"
    );
    let longer = [&row[..], &[0; 3]].concat();
    assert_eq!(cut_row(&reply, &longer), Err(RowError::BytesLeft(3)));
    assert_eq!(
        cut_row(&[], &row),
        Err(RowError::Refused(Refusal::EmptyReply))
    );
}

#[test]
fn bytes_that_are_no_value() {
    let reply = stored("luggage.bin");
    // PASSENGER's length, WEIGHT's last half byte, FEE's first byte.
    for (place, byte, name) in [(11, 61, "PASSENGER"), (34, 0x51, "WEIGHT"), (35, 1, "FEE")] {
        let mut row = luggage_row();
        row[place] = byte;
        match cut_row(&reply, &row) {
            Err(RowError::NoValue { name: found, .. }) => assert_eq!(found, name),
            other => panic!("{name}: {other:?}"),
        }
    }
}

#[test]
fn any_row_is_cut_or_refused() {
    let name = [&[0x00, 0, 20], &[0xD8; 40][..]].concat();
    for (reply, row, count) in [
        ("luggage.bin", luggage_row(), 8),
        ("luggage-graphic.bin", graphic_row(&name, "12Ä "), 4),
    ] {
        let reply = stored(reply);
        for place in 0..row.len() {
            for byte in 0..=255 {
                let mut other = row.clone();
                other[place] = byte;
                if let Ok(values) = cut_row(&reply, &other) {
                    assert_eq!(values.len(), count);
                }
            }
        }
    }
}
