//! What the entries refuse, what they leave untouched, and what the stored answers cannot ask.

use jigshard::{
    consume_sqlca_group, describe, message_text, name_part, name_text, parse_sqlcard_data,
    parse_sqldard, parse_sqldard_data, same_cut, scan_column_names, widest_row, Alphabet,
    ByteOrder, Column, Db2Type, Refusal, Text, MAX_COLUMNS, MAX_REPLY, SQLDARD,
};
use std::error::Error;

/// The specification's case A: DOOR, Char(4), CCSID 1208.
const DOOR: &[u8] = b"\xFF\xFF\x00\x01\
    \0\0\0\0\0\0\0\0\0\0\0\x04\x01\xC4\x04\xB8\
    \0\0\0\x00\x04DOOR\0\0\0\0\0\0\0\0\0\0\xFF\xFF";

fn stored(name: &str) -> Vec<u8> {
    let folder = concat!(env!("CARGO_MANIFEST_DIR"), "/../../tests/replies/");
    std::fs::read(format!("{folder}{name}")).expect("a stored reply")
}

/// A null SQLCA and SQLDHGRP, and `count` columns SmallInt without a name.
fn many_columns(count: u16) -> Vec<u8> {
    let mut reply = vec![0xFF, 0xFF];
    reply.extend(count.to_be_bytes());
    for _ in 0..count {
        reply.extend([0, 0, 0, 0, 0, 0, 0, 0, 0, 0, 0, 2]);
        reply.extend(500u16.to_be_bytes());
        reply.extend([0, 0, 0xFF]);
    }
    reply
}

/// A column that no reply has.
fn marked() -> Column {
    Column {
        number: 54321,
        db2_type: Db2Type::Xml,
        name: Text {
            place: 1 << 40,
            length: 3,
            alphabet: Alphabet(9),
        },
        ..Column::default()
    }
}

#[test]
fn door() {
    let mut columns = [marked(); 3];
    let description = parse_sqldard_data(DOOR, &mut columns).unwrap();
    assert_eq!(description.count, 1);
    assert!(description.card.is_null);
    assert_eq!(description.card.state(), "00000");
    assert_eq!(description.card.procedure(), "");
    assert_eq!(description.card.message_in(DOOR).unwrap(), "");
    let expected = Column {
        number: 0,
        db2_type: Db2Type::Char(4),
        drda_type: 0x30,
        length: 4,
        ccsid: 1208,
        name: Text {
            place: 25,
            length: 4,
            alphabet: Alphabet::ASCII,
        },
        ..Column::default()
    };
    assert_eq!(columns, [expected, marked(), marked()]);
    assert_eq!(name_part(DOOR, expected.name).unwrap(), b"DOOR");
    assert_eq!(
        parse_sqldard(SQLDARD, DOOR, &mut columns).unwrap(),
        description
    );
    assert_eq!(describe(DOOR).unwrap(), (description.card, vec![expected]));
}

#[test]
fn refused_descriptions_touch_nothing() {
    let mut columns = [marked(); 2];
    let too_long = vec![0; MAX_REPLY + 1];
    let refusals = [
        (&[][..], Refusal::EmptyReply),
        (
            &[0],
            Refusal::BufferTooShort {
                expected: 19,
                actual: 1,
            },
        ),
        (
            &[0xFF, 0],
            Refusal::BufferTooShort {
                expected: 14,
                actual: 2,
            },
        ),
        (&too_long, Refusal::ReplyTooLong),
        (&many_columns(3), Refusal::RoomTooShort { needed: 3 }),
    ];
    for (reply, refusal) in refusals {
        assert_eq!(parse_sqldard_data(reply, &mut columns), Err(refusal));
        assert_eq!(parse_sqldard(SQLDARD, reply, &mut columns), Err(refusal));
        assert_eq!(
            parse_sqldard(0x2408, reply, &mut columns),
            Err(Refusal::UnexpectedCodePoint(0x2408))
        );
        assert_eq!(columns, [marked(); 2]);
    }
    assert_eq!(
        parse_sqldard_data(DOOR, &mut []),
        Err(Refusal::RoomTooShort { needed: 1 })
    );
}

#[test]
fn lists_of_every_length() {
    for count in [1, 2, 63, 64, 65, 200, 512] {
        let reply = many_columns(count);
        let count = usize::from(count);
        let mut columns = vec![marked(); count + 2];
        assert_eq!(
            parse_sqldard_data(&reply, &mut columns[..count - 1]),
            Err(Refusal::RoomTooShort { needed: count })
        );
        assert_eq!(columns, vec![marked(); count + 2]);
        assert_eq!(
            parse_sqldard_data(&reply, &mut columns).unwrap().count,
            count
        );
        assert_eq!(columns[count..], [marked(); 2]);
        for (number, column) in columns[..count].iter().enumerate() {
            assert_eq!(usize::from(column.number), number);
            assert_eq!(column.db2_type, Db2Type::SmallInt);
            assert_eq!(
                column.name_in(&reply).unwrap(),
                format!("COL{}", number + 1)
            );
        }
        assert_eq!(describe(&reply).unwrap().1, columns[..count]);
        assert_eq!(widest_row(&columns[..count]).unwrap(), 2 * count);
        assert!(same_cut(&columns[..count], &describe(&reply).unwrap().1).unwrap());
        assert!(!same_cut(&columns[..count], &columns[..count - 1]).unwrap());
    }
}

#[test]
fn longest_replies() {
    let mut reply = vec![0xFF; MAX_REPLY];
    let mut columns = [marked(); 1];
    assert_ne!(
        parse_sqldard_data(&reply, &mut columns),
        Err(Refusal::ReplyTooLong)
    );
    assert!(parse_sqlcard_data(&reply).unwrap().is_null);
    assert_eq!(consume_sqlca_group(&reply).unwrap().length, 1);
    reply.push(0xFF);
    let mut buffer = [7; 4];
    assert_eq!(parse_sqlcard_data(&reply), Err(Refusal::ReplyTooLong));
    assert_eq!(consume_sqlca_group(&reply), Err(Refusal::ReplyTooLong));
    assert_eq!(
        scan_column_names(&reply, &mut []),
        Err(Refusal::ReplyTooLong)
    );
    assert_eq!(name_part(&reply, Text::EMPTY), Err(Refusal::ReplyTooLong));
    assert_eq!(
        name_text(&reply, &Column::default(), &mut buffer),
        Err(Refusal::ReplyTooLong)
    );
    assert_eq!(
        message_text(&reply, 0, 1, &mut buffer),
        Err(Refusal::ReplyTooLong)
    );
    assert_eq!(Text::EMPTY.decode(&reply), Err(Refusal::ReplyTooLong));
    assert_eq!(buffer, [7; 4]);
}

#[test]
fn statuses() {
    assert!(parse_sqlcard_data(&[]).unwrap().is_null);
    assert_eq!(parse_sqlcard_data(&[0; 18]), Err(Refusal::InvalidSqlcard));
    assert_eq!(
        consume_sqlca_group(&[]),
        Err(Refusal::BufferTooShort {
            expected: 19,
            actual: 0
        })
    );
    let reply = stored("warning.bin");
    let card = parse_sqlcard_data(&reply).unwrap();
    assert_eq!((card.sqlcode, card.rows_updated), (445, 1));
    assert_eq!(
        (card.state(), card.procedure()),
        ("01004".into(), "SQLRA23A".into())
    );
    let message = "The column FEE was cut at 9 digits.";
    assert_eq!(card.message_in(&reply).unwrap(), message);
    assert_eq!(card.message_in(&reply[..60]), Err(Refusal::OutsideReply));
    let mut buffer = [7; 40];
    let (place, length) = (card.message_place, card.message_length);
    assert_eq!(
        message_text(&reply, place, length, &mut buffer[..34]),
        Err(Refusal::RoomTooShort { needed: 35 })
    );
    assert_eq!(buffer, [7; 40]);
    assert_eq!(message_text(&reply, place, length, &mut buffer), Ok(35));
    assert_eq!(&buffer[..35], message.as_bytes());
    assert_eq!(buffer[35..], [7; 5]);
    assert_eq!(
        message_text(&reply, usize::MAX, usize::MAX, &mut buffer),
        Err(Refusal::OutsideReply)
    );
}

#[test]
fn texts() {
    let reply = stored("luggage-ebcdic.bin");
    let (_, columns) = describe(&reply).unwrap();
    assert_eq!(columns[0].name.alphabet, Alphabet::PAGE_037);
    assert_eq!(columns[0].name_in(&reply).unwrap(), "TAG");
    assert_eq!(columns[0].label.decode(&reply).unwrap(), "Gepäckanhänger");
    assert_eq!(columns[4].name.alphabet, Alphabet::GENERATED);
    assert_eq!(columns[4].name_in(&reply).unwrap(), "COL5");
    assert_eq!(columns[4].name.decode(&reply).unwrap(), "");
    assert_eq!(name_part(&reply, columns[4].name).unwrap(), b"");
    let long = vec![b'X'; 1000];
    let mut column = Column {
        number: u16::MAX,
        name: Text {
            place: 0,
            length: 1000,
            alphabet: Alphabet::ASCII,
        },
        ..Column::default()
    };
    assert_eq!(column.name_in(&long).unwrap().len(), 1000);
    column.name.length = 1001;
    assert_eq!(column.name_in(&long), Err(Refusal::OutsideReply));
    column.name.place = usize::MAX;
    assert_eq!(column.name.decode(&long), Err(Refusal::OutsideReply));
    column.name = Text {
        alphabet: Alphabet(3),
        ..Text::EMPTY
    };
    assert_eq!(name_part(&long, column.name), Err(Refusal::OutsideReply));
    column.name.alphabet = Alphabet::GENERATED;
    let mut buffer = [7; 10];
    assert_eq!(
        name_text(&[], &column, &mut buffer[..7]),
        Err(Refusal::RoomTooShort { needed: 8 })
    );
    assert_eq!(buffer, [7; 10]);
    assert_eq!(name_text(&[], &column, &mut buffer), Ok(8));
    assert_eq!(&buffer, b"COL65536\x07\x07");
}

#[test]
fn name_scans() {
    let reply = stored("luggage.bin");
    let mut names = vec![marked().name; 4000];
    let count = scan_column_names(&reply, &mut names).unwrap();
    assert!(names[..count]
        .iter()
        .any(|name| name.decode(&reply).unwrap() == "PASSENGER"));
    assert!(names[count..].iter().all(|name| *name == marked().name));
    let mut short = vec![marked().name; count - 1];
    assert_eq!(
        scan_column_names(&reply, &mut short),
        Err(Refusal::RoomTooShort { needed: count })
    );
    assert_eq!(short, vec![marked().name; count - 1]);
    assert_eq!(scan_column_names(&[], &mut []), Ok(0));
}

#[test]
fn lists_made_up() {
    let column = Column {
        number: 9,
        db2_type: Db2Type::RowId(40),
        length: 40,
        nullable: true,
        ..Column::default()
    };
    assert_eq!(widest_row(&[]), Ok(0));
    assert_eq!(widest_row(&[column; 2]), Ok(86));
    assert_eq!(same_cut(&[], &[]), Ok(true));
    let other = Column {
        byte_order: ByteOrder::LittleEndian,
        ..column
    };
    assert_eq!(same_cut(&[column], &[other]), Ok(false));
    // A ticket column whose CCSID changed from 37 to 1208, its length kept.
    let [before, after] = [37, 1208].map(|ccsid| Column { ccsid, ..column });
    assert_eq!(same_cut(&[before], &[after]), Ok(false));
    assert_eq!(same_cut(&[before, after], &[after, before]), Ok(false));
    assert_eq!(same_cut(&[before, after], &[before, after]), Ok(true));
    for db2_type in [Db2Type::Blob, Db2Type::Clob, Db2Type::DbClob, Db2Type::Xml] {
        let large = Column { db2_type, ..column };
        assert_eq!(
            widest_row(&[column, large]).err(),
            Some(Refusal::LargeObject { number: 9 })
        );
    }
    // Two bytes for each character, by the type, whatever the code.
    for (db2_type, width) in [
        (Db2Type::Graphic(40), 81),
        (Db2Type::VarGraphic(40), 83),
        (Db2Type::VarChar(40), 43),
    ] {
        let column = Column { db2_type, ..column };
        assert_eq!(widest_row(&[column; 3]), Ok(3 * width));
    }
    let widest = Column {
        db2_type: Db2Type::VarGraphic(65_535),
        length: 65_535,
        ..column
    };
    assert_eq!(
        widest_row(&vec![widest; MAX_COLUMNS]),
        Ok(MAX_COLUMNS * 131_073)
    );
    let most = vec![column; MAX_COLUMNS];
    assert_eq!(widest_row(&most), Ok(MAX_COLUMNS * 43));
    assert_eq!(same_cut(&most, &most), Ok(true));
    for count in [MAX_COLUMNS + 1, 2 * MAX_COLUMNS] {
        let many = vec![column; count];
        assert_eq!(widest_row(&many), Err(Refusal::ReplyTooLong));
        assert_eq!(same_cut(&many, &most), Err(Refusal::ReplyTooLong));
        assert_eq!(same_cut(&[], &many), Err(Refusal::ReplyTooLong));
    }
}

#[test]
fn refusals_in_words() {
    let refusals = [
        (Refusal::EmptyReply, 1, "the reply is empty"),
        (
            Refusal::BufferTooShort {
                expected: 14,
                actual: 2,
            },
            2,
            "the reply ends early: 14 bytes expected, 2 there",
        ),
        (
            Refusal::InvalidSqlcard,
            3,
            "the reply is too short for a status record",
        ),
        (
            Refusal::UnexpectedCodePoint(0x2408),
            4,
            "the code point is 0x2408, not SQLDARD's 0x2411",
        ),
        (
            Refusal::ReplyTooLong,
            5,
            "the reply is over 65,536 bytes, or a list over 4,095 columns",
        ),
        (
            Refusal::RoomTooShort { needed: 12 },
            6,
            "what was lent is too short: 12 needed",
        ),
        (
            Refusal::OutsideReply,
            7,
            "the text does not lie in the reply",
        ),
        (
            Refusal::LargeObject { number: 3 },
            8,
            "column 3 is a large object, so a row has no widest",
        ),
    ];
    for (refusal, number, words) in refusals {
        assert_eq!(refusal.number(), number);
        let error: Box<dyn Error> = refusal.into();
        assert_eq!(error.to_string(), words);
    }
}
