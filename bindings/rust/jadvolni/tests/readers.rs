//! Columns from readers that give little, fail, are interrupted, or end early.
#![cfg(feature = "std")]

use jadvolni::{
    parse_column, ColumnError, ColumnReader, Dialect, Error, Format, ReadError, TableColumn,
    TableReadError, TableReader,
};
use std::io::{self, ErrorKind, Read};

mod device;
use device::{device, Device};

/// All numbers of a device, and what else it reported.
fn read(device: Device<'_>, size: usize) -> (Vec<u16>, Vec<ReadError>) {
    let (mut numbers, mut told) = (vec![], vec![]);
    for item in ColumnReader::with_capacity(size, device, b',', Format::STANDARD) {
        match item {
            Ok(number) => numbers.push(number),
            Err(error) => told.push(error),
        }
    }
    (numbers, told)
}

#[test]
fn every_cut_gives_the_whole_column() {
    for text in ["", "1", "1,", "12,7,65535", "12,7,65535,", "1,2,x,4", "1,,3", "9,65536", ","] {
        let mut values = [0; 8];
        let whole = parse_column(text, b',', &mut values);
        for (size, most) in (6..12).flat_map(|size| (1..12).map(move |most| (size, most))) {
            let (numbers, told) = read(device(text.as_bytes(), most, None), size);
            assert!(values.starts_with(&numbers), "{text} by {most} of {size}");
            match whole {
                Ok(column) => assert_eq!((numbers.len(), told.len()), (column.count, 0), "{text}"),
                Err(fault) => {
                    assert!(
                        matches!(told[..], [ReadError::Column(last)] if last == fault),
                        "{text}"
                    );
                    assert!(
                        matches!(fault, ColumnError::InvalidField { field, .. } if field == numbers.len())
                    );
                }
            }
        }
    }
}

#[test]
fn empty_fields_are_numbers_where_no_digit_is_required() {
    let loose = Format::STANDARD.required_mantissa_digits(false);
    for (size, most) in (2..12).flat_map(|size| (1..12).map(move |most| (size, most))) {
        let device = device(b",,,7,,,1,,", most, None);
        let numbers = ColumnReader::<_, u8>::with_capacity(size, device, b',', loose);
        let found: Vec<u8> = numbers.map(Result::unwrap).collect();
        assert_eq!(found, [0, 0, 0, 7, 0, 0, 1, 0], "by {most} of {size}");
    }
}

#[test]
fn a_block_has_one_byte_at_least() {
    for text in ["", "7", "7,8"] {
        let by = |size| format!("{:?}", read(device(text.as_bytes(), 9, None), size));
        assert_eq!(by(0), by(1), "{text}");
    }
}

#[test]
fn failures_are_told_and_lose_nothing() {
    let text = b"12,345,6,78,9";
    for at in 0..text.len() {
        let (numbers, told) = read(device(text, 4, Some((at, ErrorKind::Interrupted))), 8);
        assert_eq!((numbers, told.len()), (vec![12, 345, 6, 78, 9], 0), "interrupted at {at}");
        let (numbers, told) = read(device(text, 4, Some((at, ErrorKind::BrokenPipe))), 8);
        assert_eq!(numbers, [12, 345, 6, 78, 9], "broken at {at}");
        assert!(
            matches!(&told[..], [ReadError::Io(error)] if error.kind() == ErrorKind::BrokenPipe)
        );
    }
}

#[test]
fn long_fields_and_invalid_formats_end_it() {
    let (numbers, told) = read(device(b"1,00000000002", 13, None), 8);
    assert_eq!(numbers, [1]);
    assert!(matches!(told[..], [ReadError::LongField(2)]));
    assert_eq!(told[0].to_string(), "the field at byte 2 has more bytes than a block");
    let format = Format::STANDARD.mantissa_radix(1);
    let mut reader = ColumnReader::<_, u8>::new(&b"1"[..], b',', format);
    let Some(Err(ReadError::Column(told))) = reader.next() else { panic!("an invalid format") };
    assert_eq!(told, ColumnError::InvalidFormat(Error::InvalidMantissaRadix));
    assert!(reader.next().is_none());
}

#[test]
fn a_field_as_long_as_a_block_is_read() {
    for (text, whole) in
        [("00000007", vec![7]), ("1,00000007", vec![1, 7]), ("00000007,2", vec![7, 2])]
    {
        for most in 1..12 {
            let (numbers, told) = read(device(text.as_bytes(), most, None), 8);
            assert_eq!((numbers, told.len()), (whole.clone(), 0), "{text} by {most}");
        }
        let long = text.replace('7', "07");
        let (_, told) = read(device(long.as_bytes(), 4, None), 8);
        assert!(matches!(told[..], [ReadError::LongField(_)]), "{long}");
    }
}

#[test]
fn a_reader_that_tells_more_than_it_gave_is_a_fault() {
    struct Boastful;
    impl Read for Boastful {
        fn read(&mut self, block: &mut [u8]) -> io::Result<usize> {
            block.fill(b'1');
            Ok(block.len() + 1)
        }
    }
    let mut numbers = ColumnReader::<_, u8>::new(Boastful, b',', Format::STANDARD);
    assert!(matches!(numbers.next(), Some(Err(ReadError::Io(_)))));
    let (mut rows, mut slice) = (TableReader::new(Boastful, Dialect::separated_by(b',')), [0u8]);
    let told = rows.read(&mut [TableColumn::of(&mut slice)]);
    assert!(matches!(told, Err(TableReadError::Io(_))));
}

#[test]
fn a_fault_is_told_once_by_its_chain() {
    let told = read(device(b"1,x", 4, None), 8).1.remove(0);
    let mut rows = TableReader::new(&b"1\n,\n"[..], Dialect::separated_by(b','));
    let row = rows.read(&mut [TableColumn::of(&mut [0u8; 9])]).unwrap_err();
    let failed = || io::Error::other("no disk");
    let chains: [(&dyn std::error::Error, &str); 4] = [
        (&told, "invalid digit at byte 2, in field 2"),
        (&row, "line 2, column 1: \"\": missing digit at byte 0 of the cell"),
        (&ReadError::Io(failed()), "no disk"),
        (&TableReadError::Io(failed()), "no disk"),
    ];
    for (error, text) in chains {
        assert_eq!(error.to_string(), text);
        let source = error.source().map(|source| source.to_string());
        assert_ne!(source.as_deref(), Some(text));
    }
}

#[test]
fn a_fault_far_behind_has_its_place() {
    let text = [b"7,".repeat(200_000), b"256".to_vec()].concat();
    let mut reader = ColumnReader::<_, u8>::new(&text[..], b',', Format::STANDARD);
    assert!(reader.by_ref().take(200_000).all(|item| item.is_ok_and(|number| number == 7)));
    let Some(Err(ReadError::Column(told))) = reader.next() else { panic!("a fault") };
    let error = Error::Overflow(400_002);
    assert_eq!(told, ColumnError::InvalidField { field: 200_000, start: 400_000, error });
}

#[test]
fn shown_for_debugging_readers_have_no_text() {
    let mut numbers = ColumnReader::<_, u8>::new(&b"77\n88\n"[..], b'\n', Format::STANDARD);
    numbers.next().unwrap().unwrap();
    let mut rows = TableReader::new(&b"77\n88\n"[..], Dialect::LINES);
    assert_eq!(rows.read(&mut [TableColumn::of(&mut [0u8; 1])]).unwrap(), 1);
    for shown in [format!("{numbers:?}"), format!("{rows:?}")] {
        assert!(shown.len() < 1000 && !shown.contains("55, 55"), "{shown}");
    }
}
