//! Columns of each type, and what hostile texts, slices and separators give.
use jadvolni::{
    field_start, parse_column, parse_column_part, parse_column_part_with_format,
    parse_column_with_format, Column, ColumnError, ColumnInteger, Error, Format,
};

/// What a column of `i16` answers, with what is then in a slice of three, where 77 was.
fn read(text: &[u8], separator: u8, format: &Format) -> (Result<Column, ColumnError>, [i16; 3]) {
    let mut values = [77; 3];
    (parse_column_with_format(text, separator, format, &mut values), values)
}

fn fault(field: usize, start: usize, error: Error) -> Result<Column, ColumnError> {
    Err(ColumnError::InvalidField { field, start, error })
}

/// Both ends of a type, and room for one number more.
fn ends<T: ColumnInteger + ToString + PartialEq + std::fmt::Debug>(ends: [T; 2], spare: T) {
    let text = format!("{},{},", ends[0].to_string(), ends[1].to_string());
    let mut values = [spare; 3];
    let whole = Ok(Column { count: 2, stop: text.len() });
    assert_eq!(parse_column(&text, b',', &mut values), whole);
    assert_eq!(values, [ends[0], ends[1], spare]);
    let wider = format!("{text}99999999999999999999");
    let Err(told) = parse_column(&wider, b',', &mut values) else { panic!("{wider}") };
    assert!(
        matches!(told, ColumnError::InvalidField { field: 2, error: Error::Overflow(_), .. }),
        "{told}"
    );
}

#[test]
fn ends_of_types() {
    ends([u8::MIN, u8::MAX], 77);
    ends([u16::MIN, u16::MAX], 77);
    ends([u32::MIN, u32::MAX], 77);
    ends([u64::MIN, u64::MAX], 77);
    ends([i8::MIN, i8::MAX], 77);
    ends([i16::MIN, i16::MAX], 77);
    ends([i32::MIN, i32::MAX], 77);
    ends([i64::MIN, i64::MAX], 77);
}

#[test]
fn faults_of_fields() {
    let with_sign = Format::STANDARD.required_mantissa_sign(true);
    let one = [1, 77, 77];
    let standard = Format::STANDARD;
    assert_eq!(read(b"1,32768,x", b',', &standard), (fault(1, 2, Error::Overflow(6)), one));
    assert_eq!(read(b"1,-32769", b',', &standard), (fault(1, 2, Error::Underflow(7)), one));
    assert_eq!(read(b"1,2 ,3", b',', &standard), (fault(1, 2, Error::InvalidDigit(3)), one));
    assert_eq!(read(b"1,,3", b',', &standard), (fault(1, 2, Error::Empty(2)), one));
    assert_eq!(read(b"+1,2", b',', &with_sign), (fault(1, 3, Error::MissingSign(3)), one));
    assert_eq!(
        read(b"1,+2", b',', &Format::JSON),
        (fault(1, 2, Error::InvalidPositiveSign(2)), one)
    );
    assert_eq!(
        read(b"1,-02", b',', &Format::JSON),
        (fault(1, 2, Error::InvalidLeadingZeros(3)), one)
    );
}

#[test]
fn format_is_looked_at_first() {
    let broken = Format::STANDARD.mantissa_radix(37);
    let invalid = ColumnError::InvalidFormat(Error::InvalidMantissaRadix);
    for text in ["", "1,2", "x"] {
        assert_eq!(read(text.as_bytes(), b',', &broken), (Err(invalid), [77; 3]));
        assert_eq!(parse_column_with_format::<u8>(text, b',', &broken, &mut []), Err(invalid));
    }
    assert_eq!(invalid.to_string(), "the radix has to be 2 to 36");
}

#[test]
fn any_byte_parts_fields() {
    let two = |stop| Ok(Column { count: 2, stop });
    let standard = Format::STANDARD;
    for separator in (0..=255u8).filter(|it| !it.is_ascii_digit()) {
        let text = [b'1', separator, b'2', separator];
        assert_eq!(read(&text, separator, &standard), (two(4), [1, 2, 77]));
    }
    assert_eq!(read(b"1020", b'0', &standard), (two(4), [1, 2, 77]));
    assert_eq!(read(b"3--4", b'-', &standard), (fault(1, 2, Error::Empty(2)), [3, 77, 77]));
    assert_eq!(read(b",,,", b',', &standard), (fault(0, 0, Error::Empty(0)), [77; 3]));
    assert_eq!(read(b"", b',', &standard), (Ok(Column { count: 0, stop: 0 }), [77; 3]));
}

#[test]
fn slices_without_room() {
    assert_eq!(parse_column::<u64>("x", b',', &mut []), Ok(Column { count: 0, stop: 0 }));
    let mut one = [77u64];
    assert_eq!(parse_column("5,x", b',', &mut one), Ok(Column { count: 1, stop: 2 }));
    assert_eq!(one, [5]);
}

/// Random columns in slices of every small size, a call behind another, beside `split` and `parse`.
#[test]
fn pieces_beside_std() {
    let mut state = 7u64;
    let mut next = move |below: u64| {
        state = state.wrapping_mul(6364136223846793005).wrapping_add(1442695040888963407);
        (state >> 33) % below
    };
    for _ in 0..20_000 {
        let text: String =
            (0..next(24)).map(|_| char::from(b"0123456789;;;-+x"[next(16) as usize])).collect();
        let fields = text.strip_suffix(';').unwrap_or(&text).split(';');
        let numbers: Vec<Option<i16>> = fields.map(|it| it.parse().ok()).collect();
        let wrong = numbers.iter().position(Option::is_none).filter(|_| !text.is_empty());
        let (mut at, mut found, mut values) = (0, Vec::new(), vec![0; 1 + next(4) as usize]);
        let told = loop {
            match parse_column::<i16>(&text[at..], b';', &mut values) {
                Ok(read) => {
                    found.extend(values[..read.count].iter().copied().map(Some));
                    at += read.stop;
                    if at == text.len() {
                        break None;
                    }
                }
                Err(ColumnError::InvalidField { field, start, .. }) => {
                    found.extend(values[..field].iter().copied().map(Some));
                    assert_eq!(at + start, field_start(&text[..at + start], b';'), "{text}");
                    break Some(found.len());
                }
                Err(told) => panic!("{told}"),
            }
        };
        assert_eq!(told, wrong, "{text}");
        let right = wrong.unwrap_or(if text.is_empty() { 0 } else { numbers.len() });
        assert_eq!(found, numbers[..right], "{text}");
    }
}

#[test]
fn starts_of_fields() {
    assert_eq!(field_start("", b','), 0);
    assert_eq!(field_start("12", b','), 0);
    assert_eq!(field_start("1,2", b','), 2);
    assert_eq!(field_start("1,2,", b','), 4);
    assert_eq!(field_start(b"1\x002", 0), 2);
}

/// The numbers of a text that comes in blocks of a size, with room for some at a time, and the fault with its place.
fn in_blocks(text: &[u8], size: usize, room: usize) -> (Vec<i16>, Option<(usize, Error)>) {
    let (mut found, mut kept, mut start) = (Vec::new(), Vec::new(), 0);
    for block in text.chunks(size).chain([&b""[..]]) {
        kept.extend_from_slice(block);
        loop {
            let mut values = vec![77; room];
            match parse_column_part(&kept, block.is_empty(), b',', &mut values) {
                Ok(Column { count, stop }) => {
                    found.extend_from_slice(&values[..count]);
                    kept.drain(..stop);
                    start += stop;
                    if count < room {
                        break;
                    }
                }
                Err(ColumnError::InvalidField { field, error, .. }) => {
                    found.extend_from_slice(&values[..field]);
                    return (found, Some((start, error)));
                }
                Err(other) => panic!("{other}"),
            }
        }
    }
    (found, None)
}

#[test]
fn parts_give_the_numbers_of_the_whole() {
    for (text, numbers) in
        [("12,-7,300,4", &[12, -7, 300, 4][..]), ("1,", &[1]), ("", &[]), ("99,1,", &[99, 1])]
    {
        for (size, room) in (1..12).flat_map(|size| [(size, 1), (size, 2), (size, 9)]) {
            assert_eq!(
                in_blocks(text.as_bytes(), size, room),
                (numbers.to_vec(), None),
                "{text} {size}"
            );
        }
    }
    assert_eq!(in_blocks(b"1,2,x,4", 3, 9), (vec![1, 2], Some((2, Error::InvalidDigit(2)))));
    let radix = Format::STANDARD.mantissa_radix(37);
    let refused = parse_column_part_with_format("1", false, b',', &radix, &mut [0u8]);
    assert_eq!(refused, Err(ColumnError::InvalidFormat(Error::InvalidMantissaRadix)));
}
