//! Calls that break what the crate `jadvolni` asks of a caller, as c/misuse.c has them of jadvolni.h: each is chosen by
//! `--cfg misuse="1"`, and behind its number stands the error of the compiler. Number 0 breaks nothing.
#![allow(unused_mut, unused_variables)]
#![deny(unused_must_use)]

use jadvolni::*;

pub fn misuse() -> usize {
    let text = String::from("1,2\n");
    let comma = Dialect::separated_by(b',');
    let mut numbers = [0u8; 4];
    let mut bad = [BadRow::NONE; 2];
    let mut texts = [CellText::NONE; 4];
    let mut rows = TableReader::new(text.as_bytes(), comma);
    #[cfg(misuse = "0")]
    {
        let mut columns = [TableColumn::of(&mut numbers), TableColumn::of_texts(&mut texts)];
        let skipping = parse_table_skipping(&text, &comma, &mut columns, &mut bad).unwrap();
        let sum = skipping.bad.len() + rows.read(&mut columns).unwrap() + rows.block().len();
        return sum + texts[0].of(&text).len() + usize::from(numbers[0]);
    }
    #[cfg(misuse = "1")] // E0499
    return rows.read(&mut [TableColumn::of(&mut numbers), TableColumn::of(&mut numbers)]).unwrap();
    #[cfg(misuse = "2")] // E0503
    {
        let mut columns = [TableColumn::of(&mut numbers), TableColumn::UNREAD];
        let first = usize::from(numbers[0]);
        return first + rows.read(&mut columns).unwrap();
    }
    #[cfg(misuse = "3")] // E0597
    {
        let mut columns = [TableColumn::UNREAD, TableColumn::UNREAD];
        {
            let mut others = [0i64; 4];
            columns[0] = TableColumn::of(&mut others);
        }
        return rows.read(&mut columns).unwrap();
    }
    #[cfg(misuse = "4")] // E0716
    {
        let mut columns = [TableColumn::of(vec![0u8; 4].as_mut_slice())];
        return rows.read(&mut columns).unwrap();
    }
    #[cfg(misuse = "5")] // E0505
    {
        let cell = texts[0].of(&text);
        drop(text);
        return cell.len();
    }
    #[cfg(misuse = "6")] // E0502
    {
        let block = rows.block();
        let count = rows.read(&mut [TableColumn::UNREAD]).unwrap();
        return count + block.len();
    }
    #[cfg(misuse = "7")] // E0716
    {
        let records = Dialect::of_widths(vec![1, 2].as_slice()).is_records(true);
        return row_place(&text, &records, 0).unwrap().len();
    }
    #[cfg(misuse = "8")] // E0597
    {
        let mut sparse = comma;
        {
            let mark = text.clone();
            sparse = sparse.missing(mark.as_bytes());
        }
        return row_place(&text, &sparse, 0).unwrap().len();
    }
    #[cfg(misuse = "9")] // E0506
    {
        let mut columns = [TableColumn::of(&mut numbers), TableColumn::UNREAD];
        let skipping = parse_table_skipping(&text, &comma, &mut columns, &mut bad).unwrap();
        bad[0] = BadRow::NONE;
        return skipping.bad.len();
    }
    #[cfg(misuse = "10")] // E0277
    {
        let mut columns = [TableColumn::of(&mut numbers), TableColumn::UNREAD];
        return std::thread::scope(|scope| scope.spawn(|| columns.as_mut().len()).join().unwrap());
    }
    #[cfg(misuse = "11")] // E0277
    return usize::from(parse::<bool>(&text).unwrap());
    #[cfg(misuse = "12")] // E0277
    return rows.read(&mut [TableColumn::of(&mut [0u128; 4])]).unwrap();
    #[cfg(misuse = "13")] // E0308
    return parse_column(&text, b',', &numbers).unwrap().count;
    #[cfg(misuse = "14")] // E0597
    {
        let table = {
            let name = String::from("u8");
            [Suffix::new(&name, IntegerKind::U8)]
        };
        return parse_typed_literal(&text, &Format::RUST, &table).unwrap().stop;
    }
    #[cfg(misuse = "15")] // E0502
    {
        let wanted = [("a", TableColumn::of(&mut numbers))];
        let mut columns = Columns::by_header(&text, &comma, wanted).unwrap();
        let first = numbers.first().copied();
        return usize::from(first.unwrap()) + columns.read(&text, &comma).unwrap().rows;
    }
    #[cfg(misuse = "16")] // E0499
    {
        let mut bits = [0u8];
        let mut columns = [
            TableColumn::of(&mut numbers).with_bits(&mut bits),
            TableColumn::of_texts(&mut texts).with_bits(&mut bits),
        ];
        return rows.read(&mut columns).unwrap();
    }
    #[cfg(misuse = "17")] // unused_must_use
    {
        parse::<u8>(&text);
        return 0;
    }
}
