//! The fields and the rows of `tools/languages.txt`, under the constants for languages.
use jadvolni::{parse_with_format, Error, Format, Integer};

const LANGUAGES: &str = include_str!("../../../../tools/languages.txt");
const FIELDS: &str = include_str!("../../../../tools/fields.txt");

/// A text of the list: its bytes, of which some are escaped.
fn bytes_of(text: &str) -> Vec<u8> {
    let (mut bytes, mut rest) = (Vec::new(), text.bytes());
    while let Some(byte) = rest.next() {
        bytes.push(match (byte, if byte == b'\\' { rest.next() } else { None }) {
            (_, None) => byte,
            (_, Some(b'n')) => b'\n',
            (_, Some(b't')) => b'\t',
            (_, Some(b'x')) => {
                let digits = [rest.next().unwrap(), rest.next().unwrap()];
                u8::from_str_radix(std::str::from_utf8(&digits).unwrap(), 16).unwrap()
            }
            (_, Some(escaped)) => escaped,
        });
    }
    bytes
}

/// What a call answers, as the list writes it.
fn answer<T: Integer + std::fmt::Display>(text: &[u8], format: &Format) -> String {
    match parse_with_format::<T>(text, format) {
        Ok(number) => format!("Ok({number})"),
        Err(error) => format!("{error:?}"),
    }
}

#[test]
fn rows_of_languages() {
    let mut rows = 0;
    for line in LANGUAGES.lines() {
        let Some(row) = line.strip_prefix("complete | ") else { continue };
        let (head, rest) = row.split_once(" | \"").unwrap();
        let (text, wanted) = rest.rsplit_once("\" ").unwrap();
        let wanted = wanted.trim_start_matches([' ', '|']).split(" #").next().unwrap().trim();
        let (language, kind) = head.split_once(" | ").unwrap();
        let (_, format) = Format::LANGUAGES.iter().find(|it| it.0 == language).unwrap();
        let text = bytes_of(text);
        let said = match kind {
            "u32" => answer::<u32>(&text, format),
            "u64" => answer::<u64>(&text, format),
            "i32" => answer::<i32>(&text, format),
            "i64" => answer::<i64>(&text, format),
            other => panic!("{other}"),
        };
        assert_eq!(said, wanted, "{line}");
        rows += 1;
    }
    assert!(rows > 350 && Format::LANGUAGES.len() > 25, "{rows} rows");
    assert_eq!(Format::LANGUAGES.iter().find_map(|it| it.1.error()), None::<Error>);
}

/// The byte of a field, where a language has these words: `word` stands for the field, and `standard` is its byte
/// without that.
fn byte_of(words: &str, word: &str, standard: u8) -> u8 {
    let Some(given) = words.split(' ').find(|it| it.split('=').next() == Some(word)) else {
        return standard;
    };
    match given.split_once('=').map(|(_, value)| (value, value.strip_prefix("0x"))) {
        None => 1 - standard,
        Some((_, Some(code))) => u8::from_str_radix(code, 16).unwrap(),
        Some((number, _)) if word == "radix" => number.parse().unwrap(),
        Some((byte, _)) => byte.as_bytes()[0],
    }
}

/// A field as a format shows it, by its line in the list, where a language has these words: `None` where it is that of
/// the standard format, unless it is the radix.
fn shown(line: &str, words: &str) -> Option<String> {
    let [name, kind, word]: [&str; 3] =
        line.split(" | ").take(3).collect::<Vec<_>>().try_into().unwrap();
    let standard = match kind {
        "radix" => 10,
        _ => u8::from(name == "required_mantissa_digits"),
    };
    let byte = byte_of(words, word, standard);
    match kind {
        "radix" => Some(format!("{name}: {byte}")),
        _ if byte == standard => None,
        "flag" => Some(format!("{name}: {}", byte != 0)),
        _ => Some(format!("{name}: b'{}'", byte.escape_ascii())),
    }
}

#[test]
fn fields_of_languages() {
    for (language, format) in Format::LANGUAGES {
        let begin = format!("fields | {language} | ");
        let words = LANGUAGES.lines().find_map(|line| line.strip_prefix(&begin)).unwrap();
        let fields = FIELDS.lines().filter(|line| !line.starts_with('#'));
        let wanted = fields.filter_map(|line| shown(line, words)).collect::<Vec<_>>().join(", ");
        assert_eq!(format!("{format:?}"), format!("Format {{ {wanted} }}"), "{language}");
    }
}
