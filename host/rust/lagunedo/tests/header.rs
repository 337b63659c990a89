//! The refusals, the answer of check and the sizes are those of `lagunedo.h`:
//! its text is read, and every row of its tables compared, so that none is left
//! out on either side.

use lagunedo::Refusal;

const HEADER: &str = include_str!("../../../include/lagunedo.h");

/// A row of the header's table of numbers.
#[derive(Debug, Eq, PartialEq)]
struct Row {
    name: String,
    number: u32,
    meaning: String,
}

/// The rows `X(NAME, NUMBER, "MEANING")` of the header, which may run over two
/// of its lines.
fn rows() -> Vec<Row> {
    let joined = HEADER.replace("\\\n", " ");
    let rows = joined.split("X(LAGUNEDO_").skip(1);
    rows.map(|row| {
        let (name, rest) = row.split_once(',').expect("a name");
        let (number, rest) = rest.split_once(',').expect("a number");
        let meaning = rest.split('"').nth(1).expect("a meaning");
        Row {
            name: name.to_string(),
            number: number.trim().parse().expect("a number"),
            meaning: meaning.to_string(),
        }
    })
    .collect()
}

/// `KeyLength` as the header writes it: `KEY_LENGTH`.
fn header_name(refusal: Refusal) -> String {
    let mut name = String::new();
    for (at, letter) in format!("{refusal:?}").char_indices() {
        if at > 0 && letter.is_uppercase() {
            name.push('_');
        }
        name.push(letter.to_ascii_uppercase());
    }
    name
}

#[test]
fn refusals_are_the_headers() {
    let rows = rows();
    let no_refusal = |row: &&Row| row.number == 0 || row.number == lagunedo::FAULT;
    let others: Vec<_> = rows
        .iter()
        .filter(no_refusal)
        .map(|row| &row.name)
        .collect();
    assert_eq!(others, ["DONE", "FAULT"]);
    let named: Vec<_> = rows.iter().filter(|row| !no_refusal(row)).collect();
    assert_eq!(named.len(), Refusal::ALL.len());
    for (row, refusal) in named.iter().zip(Refusal::ALL) {
        assert_eq!(row.name, header_name(*refusal));
        assert_eq!(row.number, refusal.number());
        assert_eq!(row.meaning, refusal.meaning());
        assert_eq!(Refusal::from_number(row.number), Some(*refusal));
        let words = format!("refused with {}: {}", row.number, row.meaning);
        assert_eq!(refusal.to_string(), words);
    }
}

#[test]
fn no_other_number_is_a_refusal() {
    assert_eq!(Refusal::from_number(0), None);
    for number in (18..=300).chain([65_537, u32::MAX]) {
        assert_eq!(Refusal::from_number(number), None, "{number}");
    }
}

#[test]
fn a_refusal_is_an_error() {
    let boxed: Box<dyn std::error::Error + Send + Sync> = Box::new(Refusal::NoSheet);
    assert_eq!(
        boxed.to_string(),
        "refused with 7: no slot has the sheet number"
    );
}

/// The lines `LAGUNEDO_NAME = NUMBER` of the header's enum of sizes.
fn sizes() -> Vec<(&'static str, usize)> {
    let (_, rest) = HEADER
        .split_once("enum lagunedo_size {")
        .expect("the sizes");
    let (inside, _) = rest.split_once('}').expect("an end");
    let lines = inside.lines().filter_map(|line| line.split_once('='));
    lines
        .map(|(name, rest)| {
            let number = rest.split([',', '/']).next().expect("a number");
            let name = name.trim().strip_prefix("LAGUNEDO_").expect("a prefix");
            (name, number.trim().parse().expect("a number"))
        })
        .collect()
}

#[test]
fn sizes_are_the_headers() {
    macro_rules! named {
        ($($name:ident),* $(,)?) => { vec![$((stringify!($name), lagunedo::$name)),*] };
    }
    let ours = named![
        BLOCK_SIZE,
        AES_KEY_128,
        AES_KEY_256,
        EME2_KEY_128,
        EME2_KEY_256,
        MESSAGE_LEAST,
        MESSAGE_MOST,
        DATA_MOST,
        RECORD_SIZE,
        LEAD_SIZE,
        TEXT_LEAST,
        TEXT_MOST,
        SLOT_LIMIT,
        XTS_KEY_128,
        XTS_KEY_256,
        UNIT_LEAST,
        UNIT_MOST,
        STACK_MOST,
    ];
    assert_eq!(sizes(), ours);
}
