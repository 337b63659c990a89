//! The reader of the vector files: what it understands, and that everything
//! else is an error with its line.

use super::{files, parse, Vector};
use std::fs;
use std::path::PathBuf;

/// Bytes that count up from `first`, in digits.
fn counting(first: u8, length: u8) -> String {
    (0..length).map(|i| format!("{:02x}", first + i)).collect()
}

/// A record with each field in one line, of which some may be replaced or,
/// by an empty line, left out.
fn record(replaced: &[(&str, &str)]) -> String {
    let key = format!("key = {}", counting(0, 48));
    let plain = format!("plain = {}", counting(0x60, 17));
    let cipher = format!("cipher = {}", counting(0x80, 17));
    let lines = [
        ("name", "name = one"),
        ("key", &key),
        ("ad", "ad = 0aff"),
        ("plain", &plain),
        ("cipher", &cipher),
    ];
    let mut text = String::new();
    for (word, line) in lines {
        let new = replaced.iter().find(|(w, _)| *w == word);
        let line = new.map_or(line, |(_, l)| *l);
        if !line.is_empty() {
            text += line;
            text += "\n";
        }
    }
    text
}

fn one() -> Vector {
    Vector {
        name: "one".to_owned(),
        key: (0..48).collect(),
        ad: vec![0x0a, 0xff],
        plain: (0x60..0x71).collect(),
        cipher: (0x80..0x91).collect(),
    }
}

/// The fault as it is printed.
fn fault(text: &str) -> String {
    parse(text).expect_err("a fault").to_string()
}

#[test]
fn a_record() {
    assert_eq!(parse(&record(&[])), Ok(vec![one()]));
    assert_eq!(parse(""), Ok(vec![]));
    assert_eq!(parse("# said\n\nfields Key1 Key2 Key3\n"), Ok(vec![]));
}

/// Comments anywhere, several blank lines, carriage returns, digits of either
/// case, in groups and over several lines, fields in another order.
#[test]
fn all_that_is_allowed() {
    let [front, back] = [counting(0, 20), counting(20, 28)];
    let key = format!("key =\n  {front}\n\t# between\n\t{back}  ");
    let text = record(&[
        ("name", ""),
        ("key", &key),
        ("ad", "ad=0A fF\nname = one = 1"),
    ]);
    let empty = record(&[("ad", "ad =")]);
    let text = format!("# first\r\n\r\n\n{text}\n \n# second\n{empty}");
    let read = parse(&text).expect("both are whole");
    let first = Vector {
        name: "one = 1".to_owned(),
        ..one()
    };
    let second = Vector {
        ad: vec![],
        ..one()
    };
    assert_eq!(read, [first, second]);
}

/// Every order of the fields, for both key sizes. Key1 counts from 0, Key2
/// from 40 hex and Key3 from 60 hex.
#[test]
fn rearranged_keys() {
    let orders = [
        "Key1 Key2 Key3",
        "Key1 Key3 Key2",
        "Key2 Key1 Key3",
        "Key2 Key3 Key1",
        "Key3 Key1 Key2",
        "Key3 Key2 Key1",
    ];
    for length in [16, 32] {
        let [key1, key2, key3] = [(0, length), (0x40, 16), (0x60, 16)].map(|(f, l)| counting(f, l));
        for order in orders {
            let digits: String = order
                .split(' ')
                .map(|field| match field {
                    "Key1" => &key1[..],
                    "Key2" => &key2[..],
                    _ => &key3[..],
                })
                .collect();
            let key = format!("key = {digits}");
            let text = format!("fields {order}\n{}", record(&[("key", &key)]));
            let read = parse(&text).expect("a whole record");
            let wanted: Vec<u8> = (0..length).chain(0x40..0x50).chain(0x60..0x70).collect();
            assert_eq!(read[0].key, wanted, "{order}");
        }
    }
}

#[test]
fn faults_of_a_field() {
    for (line, wanted) in [
        ("ad = 0g", "line 3: no hexadecimal digit: g"),
        ("ad = 0x00", "line 3: no hexadecimal digit: x"),
        ("ad = 00 # empty", "line 3: no hexadecimal digit: #"),
        ("ad = 00 é", "line 3: no hexadecimal digit: é"),
        ("ad = 012", "line 3: half a byte: 012"),
        ("ad = 0 1", "line 3: half a byte: 0"),
        ("ad = 00\n  01 2", "line 4: half a byte: 2"),
        ("ad = 00\nad = 01", "line 4: a second ad in one record"),
        ("ad =\nad =", "line 4: a second ad in one record"),
        ("ad = 00\nname = 1", "line 4: a second name in one record"),
        ("tweak = 00", "line 3: unknown word tweak"),
        ("AD = 00", "line 3: unknown word AD"),
        ("= 00", "line 3: unknown word "),
        ("name =\nad = 00", "line 3: an empty name"),
        ("ad 00", "line 3: not understood: ad 00"),
        ("00", "line 3: not understood: 00"),
    ] {
        assert_eq!(fault(&record(&[("ad", line)])), wanted);
    }
}

#[test]
fn faults_of_a_record() {
    for word in ["name", "key", "ad", "plain", "cipher"] {
        let text = format!("# said\n\n{}", record(&[(word, "")]));
        assert_eq!(fault(&text), format!("line 3: a record without {word}"));
    }
    // The blank line ends the record, so its second half is another.
    let text = record(&[("ad", "\nad = 00")]);
    assert_eq!(fault(&text), "line 1: a record without ad");
    for length in [0, 16, 47, 49, 63, 65, 96] {
        let key = format!("key = {}", counting(0, length));
        let wanted = format!("line 1: a key of {length} bytes");
        assert_eq!(fault(&record(&[("key", &key)])), wanted);
    }
    let text = record(&[("cipher", "cipher = 00")]);
    assert_eq!(fault(&text), "line 1: plain of 17 bytes, cipher of 1");
}

/// A line that goes on has to have something to go on with.
#[test]
fn faults_of_a_further_line() {
    let wanted = "an indented line that goes on with no field of bytes";
    let name = record(&[("name", "name = one\n 00")]);
    assert_eq!(fault(&name), format!("line 2: {wanted}"));
    assert_eq!(fault(" 00\n"), format!("line 1: {wanted}"));
    let after = format!("{}\n 00\n", record(&[]));
    assert_eq!(fault(&after), format!("line 7: {wanted}"));
}

#[test]
fn faults_of_the_order() {
    for (lines, wanted) in [
        (
            "fields Key1 Key2",
            "line 1: not understood: fields Key1 Key2",
        ),
        ("fields", "line 1: not understood: fields"),
        (
            "fields Key1 Key2 Key3 Key4",
            "line 1: not understood: fields Key1 Key2 Key3 Key4",
        ),
        (
            "fields Key1 Key2 Key4",
            "line 1: a field that is none of Key1, Key2, Key3",
        ),
        ("fields Key1 Key2 Key1", "line 1: a field named twice"),
        (
            "fields Key1 Key2 Key3\nfields Key1 Key2 Key3",
            "line 2: a second line of fields",
        ),
        (
            "order Key1 Key2 Key3",
            "line 1: not understood: order Key1 Key2 Key3",
        ),
    ] {
        assert_eq!(fault(&format!("{lines}\n{}", record(&[]))), wanted);
    }
    for between in ["", "\n"] {
        let text = format!("{}{between}fields Key3 Key2 Key1\n", record(&[]));
        assert!(fault(&text).ends_with("the line of fields comes after a record"));
    }
}

/// A folder that is there until the end of the test.
struct Folder(PathBuf);

impl Folder {
    fn new(name: &str) -> Self {
        let name = format!("lagunedo-{}-{name}", std::process::id());
        let path = std::env::temp_dir().join(name);
        fs::create_dir(&path).expect("a new folder");
        Self(path)
    }

    fn put(&self, name: &str, text: &str) {
        fs::write(self.0.join(name), text).expect("a new file");
    }

    fn fault(&self) -> String {
        files(&self.0).expect_err("a fault")
    }
}

impl Drop for Folder {
    fn drop(&mut self) {
        fs::remove_dir_all(&self.0).expect("the folder goes");
    }
}

/// The manual alone is no vectors; with a file beside it, that file is read,
/// whatever its ending; and one bad file among good ones is an error.
#[test]
fn folders() {
    let folder = Folder::new("folders");
    assert!(folder.fault().ends_with("no file of vectors"));
    folder.put("README.md", "words");
    assert!(folder.fault().ends_with("no file of vectors"));
    folder.put("b.txt", &record(&[]));
    folder.put("a", &record(&[]));
    let read = files(&folder.0).expect("two good files");
    let names: Vec<&str> = read.iter().map(|f| &f.name[..]).collect();
    assert_eq!(names, ["a", "b.txt"]);
    assert_eq!(read[1].vectors, [one()]);
    folder.put("c.txt", "# nothing yet\n");
    assert_eq!(folder.fault(), "c.txt: no vector");
    folder.put("c.txt", "\nwhat\n");
    assert_eq!(folder.fault(), "c.txt: line 2: not understood: what");
    folder.put("c.txt", &record(&[]));
    fs::create_dir(folder.0.join("d")).expect("a folder inside");
    assert!(folder.fault().starts_with("d: "));
    assert!(files(&folder.0.join("none")).is_err());
}

/// What a call returns.
type Answer = (u32, Vec<u8>);

/// The comparison sees each fault that a call can have.
#[test]
fn comparison() {
    let vector = one();
    let right = |back: bool| {
        let after = if back { &vector.plain } else { &vector.cipher };
        (0, after.clone())
    };
    assert_eq!(vector.check(&|_, back, _, _| right(back)), Ok(()));
    for (way, wrong) in [("enciphering", false), ("deciphering", true)] {
        let fault = |change: &dyn Fn(&mut Answer)| {
            let call = |_: &[u8], back: bool, _: &[u8], _: &[u8]| {
                let mut answer = right(back);
                if back == wrong {
                    change(&mut answer);
                }
                answer
            };
            vector.check(&call).expect_err("a fault")
        };
        for place in 0..17 {
            let wanted = format!("{way} gives another byte at place {place}");
            assert_eq!(fault(&|a| a.1[place] ^= 0x80), wanted);
        }
        assert_eq!(fault(&|a| a.0 = 2), format!("{way} is refused with 2"));
        let shorter = fault(&|a| a.1.truncate(16));
        assert_eq!(shorter, format!("{way} gives 16 bytes"));
    }
}
