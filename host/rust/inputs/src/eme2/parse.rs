//! The form of a file of vectors, line by line.

use super::Vector;
use crate::vectors::hex;
use std::fmt;

/// The fields of a record that are bytes, in the order kept below.
const BYTES: [&str; 4] = ["key", "ad", "plain", "cipher"];

/// Each of Key2 and Key3; Key1 is the rest of the key.
const FIELD: usize = 16;

/// What is wrong with a file, and in which line.
#[derive(Clone, Debug, Eq, PartialEq)]
pub struct Fault {
    /// Counted from 1; for a record that is not whole, its first line.
    pub line: usize,
    /// In words.
    pub why: String,
}

impl fmt::Display for Fault {
    fn fmt(&self, f: &mut fmt::Formatter<'_>) -> fmt::Result {
        write!(f, "line {}: {}", self.line, self.why)
    }
}

/// A record as far as it has been read.
#[derive(Default)]
struct Record {
    line: usize,
    name: Option<String>,
    bytes: [Option<Vec<u8>>; 4],
    /// The field of bytes that an indented line goes on with.
    open: Option<usize>,
}

#[derive(Default)]
struct Reader {
    order: Option<[usize; 3]>,
    record: Option<Record>,
    vectors: Vec<Vector>,
}

/// The vectors of a file, their keys rearranged to Key1, Key2, Key3.
///
/// # Errors
///
/// The first line that is not understood, or record that is not whole.
pub fn parse(text: &str) -> Result<Vec<Vector>, Fault> {
    let mut reader = Reader::default();
    for (number, line) in (1..).zip(text.lines()) {
        if line.trim().is_empty() {
            reader.end_record()?;
        } else if !line.trim_start().starts_with('#') {
            let read = reader.line(number, line);
            read.map_err(|why| Fault { line: number, why })?;
        }
    }
    reader.end_record()?;
    Ok(reader.vectors)
}

impl Reader {
    fn line(&mut self, number: usize, line: &str) -> Result<(), String> {
        if line.starts_with(char::is_whitespace) {
            return self.go_on(line);
        }
        if let Some((word, value)) = line.split_once('=') {
            return self.field(number, word.trim(), value.trim());
        }
        let words: Vec<&str> = line.split_whitespace().collect();
        match words[..] {
            ["fields", a, b, c] => self.fields([a, b, c]),
            _ => Err(format!("not understood: {}", line.trim())),
        }
    }

    /// The order of the key's fields, which holds for the whole file.
    fn fields(&mut self, names: [&str; 3]) -> Result<(), String> {
        if self.order.is_some() {
            return Err("a second line of fields".to_owned());
        }
        if self.record.is_some() || !self.vectors.is_empty() {
            return Err("the line of fields comes after a record".to_owned());
        }
        let wanted = ["Key1", "Key2", "Key3"];
        let order = names.map(|name| wanted.iter().position(|w| *w == name));
        let [Some(a), Some(b), Some(c)] = order else {
            return Err("a field that is none of Key1, Key2, Key3".to_owned());
        };
        if a == b || b == c || a == c {
            return Err("a field named twice".to_owned());
        }
        self.order = Some([a, b, c]);
        Ok(())
    }

    fn field(&mut self, number: usize, word: &str, value: &str) -> Result<(), String> {
        let record = self.record.get_or_insert_with(|| Record {
            line: number,
            ..Record::default()
        });
        let place = BYTES.iter().position(|b| *b == word);
        let doubled = match place {
            Some(place) => record.bytes[place].replace(bytes(value)?).is_some(),
            None if word != "name" => return Err(format!("unknown word {word}")),
            None if value.is_empty() => return Err("an empty name".to_owned()),
            None => record.name.replace(value.to_owned()).is_some(),
        };
        if doubled {
            return Err(format!("a second {word} in one record"));
        }
        record.open = place;
        Ok(())
    }

    fn go_on(&mut self, line: &str) -> Result<(), String> {
        let record = self.record.as_mut();
        let open = record.and_then(|r| r.open.and_then(|place| r.bytes[place].as_mut()));
        let open = open.ok_or("an indented line that goes on with no field of bytes")?;
        open.extend(bytes(line)?);
        Ok(())
    }

    fn end_record(&mut self) -> Result<(), Fault> {
        let Some(record) = self.record.take() else {
            return Ok(());
        };
        let line = record.line;
        let vector = record.whole(self.order.unwrap_or([0, 1, 2]));
        self.vectors
            .push(vector.map_err(|why| Fault { line, why })?);
        Ok(())
    }
}

impl Record {
    fn whole(self, order: [usize; 3]) -> Result<Vector, String> {
        let missing = |word: &str| format!("a record without {word}");
        let name = self.name.ok_or_else(|| missing("name"))?;
        if let Some(place) = self.bytes.iter().position(Option::is_none) {
            return Err(missing(BYTES[place]));
        }
        let [key, ad, plain, cipher] = self.bytes.map(Option::unwrap_or_default);
        if key.len() != 48 && key.len() != 64 {
            return Err(format!("a key of {} bytes", key.len()));
        }
        if plain.len() != cipher.len() {
            let [plain, cipher] = [plain.len(), cipher.len()];
            return Err(format!("plain of {plain} bytes, cipher of {cipher}"));
        }
        let key = rearranged(&key, order);
        Ok(Vector {
            name,
            key,
            ad,
            plain,
            cipher,
        })
    }
}

/// A key whose fields stand in `order`, in the order Key1, Key2, Key3. The
/// key is of 48 or 64 bytes, and `order` holds 0, 1 and 2.
fn rearranged(key: &[u8], order: [usize; 3]) -> Vec<u8> {
    let mut rest = key;
    let mut fields = [&key[..0]; 3];
    for field in order {
        let length = if field == 0 {
            key.len() - 2 * FIELD
        } else {
            FIELD
        };
        (fields[field], rest) = rest.split_at(length);
    }
    fields.concat()
}

/// Bytes in hexadecimal; there may be spaces between whole bytes.
fn bytes(value: &str) -> Result<Vec<u8>, String> {
    let words: Result<Vec<Vec<u8>>, String> = value.split_whitespace().map(hex).collect();
    Ok(words?.concat())
}
