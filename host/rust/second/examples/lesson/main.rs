//! The program `lesson` of docs/LESSONS.md, over the second implementation:
//! how a message is cut into blocks, and what becomes of it where an error
//! that learners make (01) is made on purpose.

mod blocks;
mod errors;
mod trouble;

use errors::{error_named, Lesson};
use std::fs;
use std::io::{self, Read};
use std::process::ExitCode;
use trouble::Trouble;

/// The bytes of a file.
fn file(name: &str) -> Result<Vec<u8>, Trouble> {
    fs::read(name).map_err(|error| Trouble::File(name.to_owned(), error))
}

/// An error by its name, made on the message on standard input.
fn error(name: &str, key: &str, ad: Option<&str>) -> Result<String, Trouble> {
    let (slip, words) = error_named(name).ok_or(Trouble::Usage)?;
    let key = file(key)?;
    let ad = ad.map_or(Ok(Vec::new()), file)?;
    let mut text = Vec::new();
    io::stdin()
        .read_to_end(&mut text)
        .map_err(|error| Trouble::File("standard input".to_owned(), error))?;
    let report = Lesson { slip, key, ad }.report(&text)?;
    Ok(format!("error: {words}\n{report}"))
}

/// The version of library and programs, which stands in the header alone.
fn version() -> &'static str {
    let header = include_str!("../../../../include/lagunedo.h");
    let (_, rest) = header
        .split_once("#define LAGUNEDO_VERSION \"")
        .expect("the header has the version");
    rest.split_once('"').map_or(rest, |(version, _)| version)
}

/// What is printed for the words of the command line.
fn answer(words: &[&str]) -> Result<String, Trouble> {
    match words {
        ["--version"] => Ok(format!("lesson (Lagunedo) {}\n", version())),
        ["blocks", length] => blocks::cut(length.parse().map_err(|_| Trouble::Usage)?),
        ["error", name, key] => error(name, key, None),
        ["error", name, key, "--ad", ad] => error(name, key, Some(ad)),
        _ => Err(Trouble::Usage),
    }
}

fn main() -> ExitCode {
    let words: Vec<String> = std::env::args().skip(1).collect();
    let words: Vec<&str> = words.iter().map(String::as_str).collect();
    match answer(&words) {
        Ok(text) => {
            print!("{text}");
            ExitCode::SUCCESS
        }
        Err(trouble) => trouble.tell(),
    }
}
