//! Vectors of EME2-AES: the files of `vectors/eme2`, in the form that its
//! `README.md` describes. Whoever writes a file is told what is wrong with it
//! and where, so nothing here panics, and nothing is passed over in silence.

mod parse;

pub use parse::{parse, Fault};
use std::fs;
use std::path::{Path, PathBuf};

/// The one file of the folder that holds no vectors.
const MANUAL: &str = "README.md";

/// A known answer of EME2-AES.
#[derive(Clone, Debug, Eq, PartialEq)]
pub struct Vector {
    /// What its source calls it.
    pub name: String,
    /// 48 or 64 bytes: Key1, Key2, Key3, whatever their order in the file.
    pub key: Vec<u8>,
    /// The associated data, which may be empty.
    pub ad: Vec<u8>,
    /// The message in clear.
    pub plain: Vec<u8>,
    /// The message enciphered; as long as in clear.
    pub cipher: Vec<u8>,
}

/// The vectors of one source.
#[derive(Clone, Debug)]
pub struct File {
    /// Its name in the folder.
    pub name: String,
    /// At least one.
    pub vectors: Vec<Vector>,
}

/// EME2-AES under a key, deciphering where the second argument is true, of
/// associated data and a message: the number answered, and the message after.
pub type Call<'a> = &'a dyn Fn(&[u8], bool, &[u8], &[u8]) -> (u32, Vec<u8>);

impl Vector {
    /// Tries it both ways.
    ///
    /// # Errors
    ///
    /// The way in which the call gives something else, in words.
    pub fn check(&self, call: Call) -> Result<(), String> {
        for (back, way, before, wanted) in [
            (false, "enciphering", &self.plain, &self.cipher),
            (true, "deciphering", &self.cipher, &self.plain),
        ] {
            let (number, after) = call(&self.key, back, &self.ad, before);
            if number != 0 {
                return Err(format!("{way} is refused with {number}"));
            }
            if after.len() != wanted.len() {
                return Err(format!("{way} gives {} bytes", after.len()));
            }
            if let Some(place) = (0..after.len()).find(|i| after[*i] != wanted[*i]) {
                return Err(format!("{way} gives another byte at place {place}"));
            }
        }
        Ok(())
    }
}

/// Where the repository keeps its files of vectors.
#[must_use]
pub fn folder() -> PathBuf {
    Path::new(env!("CARGO_MANIFEST_DIR")).join("../../../vectors/eme2")
}

/// Every file of a folder but its manual, by name.
///
/// # Errors
///
/// The file and what is wrong with it: it cannot be read, a line is not
/// understood, or it has no vector. A folder without a file is an error too.
pub fn files(folder: &Path) -> Result<Vec<File>, String> {
    let said = |e: std::io::Error| format!("{}: {e}", folder.display());
    let mut names = Vec::new();
    for entry in fs::read_dir(folder).map_err(said)? {
        let name = entry.map_err(said)?.file_name();
        if name != MANUAL {
            names.push(name.to_string_lossy().into_owned());
        }
    }
    if names.is_empty() {
        return Err(format!("{}: no file of vectors", folder.display()));
    }
    names.sort();
    names.into_iter().map(|name| file(folder, name)).collect()
}

fn file(folder: &Path, name: String) -> Result<File, String> {
    let text = fs::read_to_string(folder.join(&name)).map_err(|e| format!("{name}: {e}"))?;
    let vectors = parse(&text).map_err(|fault| format!("{name}: {fault}"))?;
    if vectors.is_empty() {
        return Err(format!("{name}: no vector"));
    }
    Ok(File { name, vectors })
}

#[cfg(test)]
mod tests;
