//! Why there is no answer. The statuses are those of the programs in C: the
//! number of a refusal, 102 for wrong usage, 104 for a file.

use std::io;
use std::process::ExitCode;

const USAGE: &str = "usage: lesson blocks BYTES
       lesson error short-block|new-mask|associated-data KEYFILE [--ad FILE] <MESSAGE
       lesson --version";

/// Why there is no answer.
pub enum Trouble {
    /// A number of 01's table.
    Refused(u32),
    /// The words of the command line make no sense.
    Usage,
    /// A file, and what is the matter with it.
    File(String, io::Error),
}

impl Trouble {
    /// Says what it is, and gives the status to end with.
    pub fn tell(&self) -> ExitCode {
        match self {
            Trouble::Refused(number) => {
                eprintln!("lesson: refused with {number}");
                u8::try_from(*number).map_or(ExitCode::FAILURE, ExitCode::from)
            }
            Trouble::Usage => {
                eprintln!("{USAGE}");
                ExitCode::from(102)
            }
            Trouble::File(name, error) => {
                eprintln!("lesson: {name}: {error}");
                ExitCode::from(104)
            }
        }
    }
}
