//! The events of a trace.

use std::fmt;

/// A whole call, with all that it is given.
#[derive(Clone)]
pub enum Event {
    Read {
        sheet: u32,
        buffer: Vec<u8>,
    },
    Add {
        sheet: u32,
        text: Vec<u8>,
    },
    /// A sheet taken over: the unit that was made of a text, if its key and its
    /// length are such that one is made.
    Convert {
        sheet: u32,
        key: Vec<u8>,
        number: u64,
        unit: Vec<u8>,
        text: Vec<u8>,
    },
    Revise {
        sheet: u32,
        seen: u32,
        text: Vec<u8>,
    },
    Remove {
        sheet: u32,
    },
    /// A step of a copy of the job, by value or with its job lent. The copy
    /// after the last is a new one.
    Step {
        copy: usize,
        lent: bool,
    },
}

impl Event {
    /// The call.
    pub fn name(&self) -> &'static str {
        match self {
            Self::Read { .. } => "read",
            Self::Add { .. } => "add",
            Self::Convert { .. } => "convert",
            Self::Revise { .. } => "revise",
            Self::Remove { .. } => "remove",
            Self::Step { .. } => "step",
        }
    }
}

impl fmt::Display for Event {
    fn fmt(&self, f: &mut fmt::Formatter<'_>) -> fmt::Result {
        match self {
            Self::Read { sheet, buffer } => {
                write!(f, "read sheet {sheet} into {} bytes", buffer.len())
            }
            Self::Add { sheet, text } => write!(f, "add sheet {sheet} of {} bytes", text.len()),
            Self::Convert {
                sheet, key, unit, ..
            } => {
                let [key, unit] = [key, unit].map(Vec::len);
                write!(f, "convert {unit} bytes to sheet {sheet}, key of {key}")
            }
            Self::Revise { sheet, seen, text } => {
                let length = text.len();
                write!(f, "revise sheet {sheet}, seen at {seen}, to {length} bytes")
            }
            Self::Remove { sheet } => write!(f, "remove sheet {sheet}"),
            Self::Step { copy, lent } => write!(f, "step of copy {copy}, job lent: {lent}"),
        }
    }
}
