//! The plain list of demand 3, from 01 alone: a place for each slot, which
//! holds nothing or a sheet number, a revision and a text in clear. It has no
//! keys and no marks, and a step of the job does nothing to it.
//!
//! Each call tests what 01's order for it has, but for what needs a key or a
//! store of a wrong length or an unsound slot (1, 4, 12, 14).

use lagunedo::{Found, Refusal};

/// The revision after which there is none.
const LAST_REVISION: u32 = 4_294_967_295;

/// Lengths of a text.
pub const SHORTEST: usize = 16;
pub const LONGEST: usize = 2_096;

#[derive(Clone, Debug, Eq, PartialEq)]
pub struct Sheet {
    pub number: u32,
    pub revision: u32,
    pub text: Vec<u8>,
}

#[derive(Clone, Debug, Eq, PartialEq)]
pub struct List {
    pub places: Vec<Option<Sheet>>,
}

/// 01: "Add and revise answer the revision now stored; remove answers 0."
type Answer = Result<u32, Refusal>;

impl List {
    pub fn read(&self, number: u32, buffer: &mut [u8]) -> Result<Found, Refusal> {
        asked(number)?;
        let (_, sheet) = self.found(number).ok_or(Refusal::NoSheet)?;
        let front = buffer.get_mut(..sheet.text.len());
        let front = front.ok_or(Refusal::BufferLength)?;
        front.copy_from_slice(&sheet.text);
        Ok(Found {
            length: sheet.text.len() as u32,
            revision: sheet.revision,
        })
    }

    pub fn add(&mut self, number: u32, text: &[u8]) -> Answer {
        asked(number)?;
        fits(text)?;
        if self.found(number).is_some() {
            return Err(Refusal::SheetPresent);
        }
        let lowest = self.places.iter().position(Option::is_none);
        let place = lowest.ok_or(Refusal::NoFreeSlot)?;
        Ok(self.put(place, number, 1, text))
    }

    /// 02, order 3: an add of what the unit deciphers to, if the lengths of its
    /// key and of the unit are taken.
    pub fn convert(&mut self, key: &[u8], unit: &[u8], number: u32, text: &[u8]) -> Answer {
        if key.len() != 32 && key.len() != 64 {
            return Err(Refusal::XtsKeyLength);
        }
        if !(16..=65_536).contains(&unit.len()) {
            return Err(Refusal::UnitLength);
        }
        self.add(number, text)
    }

    pub fn revise(&mut self, number: u32, seen: u32, text: &[u8]) -> Answer {
        asked(number)?;
        fits(text)?;
        let (place, sheet) = self.found(number).ok_or(Refusal::NoSheet)?;
        if sheet.revision != seen {
            return Err(Refusal::OtherRevision);
        }
        if sheet.revision == LAST_REVISION {
            return Err(Refusal::LastRevision);
        }
        Ok(self.put(place, number, seen + 1, text))
    }

    pub fn remove(&mut self, number: u32) -> Answer {
        asked(number)?;
        let (place, _) = self.found(number).ok_or(Refusal::NoSheet)?;
        self.places[place] = None;
        Ok(0)
    }

    /// The lowest place with the number, and what it holds.
    pub fn found(&self, number: u32) -> Option<(usize, &Sheet)> {
        let places = self.places.iter().enumerate();
        let mut sheets = places.filter_map(|(place, sheet)| Some((place, sheet.as_ref()?)));
        sheets.find(|(_, sheet)| sheet.number == number)
    }

    fn put(&mut self, place: usize, number: u32, revision: u32, text: &[u8]) -> u32 {
        self.places[place] = Some(Sheet {
            number,
            revision,
            text: text.to_vec(),
        });
        revision
    }
}

fn asked(number: u32) -> Result<(), Refusal> {
    if number == 0 {
        return Err(Refusal::SheetZero);
    }
    Ok(())
}

fn fits(text: &[u8]) -> Result<(), Refusal> {
    if !(SHORTEST..=LONGEST).contains(&text.len()) {
        return Err(Refusal::TextLength);
    }
    Ok(())
}
