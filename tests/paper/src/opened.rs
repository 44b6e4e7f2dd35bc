//! What an entry holds, field by field, as it passes to C. Document 01 has the blank record of a refusal (TD1, fillers,
//! lengths 0), and the numbers of the forms in an entry (TD1 0, TD2 1, TD3 2); document 02, request 2026-05, has those of the
//! visas, "form 3 and 4", and request 2026-06 the issuer's data, of which the longest are MRV-A's sixteen characters.

use crate::field::FILLER;
use crate::record::Record;
use std::fmt;

/// Number 0, the house and the fields of the record; or 18, house 0 and those of the blank record.
#[repr(C)]
#[derive(Clone, Copy, Debug, PartialEq, Eq)]
pub struct Opened {
    pub number: u32,
    pub house: u32,
    pub form: u8,
    pub sex: u8,
    pub document_number_len: u8,
    pub name_len: u8,
    pub code: [u8; 2],
    pub state: [u8; 3],
    pub nationality: [u8; 3],
    pub birth: [u8; 6],
    pub expiry: [u8; 6],
    pub document_number: [u8; 22],
    pub name: [u8; 39],
    pub data_len: u8,
    pub data: [u8; 16],
}

impl Opened {
    pub const REFUSED: Opened = Opened {
        number: 18,
        house: 0,
        form: 0,
        sex: FILLER,
        document_number_len: 0,
        name_len: 0,
        code: [FILLER; 2],
        state: [FILLER; 3],
        nationality: [FILLER; 3],
        birth: [FILLER; 6],
        expiry: [FILLER; 6],
        document_number: [FILLER; 22],
        name: [FILLER; 39],
        data_len: 0,
        data: [FILLER; 16],
    };

    /// Of a sound record, whose number, name and data fit.
    pub fn of(house: u32, record: &Record) -> Opened {
        Opened {
            number: 0,
            house,
            form: record.form as u8,
            sex: record.sex,
            document_number_len: record.number.len() as u8,
            name_len: record.name.len() as u8,
            code: record.code,
            state: record.state,
            nationality: record.nationality,
            birth: record.birth,
            expiry: record.expiry,
            document_number: filled(&record.number),
            name: filled(&record.name),
            data_len: record.data.len() as u8,
            data: filled(&record.data),
        }
    }
}

/// Fillers behind the characters.
fn filled<const LENGTH: usize>(characters: &[u8]) -> [u8; LENGTH] {
    let mut field = [FILLER; LENGTH];
    field[..characters.len()].copy_from_slice(characters);
    field
}

impl fmt::Display for Opened {
    fn fmt(&self, to: &mut fmt::Formatter) -> fmt::Result {
        let shown = |field: &[u8]| field.escape_ascii().to_string();
        write!(to, "number {}, house {}, form {}, sex {}", self.number, self.house, self.form, shown(&[self.sex]))?;
        write!(to, ", code {}, state {}", shown(&self.code), shown(&self.state))?;
        write!(to, ", document number {}, its length {}", shown(&self.document_number), self.document_number_len)?;
        write!(to, ", nationality {}", shown(&self.nationality))?;
        write!(to, ", birth {}, expiry {}", shown(&self.birth), shown(&self.expiry))?;
        write!(to, ", name {}, its length {}", shown(&self.name), self.name_len)?;
        write!(to, ", data {}, its length {}", shown(&self.data), self.data_len)
    }
}

#[cfg(test)]
mod tests {
    use super::*;
    use std::ptr::addr_of;

    /// What was there before stands where it stood; 110 octets, and then to the next multiple of 4.
    #[test]
    fn as_large_as_in_c() {
        let opened = Opened::REFUSED;
        let fields =
            [addr_of!(opened.name) as usize, addr_of!(opened.data_len) as usize, addr_of!(opened.data) as usize];
        assert_eq!(fields.map(|field| field - addr_of!(opened) as usize), [54, 93, 94]);
        assert_eq!((std::mem::size_of::<Opened>(), std::mem::align_of::<Opened>()), (112, 4));
    }
}
