//! What EF.COM and the security object say of their versions, in presentations that are sound but for that.

use crate::cases::damage;
use crate::cases::presentations::strings;
use crate::cases::trees::Held;
use shared::seeds::Seeds;

const TOLD: [&[u8]; 5] = [b"0107", b"0108", b"0106", b"0109", b"010"];
const NUMBERS: [u8; 4] = [0, 1, 2, 255];
const UNICODE: &[u8] = b"040000";
/// EF.COM's, others', shorter, longer, empty, not printable.
const TEXTS: [&[u8]; 9] = [b"0108", b"0107", UNICODE, b"050000", b"", b"010", b"01080", b"040000\0", b"\x80108"];

/// EF.COM's version, the object's, and its two strings where it has them.
pub struct Said {
    told: &'static [u8],
    number: u8,
    texts: Option<[&'static [u8]; 2]>,
}

/// What else is wrong.
#[derive(Clone, Copy)]
pub enum Spoilt {
    Nothing,
    /// In stage 3: EF.COM's Unicode version.
    Unicode,
    /// In stage 4: an entry's number, and what is behind all.
    Repeated,
    LeftOver,
    /// In stage 5.
    Unlisted,
}

impl Spoilt {
    pub const ALL: [Spoilt; 5] =
        [Spoilt::Nothing, Spoilt::Unicode, Spoilt::Repeated, Spoilt::LeftOver, Spoilt::Unlisted];
}

/// Each of all these with each other.
pub fn all() -> Vec<Said> {
    let pairs = TEXTS.iter().flat_map(|lds| TEXTS.map(|unicode| Some([*lds, unicode])));
    let pairs: Vec<_> = pairs.chain([None]).collect();
    let versions = TOLD.iter().flat_map(|told| NUMBERS.map(|number| (*told, number)));
    versions.flat_map(|(told, number)| pairs.iter().map(move |texts| Said { told, number, texts: *texts })).collect()
}

impl Said {
    pub fn presentation(&self, seeds: &mut Seeds, spoilt: Spoilt) -> Vec<u8> {
        let mut tree = damage::sample(seeds);
        let mut set = |path: &[usize], octets: &[u8]| tree.at(path).unwrap().held = Held::Octets(octets.to_vec());
        set(&[0, 0], self.told);
        set(&[0, 1], UNICODE);
        set(&[1, 0], &[self.number]);
        match spoilt {
            Spoilt::Nothing | Spoilt::LeftOver => {}
            Spoilt::Unicode => set(&[0, 1], b"04000A"),
            Spoilt::Repeated => set(&[1, 2, 2, 0], &[1]),
            Spoilt::Unlisted => set(&[0, 2], &[0x75]),
        }
        let object = tree.at(&[1]).unwrap();
        object.trees_mut().unwrap().extend(self.texts.map(|[lds, unicode]| strings(lds, unicode)));
        if matches!(spoilt, Spoilt::LeftOver) {
            object.over = vec![0x05, 0x00];
        }
        tree.encoded()
    }
}

#[cfg(test)]
mod tests {
    use super::*;
    use paper::presentation;

    /// Of all of them just two agree: `0107` with version 0, `0108` with version 1 and EF.COM's strings.
    #[test]
    fn two_agree() {
        let mut seeds = Seeds::new(1);
        let read = |said: &&Said| presentation::read(&said.presentation(&mut seeds, Spoilt::Nothing)).is_ok();
        let all = all();
        let accepted: Vec<&Said> = all.iter().filter(read).collect();
        assert_eq!(accepted.len(), 2);
        assert_eq!((accepted[0].told, accepted[0].number, accepted[0].texts), (TOLD[0], 0, None));
        assert_eq!((accepted[1].told, accepted[1].number, accepted[1].texts), (TOLD[1], 1, Some([TOLD[1], UNICODE])));
    }
}
