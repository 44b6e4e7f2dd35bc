//! EF.COM, from document 01, "Stages of a presentation", stage 3, and document 02, request 2026-04; source document 000, 5.1.

use crate::group;
use crate::lds::Lds;
use crate::refusal::Refusal;
use crate::tlv::{tlv, Element, Walk};

/// More tags than this are too many for a list. No list of known tags without a repeat has more.
const MOST: usize = 15;

/// What EF.COM says.
#[derive(Clone, Debug, PartialEq, Eq)]
pub struct Common<'a> {
    pub lds: Lds,
    /// The six digits of the Unicode version.
    pub unicode: &'a [u8],
    /// The tag list.
    pub tags: &'a [u8],
}

/// The EF.COM whose outer element was found.
pub fn read<'a>(lent: &'a [u8], com: &Element) -> Result<Common<'a>, Refusal> {
    let mut walk = Walk::inside(lent, com);
    let version = walk.take(&[0x5f, 0x01])?;
    let lds = Lds::of_told(&lent[version.content.clone()]).ok_or(Refusal::at(11, version.whole.start))?;
    let unicode = walk.take(&[0x5f, 0x36])?;
    content(is_unicode(&lent[unicode.content.clone()]), &unicode)?;
    let list = walk.take(&[0x5c])?;
    listed(lent, &list)?;
    walk.close()?;
    Ok(Common { lds, unicode: &lent[unicode.content], tags: &lent[list.content] })
}

/// 11 at an element whose content is not as it should be.
fn content(right: bool, element: &Element) -> Result<(), Refusal> {
    if right {
        return Ok(());
    }
    Err(Refusal::at(11, element.whole.start))
}

fn is_unicode(digits: &[u8]) -> bool {
    digits.len() == 6 && digits.iter().all(u8::is_ascii_digit)
}

/// Three looks at the whole list: unknown, repeated, too many.
fn listed(lent: &[u8], list: &Element) -> Result<(), Refusal> {
    let tags = &lent[list.content.clone()];
    let unknown = tags.iter().position(|tag| group::of_tag(*tag).is_none());
    let repeated = || (0..tags.len()).find(|at| tags[..*at].contains(&tags[*at]));
    if let Some(at) = unknown.or_else(repeated) {
        return Err(Refusal::at(11, list.content.start + at));
    }
    content(tags.len() <= MOST, list)
}

/// The EF.COM that says these versions and lists these tags.
pub fn write(lds: Lds, unicode: &[u8; 6], tags: &[u8]) -> Vec<u8> {
    let held = [tlv(&[0x5f, 0x01], lds.told()), tlv(&[0x5f, 0x36], unicode), tlv(&[0x5c], tags)];
    tlv(&[0x60], &held.concat())
}

#[cfg(test)]
mod tests {
    use super::*;

    /// Worked out by hand: 60 14; at 2 the version, at 9 the Unicode version, at 18 the list of two.
    const BY_HAND: [u8; 22] = [
        0x60, 0x14, 0x5f, 0x01, 0x04, 0x30, 0x31, 0x30, 0x37, 0x5f, 0x36, 0x06, 0x30, 0x34, 0x30, 0x30, 0x30, 0x30,
        0x5c, 0x02, 0x61, 0x75,
    ];

    fn answer(com: &[u8]) -> Result<Common<'_>, (u32, usize)> {
        let element = Walk::over(com).take(&[0x60]).unwrap();
        read(com, &element).map_err(|refusal| (refusal.number, refusal.place))
    }

    fn with(place: usize, octets: &[u8]) -> Vec<u8> {
        let mut com = BY_HAND.to_vec();
        com[place..place + octets.len()].copy_from_slice(octets);
        com
    }

    #[test]
    fn one_by_hand() {
        assert_eq!(write(Lds::V17, b"040000", &[0x61, 0x75]), BY_HAND);
        let common = Common { lds: Lds::V17, unicode: b"040000", tags: &[0x61, 0x75] };
        assert_eq!(answer(&BY_HAND), Ok(common.clone()));
        let bare = Common { lds: Lds::V17, unicode: b"999999", tags: &[] };
        assert_eq!(answer(&write(Lds::V17, b"999999", &[])), Ok(bare));
        // Only the last octet of the version is another.
        assert_eq!(write(Lds::V18, b"040000", &[0x61, 0x75]), with(8, b"8"));
        assert_eq!(answer(&with(8, b"8")), Ok(Common { lds: Lds::V18, ..common }));
    }

    #[test]
    fn content_of_another_value_or_length() {
        for other in [b"0106", b"0109", b"0207", b"1108", b"1599", b"0170"] {
            assert_eq!(answer(&with(5, other)), Err((11, 2)));
        }
        assert_eq!(answer(&with(17, b":")), Err((11, 9)));
        assert_eq!(answer(&with(12, b"/")), Err((11, 9)));
        // 5F01 of length 5 takes the 5F that follows: well coded, and not the length named.
        assert_eq!(answer(&with(4, &[5])), Err((11, 2)));
        assert_eq!(answer(&with(4, &[3])), Err((11, 2)));
        assert_eq!(answer(&with(11, &[5])), Err((11, 9)));
    }

    #[test]
    fn elements_that_fail() {
        assert_eq!(answer(&with(3, &[0x02])), Err((10, 2)));
        assert_eq!(answer(&with(4, &[0x12])), Err((10, 2)));
        assert_eq!(answer(&with(9, &[0x5c])), Err((10, 9)));
        assert_eq!(answer(&with(18, &[0x5d])), Err((10, 18)));
        assert_eq!(answer(&with(19, &[0x03])), Err((10, 18)));
        // The list ends one octet before EF.COM does.
        assert_eq!(answer(&with(19, &[0x01])), Err((10, 21)));
        // EF.COM ends before an element that should stand there: its end is the place.
        assert_eq!(answer(&[0x60, 0x00]), Err((10, 2)));
        assert_eq!(answer(&[&[0x60, 0x07], &BY_HAND[2..9]].concat()), Err((10, 9)));
        assert_eq!(answer(&[&[0x60, 0x10], &BY_HAND[2..18]].concat()), Err((10, 18)));
    }

    #[test]
    fn lists() {
        let of = |tags: &[u8]| answer(&write(Lds::V17, b"040000", tags)).err();
        assert_eq!(of(&[0x61, 0x66]), Some((11, 21)));
        // The repeated one stands before the unknown one, and is looked for after it.
        assert_eq!(of(&[0x61, 0x61, 0x77]), Some((11, 22)));
        assert_eq!(of(&[0x61, 0x75, 0x75, 0x61]), Some((11, 22)));
        let all: Vec<u8> = group::ALL.into_iter().filter_map(|group| group::tag_of(u32::from(group))).collect();
        assert_eq!(of(&all), None);
        assert_eq!(of(&[&all[..], &[0x70]].concat()), Some((11, 35)));
    }

    #[test]
    fn an_unknown_tag_goes_before_what_is_left_over() {
        let held = [&BY_HAND[2..20], &[0x61, 0x77, 0x00]].concat();
        assert_eq!(answer(&tlv(&[0x60], &held)), Err((11, 21)));
        let held = [&BY_HAND[2..20], &[0x61, 0x75, 0x00]].concat();
        assert_eq!(answer(&tlv(&[0x60], &held)), Err((10, 22)));
    }
}
