//! Lists by hand, each with the answer that the request's sentences give it.

use super::*;
use crate::record::Record;
use crate::{specimens, text};

/// T3 under another number.
fn numbered(number: &str) -> Record {
    Record { number: number.as_bytes().to_vec(), ..text::read(specimens::T3.as_bytes()).unwrap() }
}

fn of(house: u32, number: &str) -> Vec<u8> {
    entry::write(house, &numbered(number))
}

/// The number of entries, or the refusal's number and place.
fn answer(list: &[u8]) -> Result<usize, (u32, usize)> {
    read(list).map(|lines| lines.len()).map_err(|refusal| (refusal.number, refusal.place))
}

fn stretch(list: &[u8], house: u32) -> Range<usize> {
    let Stretch { start, length } = house_entries(list, house);
    start as usize..(start + length) as usize
}

#[test]
fn of_no_entry_of_one_and_of_two() {
    let (a, b) = (of(1, "A"), of(1, "B"));
    assert_eq!(answer(&[]), Ok(0));
    assert_eq!(answer(&a), Ok(1));
    assert_eq!(answer(&[&a[..], &b].concat()), Ok(2));
    assert_eq!(answer(&[&b[..], &a].concat()), Err((23, b.len())));
    assert_eq!(answer(&[&a[..], &a].concat()), Err((23, a.len())));
}

/// "each key is below the next": what follows the key decides nothing.
#[test]
fn equal_keys() {
    let (short, long) = (numbered("A"), Record { name: b"NORD".to_vec(), data: b"1".to_vec(), ..numbered("A") });
    let (a, b) = (entry::write(1, &short), entry::write(1, &long));
    assert_eq!(a[..KEY], b[..KEY]);
    assert_ne!(a, b);
    assert_eq!(answer(&[&a[..], &b].concat()), Err((23, a.len())));
    assert_eq!(answer(&[&b[..], &a].concat()), Err((23, b.len())));
}

/// The thirtieth octet, in which the expiry ends, is the key's last.
#[test]
fn keys_to_their_last_octet() {
    let day = |expiry: &[u8; 6]| entry::write(1, &Record { expiry: *expiry, ..numbered("A") });
    let (a, b) = (day(b"300628"), day(b"300629"));
    assert_eq!(a[..KEY - 1], b[..KEY - 1]);
    assert!(a[KEY - 1] < b[KEY - 1]);
    assert_eq!(answer(&[&a[..], &b].concat()), Ok(2));
    assert_eq!(answer(&[&b[..], &a].concat()), Err((23, b.len())));
}

/// "compared as unsigned bytes": from house 16,384 on the first octet has its highest bit set.
#[test]
fn octets_without_a_sign() {
    let (low, high) = (of(16_383, "A"), of(16_384, "A"));
    assert_eq!((low[0], high[0]), (0x7f, 0x80));
    assert_eq!(answer(&[&low[..], &high].concat()), Ok(2));
    assert_eq!(answer(&[&high[..], &low].concat()), Err((23, high.len())));
}

/// "per entry from the left, 18, then 23".
#[test]
fn whichever_comes_first() {
    let (a, b, c) = (of(1, "A"), of(1, "B"), of(1, "C"));
    let mut broken = a.clone();
    broken[0] = 0;
    broken[1] = 0;
    // No entry, and its key not above the one before: 18. Then 23 before an 18 further right, and the other way round.
    assert_eq!(answer(&[&b[..], &broken].concat()), Err((18, b.len())));
    assert_eq!(answer(&[&b[..], &a, &broken].concat()), Err((23, b.len())));
    assert_eq!(answer(&[&b[..], &broken, &a].concat()), Err((18, b.len())));
    assert_eq!(answer(&[&broken[..], &b].concat()), Err((18, 0)));
    assert_eq!(answer(&[&a[..], &b, &c[..c.len() - 1]].concat()), Err((18, a.len() + b.len())));
    assert_eq!(answer(&[&a[..], &c, &b, &c].concat()), Err((23, a.len() + c.len())));
    assert_eq!(answer(&[0]), Err((18, 0)));
}

#[test]
fn the_entries_of_a_house() {
    let houses = [1, 7, 7, 7, 300, 16_384, 32_767, 32_767];
    let entries: Vec<Vec<u8>> = houses.iter().zip("ABCDEFGH".chars()).map(|(h, c)| of(*h, &c.to_string())).collect();
    let list = entries.concat();
    let length = entries[0].len();
    assert!(entries.iter().all(|entry| entry.len() == length));
    assert_eq!(answer(&list), Ok(8));
    for (house, places) in [(1, 0..1), (7, 1..4), (300, 4..5), (16_384, 5..6), (32_767, 6..8)] {
        assert_eq!(stretch(&list, house), places.start * length..places.end * length);
        assert_eq!(list[stretch(&list, house)], entries[places].concat());
    }
    // None of theirs, and no houses.
    for house in [2, 6, 8, 299, 32_766, 0, 32_768, 32_769, 65_543, u32::MAX] {
        assert_eq!(house_entries(&list, house), Stretch::EMPTY);
    }
    assert_eq!(house_entries(&[], 1), Stretch::EMPTY);
}

/// A list that is refused has no stretch of any house, wherever it is refused.
#[test]
fn of_a_refused_list_nothing() {
    let (a, b, c) = (of(1, "A"), of(2, "B"), of(3, "C"));
    for refused in [[&a[..], &c, &b].concat(), [&a[..], &b, &c[1..]].concat(), [&a[1..], &b, &c].concat()] {
        assert!(answer(&refused).is_err());
        assert!((0..5).all(|house| house_entries(&refused, house) == Stretch::EMPTY));
    }
}
