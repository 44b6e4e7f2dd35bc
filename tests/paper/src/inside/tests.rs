//! Files by hand, each with the answer that the request's sentences give it.

use super::*;
use crate::tlv::tlv;

/// The number of elements, or the refusal's number and place.
fn answer(file: &[u8]) -> Result<usize, (u32, usize)> {
    read(file).map(|tree| tree.count()).map_err(|refusal| (refusal.number, refusal.place))
}

/// Elements in each other, so many of them, the innermost of 02 00.
fn chain(tag: u8, depth: usize) -> Vec<u8> {
    (1..depth).fold(vec![0x02, 0x00], |inner, turn| tlv(&[if turn + 1 == depth { tag } else { 0x30 }], &inner))
}

#[test]
fn the_file_is_an_element() {
    for tag in (0..=255).filter(|tag| group::of_tag(*tag).is_some()) {
        let expected = if COUNTED.contains(&group::of_tag(tag).unwrap()) { Err((22, 0)) } else { Ok(1) };
        assert_eq!(answer(&[tag, 0x00]), expected);
    }
    assert_eq!(answer(&[]), Err((10, 0)));
    // No group's: EF.COM's tag, that of the reserved group, and a tag of two octets.
    for tag in [0x60, 0x66, 0x77, 0x30, 0x00, 0x1f, 0x7f] {
        assert_eq!(answer(&[tag, 0x00]), Err((10, 0)));
    }
    assert_eq!(answer(&[0x61]), Err((10, 0)));
    assert_eq!(answer(&[0x61, 0x01]), Err((10, 0)));
    assert_eq!(answer(&[0x61, 0x80]), Err((10, 0)));
}

#[test]
fn elements_in_a_row_and_in_each_other() {
    // 61 holds 5F1F of three octets, A0, which holds 02 and 04, and 7F21, which holds nothing.
    let file = [0x61, 16, 0x5f, 0x1f, 3, 1, 2, 3, 0xa0, 5, 0x02, 1, 7, 0x04, 0, 0x7f, 0x21, 0];
    assert_eq!(answer(&file), Ok(6));
    let tree = read(&file).unwrap();
    assert_eq!((tree.depth(), tree.held[1].count(), tree.held[1].element.whole.clone()), (3, 3, 8..15));
    // The first octet left over, once the inside was found right; before that, what is wrong inside.
    assert_eq!(answer(&[&file[..], &[0x00]].concat()), Err((10, 18)));
    let mut wrong = [&file[..], &[0x00]].concat();
    wrong[11] = 2;
    assert_eq!(answer(&wrong), Err((10, 14)));
}

#[test]
fn a_primitive_element_is_not_looked_into() {
    assert_eq!(answer(&[0x6c, 4, 0x0a, 2, 0xff, 0xff]), Ok(2));
    assert_eq!(answer(&[0x6c, 4, 0xa0, 2, 0xff, 0xff]), Err((10, 4)));
    // Bit 32 of the first octet, and not of the second.
    assert_eq!(answer(&[0x6c, 4, 0x5f, 0x21, 1, 0xff]), Ok(2));
    assert_eq!(answer(&[0x6c, 4, 0x7f, 0x01, 1, 0xff]), Err((10, 5)));
}

#[test]
fn tags() {
    for first in 0..=255 {
        let long = first & 0x1f == 0x1f;
        assert_eq!(tag_of(&[first]).map(<[u8]>::len), (!long).then_some(1));
        for second in 0..=255 {
            let length = tag_of(&[first, second, 0]).map(<[u8]>::len);
            assert_eq!(length, if !long { Some(1) } else { (second < 0x80).then_some(2) });
        }
        assert_eq!(is_constructed(&[first]), first / 32 % 2 == 1);
    }
    assert_eq!(tag_of(&[]), None);
    assert_eq!(answer(&[0x61, 3, 0x1f, 0x7f, 0]), Ok(2));
    assert_eq!(answer(&[0x61, 3, 0x1f, 0x80, 0]), Err((10, 2)));
    assert_eq!(answer(&[0x61, 1, 0x1f]), Err((10, 2)));
    // The second octet stands behind the file, and is not the element's.
    assert_eq!(answer(&[0x61, 1, 0x5f, 0x1f]), Err((10, 2)));
}

#[test]
fn an_element_ends_within_its_holder() {
    assert_eq!(answer(&[0x61, 4, 0x30, 2, 0x02, 0]), Ok(3));
    // 30 ends at 5, and 02 01 needs one octet more, which the file has.
    assert_eq!(answer(&[0x61, 5, 0x30, 2, 0x02, 1, 0]), Err((10, 4)));
    assert_eq!(answer(&[0x61, 5, 0x30, 3, 0x02, 1, 0]), Ok(3));
    // A length of another form than the shortest.
    assert_eq!(answer(&[0x61, 4, 0x02, 0x81, 1, 0]), Err((10, 2)));
    // One octet left over at the end of a holder is an element that is cut off.
    assert_eq!(answer(&[0x61, 4, 0x30, 1, 0x02, 0]), Err((10, 4)));
}

#[test]
fn depth() {
    for depth in 2..=8 {
        assert_eq!(answer(&chain(0x61, depth)), Ok(depth));
        assert_eq!(read(&chain(0x61, depth)).unwrap().depth(), depth);
    }
    // Each tag and length is two octets, so the ninth stands at 16.
    assert_eq!(answer(&chain(0x61, 9)), Err((21, 16)));
    assert_eq!(answer(&chain(0x61, 20)), Err((21, 16)));
    // 10 before 21 at the ninth, and 21 before whatever stands inside it or behind it.
    let mut wrong = chain(0x61, 9);
    wrong[17] = 1;
    assert_eq!(answer(&wrong), Err((10, 16)));
    let mut wrong = chain(0x61, 10);
    wrong[19] = 1;
    assert_eq!(answer(&wrong), Err((21, 16)));
    // A 10 that stands before it.
    let mut wrong = chain(0x61, 9);
    wrong[15] = 3;
    assert_eq!(answer(&wrong), Err((10, 14)));
    // The eighth may be constructed, as long as it holds nothing.
    let empty = (1..7).fold(vec![0x30, 0x00], |inner, _| tlv(&[0x30], &inner));
    assert_eq!(answer(&tlv(&[0x61], &empty)), Ok(8));
}

#[test]
fn group_13_is_one_element() {
    assert_eq!(answer(&[0x6d, 3, 0xff, 0xff, 0xff]), Ok(1));
    assert_eq!(answer(&tlv(&[0x6d], &chain(0x61, 12))), Ok(1));
    assert_eq!(answer(&[0x6d, 3, 0xff, 0xff]), Err((10, 0)));
    assert_eq!(answer(&[0x6d, 1, 0xff, 0xff]), Err((10, 3)));
}

/// 7F61 with a count and so many templates, each holding A1.
fn of_templates(count: u8, templates: usize) -> Vec<u8> {
    let each = tlv(&TEMPLATE, &[0xa1, 0x00]);
    tlv(&OF_TEMPLATES, &[tlv(&COUNT, &[count]), each.repeat(templates)].concat())
}

#[test]
fn counts() {
    for (tag, none) in [(0x75, Err((22, 2))), (0x63, Ok(3)), (0x76, Ok(3))] {
        assert_eq!(answer(&tlv(&[tag], &of_templates(0, 0))), none);
        assert_eq!(answer(&tlv(&[tag], &of_templates(1, 1))), Ok(5));
        assert_eq!(answer(&tlv(&[tag], &of_templates(2, 2))), Ok(7));
        assert_eq!(answer(&tlv(&[tag], &of_templates(1, 2))), Err((22, 2)));
        assert_eq!(answer(&tlv(&[tag], &of_templates(2, 1))), Err((22, 2)));
        // An unsigned octet.
        assert_eq!(answer(&tlv(&[tag], &of_templates(128, 128))), Ok(3 + 256));
        assert_eq!(answer(&tlv(&[tag], &of_templates(255, 255))), Ok(3 + 510));
        // 256 templates are not 0.
        assert_eq!(answer(&tlv(&[tag], &of_templates(0, 256))).unwrap_err().0, 22);
        assert_eq!(answer(&[tag, 0]), Err((22, 0)));
    }
    // In no other group is anything counted.
    assert_eq!(answer(&tlv(&[0x65], &of_templates(7, 1))), Ok(5));
}

#[test]
fn which_templates_are_counted() {
    let in_file = |parts: &[&[u8]]| answer(&tlv(&[0x75], &parts.concat()));
    let (one, wrong) = (of_templates(1, 1), of_templates(2, 1));
    // Other elements may stand in the file, and the first 7F61 decides: at its tag, behind 53 and its two octets.
    assert_eq!(in_file(&[&[0x53, 2, 7, 8], &one, &wrong]), Ok(1 + 1 + 4 + 4));
    assert_eq!(in_file(&[&[0x53, 2, 7, 8], &wrong, &one]), Err((22, 6)));
    // Only one that stands directly in the file.
    assert_eq!(in_file(&[&tlv(&[0x30], &one)]), Err((22, 0)));
    assert_eq!(in_file(&[&tlv(&[0x30], &wrong), &one]), Ok(1 + 5 + 4));
    // Only templates that stand directly in 7F61, wherever behind the count.
    let held = |parts: &[&[u8]]| in_file(&[&tlv(&OF_TEMPLATES, &parts.concat())]);
    let template = [0x7f, 0x60, 0x00];
    assert_eq!(held(&[&[0x02, 1, 1], &tlv(&[0x30], &template), &template, &[0x53, 0]]), Ok(7));
    assert_eq!(held(&[&[0x02, 1, 2], &tlv(&TEMPLATE, &template)]), Err((22, 2)));
    // The count stands first, is tagged 02 and has one octet.
    assert_eq!(held(&[&template, &[0x02, 1, 1]]), Err((22, 2)));
    assert_eq!(held(&[&[0x02, 2, 0, 1], &template]), Err((22, 2)));
    assert_eq!(held(&[&[0x02, 0], &template]), Err((22, 2)));
    assert_eq!(held(&[&[0x0a, 1, 1], &template]), Err((22, 2)));
    assert_eq!(held(&[]), Err((22, 2)));
    // A second count is another element.
    assert_eq!(held(&[&[0x02, 1, 1], &[0x02, 1, 2], &template]), Ok(5));
}

#[test]
fn after_all_of_10_and_21() {
    // 75 and 7F61 with their lengths, the count, and a template of five octets: the file has 13.
    let wrong = of_templates(2, 1);
    assert_eq!(answer(&[&tlv(&[0x75], &wrong)[..], &[0x00]].concat()), Err((10, 13)));
    assert_eq!(answer(&tlv(&[0x75], &[&wrong[..], &[0x02, 0x01]].concat())), Err((10, 13)));
    let deep = (0..8).fold(Vec::new(), |inner, _| tlv(&[0x30], &inner));
    assert_eq!(answer(&tlv(&[0x75], &[&wrong[..], &deep].concat())), Err((21, 13 + 14)));
}

/// The longest file, and one octet more than any can have.
#[test]
fn the_longest() {
    let longest = tlv(&[0x61], &[0x02, 0x00].repeat(LONGEST / 2)[..65_534]);
    assert_eq!(answer(&longest), Ok(1 + 32_767));
    let longest = tlv(&[0x61], &[&[0x02, 0x01, 0x00][..], &[0x02, 0x00].repeat(32_766)].concat());
    assert_eq!((longest.len(), answer(&longest)), (LONGEST, Ok(1 + 1 + 32_766)));
    assert_eq!(answer(&[&longest[..], &[0x02]].concat()), Err((10, LONGEST)));
}
