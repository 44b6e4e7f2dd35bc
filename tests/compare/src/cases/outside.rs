//! Presentations whose security object and group files were made by OpenSSL's DER encoder, each with the answer that
//! document 01 or, of LDS 1.8, document 02 (2026-04) gives it. `vectors/` has them beside the configurations that made
//! them, and `remake.sh`, which makes them again.
//!
//! EF.COM has 23 octets and lists groups 1, 2 and 16, so the object begins at 23. It says 0108 in those whose names begin
//! with v1, and in version-2; in all others 0107. The offsets in the object are those that
//! `openssl asn1parse` prints (`remake.sh list`).

use crate::cases::vector::{octets, refused, Vector};
use paper::refusal::Refusal;

/// Where the object begins.
const OBJECT: usize = 23;

macro_rules! vector {
    ($name:literal, $refusal:expr) => {
        Vector {
            name: $name,
            octets: octets(include_str!(concat!("../../vectors/", $name, ".hex"))),
            refusal: $refusal,
        }
    };
}

pub fn all() -> Vec<Vector> {
    let older = accepted().into_iter().chain(refused_in_the_object()).chain(refused_behind_the_object());
    older.chain(versions()).chain(strings()).collect()
}

fn accepted() -> Vec<Vector> {
    vec![
        // Every stage passes.
        vector!("two-entries", None),
        // "alone or followed by 05 00": alone. No order of entries is named, and 14 is about groups that are lent: a listed
        // group need not be.
        vector!("no-parameters", None),
        // "a one-octet integer 1-16", 6 among them; 16 entries are not more than 16. "In lent order" names no order.
        vector!("sixteen-entries", None),
    ]
}

fn refused_in_the_object() -> Vec<Vector> {
    vec![
        // "AlgorithmIdentifier of SHA-256 .., else 13", at its tag.
        vector!("sha-1", refused(13, OBJECT + 5)),
        // "exactly 06 .. 01, alone or followed by 05 00": 30 00 follows.
        vector!("other-parameters", refused(13, OBJECT + 5)),
        // "version 0 has no such sequence (else 10)": at the first octet left over, which is the first behind the list.
        vector!("versions-behind", refused(10, OBJECT + 100)),
        // "a one-octet integer 1-16 .., else 12 at the bad element": 17, then 128 in two octets, then 0.
        vector!("number-17", refused(12, OBJECT + 64)),
        vector!("number-128", refused(12, OBJECT + 64)),
        vector!("number-0", refused(12, OBJECT + 103)),
        // "then fewer than 2 .. (12 at the list)".
        vector!("one-entry", refused(12, OBJECT + 20)),
        vector!("no-entry", refused(12, OBJECT + 20)),
        // "a repeated number (12 at its integer)": the one that repeats, although the first of the two is right.
        vector!("repeated-entry", refused(12, OBJECT + 103)),
        // "an octet string of 32, else 12 at the bad element", also for a group that is not lent.
        vector!("long-digest", refused(12, OBJECT + 107)),
        // An entry is a sequence of two: 10 at the first octet left over in it.
        vector!("three-in-an-entry", refused(10, OBJECT + 100)),
        // "tags as named": 10 at the tag of the element that should stand there: A0 for 30, 0A for 02, 31 for 30.
        vector!("tagged-algorithm", refused(10, OBJECT + 5)),
        vector!("enumerated-number", refused(10, OBJECT + 63)),
        vector!("set-of-entries", refused(10, OBJECT + 20)),
    ]
}

fn refused_behind_the_object() -> Vec<Vector> {
    vec![
        // "here it too needs an entry": 14 at the file's start, behind group 2.
        vector!("group-16-without-entry", refused(14, 226)),
        // "The digest is over the whole file, tag and length included": 15 at the file's start, behind the object's 100.
        vector!("digest-of-the-inside", refused(15, 123)),
        // "No group 1: 14, its place the presentation's length", after the files that are lent were found right.
        vector!("no-group-1", refused(14, 273)),
        // "then the text's refusals": the text begins behind 61 5B 5F 1F 58, and its last digit, T3's 0, stands 87 further on.
        vector!("wrong-digit", Some(Refusal::digit(0, 123 + 5 + 87))),
    ]
}

/// "`0107` goes with object version 0, `0108` with version 1 and strings equal to EF.COM's."
fn versions() -> Vec<Vector> {
    vec![
        vector!("v1", None),
        vector!("v1-sixteen-entries", None),
        // "19, versions or strings disagree, at the object's start": 0107 with version 1, whatever its strings say, and 0108
        // with version 0.
        vector!("version-1", refused(19, OBJECT)),
        vector!("v1-version-0", refused(19, OBJECT)),
        vector!("v1-lds-0107", refused(19, OBJECT)),
        vector!("v1-other-unicode", refused(19, OBJECT)),
        vector!("v1-swapped", refused(19, OBJECT)),
        vector!("v1-empty-strings", refused(19, OBJECT)),
        vector!("v1-short-lds", refused(19, OBJECT)),
        vector!("v1-long-unicode", refused(19, OBJECT)),
        // "12 for an object version other than 0 or 1", before what follows it.
        vector!("version-2", refused(12, OBJECT + 2)),
    ]
}

/// "ends with a sequence of two printable strings", "after all of stage 4".
fn strings() -> Vec<Vector> {
    vec![
        // 10 at the tag of the element that should stand there: 0C for 13, 31 for 30.
        vector!("v1-utf8", refused(10, OBJECT + 108)),
        vector!("v1-set", refused(10, OBJECT + 100)),
        // The sequence ends where a string should stand, and the object where the sequence should: with either EF.COM.
        vector!("v1-one-string", refused(10, OBJECT + 108)),
        vector!("v1-no-string", refused(10, OBJECT + 102)),
        vector!("v1-no-versions", refused(10, OBJECT + 100)),
        vector!("v0-no-versions", refused(10, OBJECT + 100)),
        // The first octet left over, in the sequence and behind it.
        vector!("v1-three-strings", refused(10, OBJECT + 116)),
        vector!("v1-behind", refused(10, OBJECT + 116)),
        // "After all entries: a repeated number (12 at its integer)", and then what should stand behind them.
        vector!("v1-repeated-entry", refused(12, OBJECT + 103)),
    ]
}

#[cfg(test)]
mod tests {
    use super::*;
    use paper::answer::Stretch;
    use paper::presentation::group_file;
    use paper::tlv::Walk;
    use paper::{calls, object};

    /// The two encoders agree on every object that either would call sound.
    #[test]
    fn the_objects_as_written_here() {
        for vector in all().iter().filter(|vector| vector.refusal.is_none()) {
            let mut walk = Walk::over(&vector.octets);
            walk.take(&[0x60]).unwrap();
            let element = walk.take(&[0x30]).unwrap();
            let object = object::read(&vector.octets, &element).unwrap();
            let null = !["no-parameters", "v1-sixteen-entries"].contains(&vector.name);
            assert_eq!(object::write(&object, null), vector.octets[element.whole], "{}", vector.name);
        }
    }

    #[test]
    fn the_entry_of_an_accepted_one() {
        let accepted = calls::read_presentation(1, &all()[0].octets, 43);
        assert_eq!(accepted.answer.value, 43);
        assert_eq!(accepted.written[..6], [0x00, 0x02, 0x9f, 0x79, 0x95, 0x48]);
    }

    #[test]
    fn files_where_they_stand() {
        let vectors = all();
        let octets = &vectors[0].octets;
        assert_eq!(group_file(octets, 1), Stretch { start: 123, length: 93 });
        assert_eq!(group_file(octets, 2), Stretch { start: 216, length: 10 });
        assert_eq!(group_file(octets, 16), Stretch::EMPTY);
        // Refused in stage 4, which is not looked at for the file of a group.
        let refused = vectors.iter().find(|vector| vector.name == "set-of-entries").unwrap();
        assert_eq!(group_file(&refused.octets, 1), Stretch { start: 123, length: 93 });
    }
}
