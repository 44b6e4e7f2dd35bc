//! Holds the files that are kept to those that are made, and the independent reader to what their remarks say.

use super::*;
use paper::refusal::Refusal;
use paper::seal;
use std::collections::BTreeSet;
use std::path::Path;

fn folder() -> std::path::PathBuf {
    Path::new(env!("CARGO_MANIFEST_DIR")).join("../../examples/scanner/samples")
}

/// Number and place that a remark begins with, and the digit that was expected; none where the seal is accepted.
fn said(remark: &str) -> Option<Refusal> {
    let (answer, _) = remark.split_once(':').expect("an answer, then why");
    if answer == "Accepted" {
        return None;
    }
    let (number, place) = answer.split_once(" at ").expect("a number and a place");
    let (place, digit) = match place.split_once(", expected ") {
        Some((place, digit)) => (place, Some(digit.parse().expect("a digit"))),
        None => (place, None),
    };
    Some(Refusal { number: number.parse().expect("a number"), expected: digit, place: place.parse().expect("a place") })
}

#[test]
fn they_are_kept_as_they_are_made() {
    for sample in all() {
        let kept = std::fs::read_to_string(folder().join(sample.file()));
        assert_eq!(kept.ok(), Some(sample.written()), "{}: make samples writes it", sample.file());
    }
    let files = std::fs::read_dir(folder()).expect("the folder of the samples");
    let kept: BTreeSet<String> = files.map(|file| file.unwrap().file_name().into_string().unwrap()).collect();
    let made = all().iter().map(Sample::file).chain(["seal.png".into()]).collect();
    assert_eq!(kept, made);
}

#[test]
fn they_are_answered_as_their_remarks_say() {
    for sample in all() {
        assert_eq!(seal::read(&sample.lines.octets()).err(), said(sample.remark), "{}", sample.file());
    }
}

#[test]
fn the_printed_one_is_the_papers() {
    let of = |name: &str| all().into_iter().find(|sample| sample.name == name).expect("a sample").lines.octets();
    let printed = |version| seal::printed::octets(seal::printed::EMERGENCY, version);
    assert_eq!(of("seal"), seal::printed::signed());
    assert_eq!((of("printed-03"), of("printed-02")), (printed(0x03), printed(0x02)));
    assert_eq!(of("printed-03-signed")[..68], printed(0x03));
}

/// Each number at each of its places.
#[test]
fn every_refusal_has_its_samples() {
    let refusals = all().into_iter().filter_map(|sample| said(sample.remark));
    let said: BTreeSet<(u32, usize)> = refusals.map(|refusal| (refusal.number, refusal.place)).collect();
    let header = [0, 1, 2, 4, 10, 12, 13, 15, 16, 17, 18, 19].map(|place| (24, place));
    let features = [18, 22, 68, 72].map(|place| (25, place));
    let rest = [(26, 18), (26, 22), (27, 68), (27, 72), (9, 22)];
    let texts = (3..=9).map(|number| (number, 18));
    let every = header.into_iter().chain(features).chain(rest).chain(texts);
    assert_eq!(said, every.collect());
}

#[test]
fn remarks_fit_their_lines() {
    let lines = all().into_iter().flat_map(|sample| sample.written().lines().map(str::len).collect::<Vec<_>>());
    assert!(lines.max() <= Some(120));
}
