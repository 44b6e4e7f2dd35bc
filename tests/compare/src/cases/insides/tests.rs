//! Holds the independent reader to what the files drawn have, and to the refusal that each damage is meant to give.

use super::damage::{all, counts, lent, sample, Damage, Told};
use super::*;
use paper::inside;
use paper::refusal::Refusal;
use std::collections::BTreeSet;

fn answer(file: &Tree) -> Result<usize, Refusal> {
    inside::read(&file.encoded()).map(|tree| tree.count())
}

/// Each drawn file has as many elements as its tree, and goes as deep.
#[test]
fn sound_files() {
    let mut seeds = Seeds::new(1);
    for (shape, group) in SHAPES.into_iter().flat_map(|shape| group::ALL.map(|group| (shape, group))) {
        for _ in 0..10 {
            let file = file(&mut seeds, group, shape);
            let octets = file.encoded();
            let read = inside::read(&octets).unwrap();
            assert_eq!((read.count(), read.depth()), (file.count(), depth(&file)), "{shape:?}, group {group}");
            assert!(read.depth() >= shape.deepest || group == 13 || COUNTED.contains(&group));
        }
    }
}

fn depth(tree: &Tree) -> usize {
    1 + tree.trees().iter().map(depth).max().unwrap_or(0)
}

/// As deep and as wide as they are wanted, with tags of all kinds.
#[test]
fn every_kind_is_drawn() {
    let mut seeds = Seeds::new(1);
    let drawn = SHAPES.map(|shape| file(&mut seeds, 16, shape));
    assert!(drawn[..3].iter().all(|file| depth(file) == DEEPEST));
    assert!(
        drawn[2].count() > 30 && drawn[6].count() > 40 && (0..20).any(|_| file(&mut seeds, 5, SHAPES[7]).count() > 250)
    );
    let kinds: BTreeSet<(usize, bool)> =
        (0..200).map(|at| tag(&mut seeds, at % 2 == 0)).map(|tag| (tag.len(), inside::is_constructed(&tag))).collect();
    assert_eq!(kinds.len(), 4);
}

#[test]
fn one_level_too_deep() {
    let mut seeds = Seeds::new(1);
    for group in group::ALL.into_iter().filter(|group| *group != 13) {
        let deep = Shape { deepest: DEEPEST + 1, widest: 3 };
        // The first that is too deep, in the tree: all that stands before it is right.
        let file = file(&mut seeds, group, deep);
        if let Some(path) = file.paths().into_iter().find(|path| path.len() == DEEPEST) {
            assert_eq!(answer(&file), Err(Refusal::at(21, file.stands(&path).unwrap().0)));
        }
    }
}

#[test]
fn the_sample_is_sound() {
    let sample = sample(&mut Seeds::new(1));
    let file = &sample.trees()[0];
    assert_eq!((answer(file), depth(file)), (Ok(file.count()), DEEPEST));
}

fn spoilt(sample: &Tree, damages: &[&Damage]) -> Option<Tree> {
    let mut lent = sample.clone();
    damages.iter().all(|damage| damage.put(&mut lent)).then_some(lent)
}

#[test]
fn each_gives_the_refusal_that_it_is_meant_to() {
    let sample = sample(&mut Seeds::new(1));
    for damage in all(&sample) {
        let lent = spoilt(&sample, &[&damage]).expect("a place of the sample");
        assert_eq!(answer(&lent), Err(damage.refusal(&lent)));
    }
}

/// Of two wrong elements the one further left is told, and a wrong count last of all.
#[test]
fn of_two_the_first_in_order_is_given() {
    let sample = sample(&mut Seeds::new(1));
    let all = all(&sample);
    let elements: Vec<&Damage> =
        all.iter().filter(|damage| damage.number != 22 && damage.told != Told::Start).collect();
    for (at, one) in elements.iter().enumerate() {
        // Not all of them, since each is put in and looked for again.
        for other in elements[..at].iter().skip(at % 11).step_by(11) {
            let lent = match spoilt(&sample, &[other, one]) {
                Some(lent) if one.stands(&lent) && other.stands(&lent) && !one.takes(other) => lent,
                _ => continue,
            };
            let (one, other) = (one.refusal(&lent), other.refusal(&lent));
            // At one place the two may be one element's.
            if one.place != other.place {
                let first = if one.place < other.place { one } else { other };
                assert_eq!(answer(&lent), Err(first));
            }
        }
        // What is wrong in 7F61 may be another element's once its templates were moved.
        for count in counts().into_iter().skip(at % 7).step_by(7).filter(|_| !one.is_below(&[0, 1])) {
            if let Some(lent) = spoilt(&sample, &[&count, one]).filter(|lent| one.stands(lent)) {
                assert_eq!(answer(&lent), Err(one.refusal(&lent)));
            }
        }
    }
}

/// Each number where it can be told: 10 at elements of every depth and behind them, 21 at the ninth, 22 at 7F61 and at 0.
#[test]
fn every_number_at_each_of_its_places() {
    let sample = sample(&mut Seeds::new(1));
    let told: BTreeSet<(u32, usize)> = all(&sample)
        .iter()
        .map(|damage| match &damage.told {
            Told::At(path) => (damage.number, path.len()),
            Told::Behind(path) => (damage.number, 100 + path.len()),
            Told::Start => (damage.number, 0),
        })
        .collect();
    let at = (0..=8).map(|depth| (10, depth));
    let behind = (0..8).map(|depth| (10, 100 + depth));
    assert_eq!(told, at.chain(behind).chain([(21, 9), (22, 0), (22, 2)]).collect());
}

/// What is lent with nothing wrong.
#[test]
fn lent_as_it_is() {
    let mut seeds = Seeds::new(1);
    let file = file(&mut seeds, 7, SHAPES[1]);
    assert_eq!(lent(file.clone()).encoded(), file.encoded());
}
