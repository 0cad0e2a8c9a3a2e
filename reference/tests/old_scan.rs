//! Programs of different times on one image. Before document 02's slip 6 a log held 64 records: old images are taken up as before, and
//! the old program that is given more records finds the first 64 of them and says that there are too many. Before slip 8 all of word 2
//! was the check: images without epochs are taken up as before, and the old program stops with `check` at the first record that has one.

use reference::calls::{next, open, recover_as, walk_as, Done, Next, Version, Walk};
use reference::images::{image, SORTS};
use reference::layout::{
    words_of_bytes, CheckWord, Header, Ring, MARK_NONE, MARK_RELEASED, MAX_EPOCH, OLD_TABLE_SIZE,
};
use reference::refusal::{RecordTest, Refusal};
use reference::samples::samples;
use reference::state::State;
use reference::{gen, rng::Rng};

/// An image with so many marked records, some of them released, made by the calls.
fn log(rng: &mut Rng, count: u64) -> Vec<u64> {
    use reference::calls;
    let mut image = vec![rng.next_u64(); 1_200];
    let mut ops = vec![0; 3 * 700];
    let mut state = calls::format(&mut image, &mut ops).unwrap().answer;
    for lsn in 1..=count {
        let length = rng.below(9);
        let kind = rng.between(601, 65_535);
        calls::reserve(&mut image, &mut ops, &mut state, kind, length).unwrap();
        let bytes = rng.bytes(length);
        calls::copy(&mut image, &mut ops, &mut state, lsn, 0, &bytes).unwrap();
        calls::complete(&mut image, &mut ops, &mut state, lsn).unwrap();
    }
    if count > 0 {
        calls::force(&mut image, &mut ops, &mut state, count, 1).unwrap();
    }
    // Not the head, so that all of them stay.
    for lsn in 2..=count {
        if rng.chance(1, 4) {
            calls::release(&mut image, &mut ops, &mut state, lsn).unwrap();
        }
    }
    image
}

/// The image with 0 in the upper half of word 2 of each record, as far as a walk comes then: what a program from before slip 8 left.
fn without_epochs(image: &[u64]) -> Vec<u64> {
    let mut image = image.to_vec();
    let Ok(mut cursor) = open(&image) else {
        return image;
    };
    let ring = Ring::of_image(&image).unwrap();
    while Header::of_word(ring.read(&image, cursor.position, 0)).mark != MARK_NONE {
        let word = &mut image[ring.word(cursor.position, 2) as usize];
        *word = CheckWord { epoch: 0, ..CheckWord::of_word(*word) }.word();
        match next(&image, &cursor) {
            Ok(Next::Record { behind, .. }) => cursor = behind,
            _ => break,
        }
    }
    image
}

/// Images of every sort, some of them of no good size.
fn every_sort() -> impl Iterator<Item = Vec<u64>> {
    let words = |bytes: Vec<u8>| words_of_bytes(&bytes).unwrap_or_default();
    let written = samples().into_iter().map(move |sample| words(sample.bytes));
    let by_sort = (0..8 * SORTS.len() as u64).map(move |seed| words(image(seed).1));
    written.chain(by_sort).chain((1..=100).map(move |seed| words(gen::image(seed))))
}

// ---------------------------------------------------------------- slip 6

/// The walk at 64 records and ours.
fn both(image: &[u64]) -> (Walk, Walk) {
    let old = walk_as(Version::OLD_TABLE, image).unwrap();
    (old, walk_as(Version::NOW, image).unwrap())
}

/// What slip 6 says of the two, for any image without epochs. Gives whether the old walk met more records than it takes.
fn compare(image: &[u64]) -> bool {
    let refused = walk_as(Version::OLD_TABLE, image).err();
    assert_eq!(refused, walk_as(Version::NOW, image).err());
    if refused.is_some() {
        assert!(matches!(refused, Some(Refusal::ImageSize | Refusal::Superline)));
        return false;
    }
    let (old, new) = both(image);
    let met_too_many = matches!(old.end, Err(Refusal::TooMany { .. }));
    if !met_too_many {
        // At most 64 marked records, or damage in one of the first 64: alike in all.
        assert_eq!(old, new);
    } else {
        // The first 64, never a wrong record, and 13 with the LSN expected there.
        assert_eq!(old.records.len(), OLD_TABLE_SIZE);
        assert_eq!(old.records, new.records[..OLD_TABLE_SIZE]);
        let lsn = old.records[0].lsn + OLD_TABLE_SIZE as u64;
        assert_eq!(old.end, Err(Refusal::TooMany { lsn }));
        // The new one goes on there, or finds that record damaged.
        match new.records.get(OLD_TABLE_SIZE) {
            Some(record) => assert_eq!(record.lsn, lsn),
            None => {
                assert!(matches!(new.end, Err(Refusal::Damaged { lsn: found, .. }) if found == lsn))
            }
        }
        // What it lists are those of the first 64 that are not released.
        let listed = |walk: &Walk, most: usize| {
            let records = walk.records.iter().take(most);
            records.filter(|record| record.mark != MARK_RELEASED).count()
        };
        assert_eq!(listed(&old, usize::MAX), listed(&new, OLD_TABLE_SIZE));
    }
    same_recovery(image, met_too_many);
    met_too_many
}

/// The result of a recovery, the image and the op buffer behind it.
fn recovered(
    version: Version,
    image: &[u64],
) -> (Result<Done<State>, Refusal>, Vec<u64>, Vec<u64>) {
    let (mut image, mut ops) = (image.to_vec(), vec![7; 40]);
    let result = recover_as(version, &mut image, &mut ops);
    (result, image, ops)
}

/// Recovered as before: ops, image, fields, and each live record's entry at k mod 256, which k mod 64 would have been before. With
/// too many records the old recovery is refused and changes nothing.
fn same_recovery(image: &[u64], met_too_many: bool) {
    let (old, new) = (recovered(Version::OLD_TABLE, image), recovered(Version::NOW, image));
    if !met_too_many {
        assert_eq!(old, new);
        if let Ok(done) = &new.0 {
            let state = &done.answer;
            assert!(state.is_sound());
            assert!(state.live().count() <= OLD_TABLE_SIZE);
            // No two of them would have had one entry of the old table.
            let mut old_entries: Vec<u64> = state.live().map(|lsn| lsn % 64).collect();
            old_entries.sort();
            old_entries.dedup();
            assert_eq!(old_entries.len(), state.live().count());
        }
    } else {
        let number = old.0.as_ref().map_err(|refusal| refusal.number()).err();
        // Spent epochs are found before the walk.
        let spent = image[(12 + 8 * image[0]) as usize] == MAX_EPOCH;
        assert_eq!(number, Some(if spent { 8 } else { 13 }));
        assert_eq!((&old.1[..], &old.2), (image, &vec![7; 40]));
    }
}

#[test]
fn at_most_64_are_walked_alike() {
    let mut rng = Rng::new(1);
    for count in [0, 1, 2, 40, 62, 63, 64] {
        let image = without_epochs(&log(&mut rng, count));
        let (old, new) = both(&image);
        assert_eq!(old, new);
        assert_eq!(old.records.len() as u64, count);
        assert_eq!(old.end.map(|cursor| cursor.count), Ok(count));
        assert!(!compare(&image));
    }
}

#[test]
fn of_more_the_first_64_and_13() {
    let mut rng = Rng::new(2);
    for count in [65, 66, 100, 128, 129, 254, 255, 256] {
        let image = without_epochs(&log(&mut rng, count));
        let (old, new) = both(&image);
        assert!(compare(&image));
        assert_eq!(old.end, Err(Refusal::TooMany { lsn: 65 }));
        assert_eq!(new.records.len() as u64, count);
        assert!(new.end.is_ok());
    }
}

/// Damage in a marked record: one of the first 64, the 65th, one behind it.
#[test]
fn damage_before_at_and_behind_the_65th() {
    let mut rng = Rng::new(3);
    let image = without_epochs(&log(&mut rng, 200));
    let (_, good) = both(&image);
    for lsn in [1, 2, 30, 63, 64, 65, 66, 130, 200] {
        let position = good.records[lsn as usize - 1].position;
        let at = |words: u64| (24 + position + words) as usize;
        let header = Header::of_word(image[at(0)]);
        for (test, word, value) in [
            (RecordTest::Mark, at(0), Header { mark: 3, ..header }.word()),
            (RecordTest::Kind, at(0), Header { kind: 0, ..header }.word()),
            (RecordTest::Length, at(0), Header { length: 1_025, ..header }.word()),
            (RecordTest::Lsn, at(1), lsn + 1),
            (RecordTest::Check, at(2), image[at(2)] ^ 1 << 20),
        ] {
            let mut image = image.clone();
            image[word] = value;
            let (old, new) = both(&image);
            let damaged = Err(Refusal::Damaged { lsn, test });
            assert_eq!(new.end, damaged);
            assert_eq!(new.records, good.records[..lsn as usize - 1]);
            let owed = if lsn <= 64 { damaged } else { Err(Refusal::TooMany { lsn: 65 }) };
            assert_eq!(old.end, owed);
            assert_eq!(compare(&image), lsn > 64);
        }
        // With mark 0 the log ends there.
        let mut image = image.clone();
        image[at(0)] = Header { mark: 0, ..header }.word();
        assert_eq!(compare(&image), lsn > 65);
    }
}

#[test]
fn images_of_every_sort() {
    let met_too_many = every_sort().filter(|image| compare(&without_epochs(image))).count();
    assert!(met_too_many > 50, "{met_too_many}");
}

// ---------------------------------------------------------------- slip 8

/// What a program from before slip 8 owes on an image, by what ours finds there: the records up to the first that has an epoch, at which
/// it stops with `check`; or its limit before that.
fn owed_before_epochs(now: &Walk, limit: usize) -> Walk {
    let with_epoch = now.records.iter().position(|record| record.epoch != 0);
    let walked = with_epoch.unwrap_or(now.records.len());
    // Ours says of the last record that it is the one too many, or damaged: 13 comes first.
    let stopped = matches!(now.end, Err(Refusal::Damaged { .. } | Refusal::TooMany { .. }));
    let more_than_limit = now.records.len() > limit || now.records.len() == limit && stopped;
    if walked >= limit && more_than_limit {
        let lsn = now.records[0].lsn + limit as u64;
        return Walk { records: now.records[..limit].to_vec(), end: Err(Refusal::TooMany { lsn }) };
    }
    let check = |lsn| Err(Refusal::Damaged { lsn, test: RecordTest::Check });
    let end = match (with_epoch, now.end) {
        (Some(first), _) => check(now.records[first].lsn),
        // The first record that has an epoch is the one where ours stops.
        (None, Err(Refusal::Damaged { lsn, test: RecordTest::Epoch })) => check(lsn),
        (None, end) => end,
    };
    Walk { records: now.records[..walked].to_vec(), end }
}

/// Both old programs on any image. Gives whether the one of 256 records is stopped by an epoch.
fn compare_epochs(image: &[u64]) -> bool {
    let now = match walk_as(Version::NOW, image) {
        Ok(now) => now,
        Err(refusal) => {
            for version in [Version::BEFORE_EPOCHS, Version::OLD_TABLE] {
                assert_eq!(walk_as(version, image), Err(refusal));
                let (old, new) = (recovered(version, image), recovered(Version::NOW, image));
                assert_eq!(old, new);
            }
            return false;
        }
    };
    for version in [Version::BEFORE_EPOCHS, Version::OLD_TABLE] {
        let old = walk_as(version, image).unwrap();
        assert_eq!(old, owed_before_epochs(&now, version.limit));
        // Its recovery is refused so, and changes nothing; spent epochs are found before the walk.
        if let Err(refusal) = old.end {
            let spent = image[(12 + 8 * image[0]) as usize] == MAX_EPOCH;
            let refusal = if spent { Refusal::NumbersSpent } else { refusal };
            assert_eq!(recovered(version, image), (Err(refusal), image.to_vec(), vec![7; 40]));
        }
    }
    // Without epochs, exactly as before: records, end and recovery.
    let plain = without_epochs(image);
    let [old, new] = [Version::BEFORE_EPOCHS, Version::NOW].map(|it| walk_as(it, &plain).unwrap());
    assert_eq!(old, new);
    assert!(new.records.iter().all(|record| record.epoch == 0));
    assert!(!matches!(new.end, Err(Refusal::Damaged { test: RecordTest::Epoch, .. })));
    assert_eq!(recovered(Version::BEFORE_EPOCHS, &plain), recovered(Version::NOW, &plain));

    let old = walk_as(Version::BEFORE_EPOCHS, image).unwrap();
    old != now
}

/// Of records that the calls wrote, an old program finds none; of those behind stored ones, it finds the stored ones.
#[test]
fn the_first_record_with_an_epoch_stops_an_old_program() {
    let mut rng = Rng::new(4);
    let image = log(&mut rng, 100);
    let ring = Ring::of_image(&image).unwrap();
    let now = walk_as(Version::NOW, &image).unwrap();
    assert!(now.records.iter().all(|record| record.epoch == 1));
    for first in [0, 1, 30, 63, 64, 65, 99, 100] {
        let mut image = image.clone();
        for record in &now.records[..first] {
            let word = &mut image[ring.word(record.position, 2) as usize];
            *word = CheckWord { epoch: 0, ..CheckWord::of_word(*word) }.word();
        }
        assert!(walk_as(Version::NOW, &image).unwrap().end.is_ok());
        assert_eq!(compare_epochs(&image), first < 100);
        let lsn = first as u64 + 1;
        let check = Err(Refusal::Damaged { lsn, test: RecordTest::Check });
        let before = walk_as(Version::BEFORE_EPOCHS, &image).unwrap();
        assert_eq!(before.records.len(), first);
        assert_eq!(before.end.is_ok(), first == 100);
        assert!(first == 100 || before.end == check);
        // With 64 records its walk does not always get so far.
        let oldest = walk_as(Version::OLD_TABLE, &image).unwrap();
        assert_eq!(oldest.records.len(), first.min(64));
        let too_many = Err(Refusal::TooMany { lsn: 65 });
        assert_eq!(oldest.end, if first < 64 { check } else { too_many });
    }
}

#[test]
fn images_of_every_sort_before_epochs() {
    let images: Vec<Vec<u64>> = every_sort().collect();
    let stopped = images.iter().filter(|image| compare_epochs(image)).count();
    assert!(stopped > 100, "{stopped}");
    let unstopped = images.iter().filter(|image| !compare_epochs(&without_epochs(image))).count();
    assert_eq!(unstopped, images.len());
}
