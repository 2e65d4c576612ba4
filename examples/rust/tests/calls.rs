// The wrapper's calls on the paper's crossed ring, with depths: answers, and what refusals leave.
use outline::*;

const JOB: &[u8] = include_bytes!("../../../samples/depth.job");
/// The boxes stand behind the columns of the live block, and the block ends with them (docs/WORKSPACE.md).
const BOXES: usize = 16 + 6 * POINTS + 9 * RECORDS;
const BLOCK: usize = BOXES + 4 * RECORDS;

fn triangles() -> Vec<Path> {
    let closed = |points: [(i32, i32, i32); 3]| Path { open: false, points: points.map(Point::from).to_vec() };
    vec![closed([(5, 5, 0), (0, 12, -4), (0, 0, 1)]), closed([(10, 10, 2), (10, 0, 3), (5, 5, 0)])]
}

#[test]
fn lengths() {
    assert_eq!(work_words(), WORK_WORDS as u64);
}

#[test]
fn in_one_call() {
    let (mut work, mut tray) = (vec![7; WORK_WORDS], vec![7; TRAY_BYTES]);
    assert_eq!(finish(JOB, &mut work, &mut tray), Ok(()));
    assert_eq!(paths(&tray), triangles());
    assert!(tray[78..].iter().all(|byte| *byte == 0));
}

#[test]
fn by_steps() {
    let (mut work, mut tray) = (vec![7; WORK_WORDS], vec![7; TRAY_BYTES]);
    assert_eq!(open(JOB, &mut work), Ok(()));
    assert_eq!(write(&work, &mut tray), Err(Refused(12)));
    assert!(tray.iter().all(|byte| *byte == 7));
    for record in 0..2 {
        while step(&mut work, record).is_ok() {}
    }
    let before = work.clone();
    assert_eq!(step(&mut work, 0), Err(Refused(12)));
    assert_eq!(step(&mut work, u32::MAX), Err(Refused(12)));
    assert_eq!(work, before);
    assert_eq!(write(&work, &mut tray[..77]), Err(Refused(11)));
    assert!(tray.iter().all(|byte| *byte == 7));
    assert_eq!(write(&work, &mut tray), Ok(()));
    assert_eq!(paths(&tray), triangles());
}

#[test]
fn refused_jobs_leave_zeros() {
    let (mut work, mut tray) = (vec![7; WORK_WORDS], vec![7; TRAY_BYTES]);
    for (job, words, bytes, number) in [
        (&JOB[..0], WORK_WORDS, 99, 2),
        (&JOB[..9], WORK_WORDS, 99, 1),
        (JOB, WORK_WORDS - 1, 99, 10),
        (JOB, WORK_WORDS, 77, 11),
    ] {
        work.fill(7);
        tray.fill(7);
        assert_eq!(finish(job, &mut work[..words], &mut tray[..bytes]), Err(Refused(number)));
        assert!(work[..words].iter().all(|word| *word == 0) && tray[..bytes].iter().all(|byte| *byte == 0));
    }
}

/// Kept, stepped, gone back to: every word is what it was, and the steps go as before.
#[test]
fn kept_and_gone_back_to() {
    let (mut work, mut tray) = (vec![7; WORK_WORDS], vec![7; TRAY_BYTES]);
    assert_eq!(open(JOB, &mut work), Ok(()));
    for name in [0, 255] {
        assert_eq!(keep(&mut work, name), Ok(()));
    }
    let kept = work.clone();
    for _ in 0..2 {
        for record in 0..2 {
            while step(&mut work, record).is_ok() {}
        }
        assert_eq!(write(&work, &mut tray), Ok(()));
        assert_eq!(paths(&tray), triangles());
        assert_eq!(go_back(&mut work, 255), Ok(()));
        assert_eq!(work, kept);
    }
    assert_eq!(step(&mut work, 0), Ok(()));
    assert_eq!(keep(&mut work, 255), Ok(()));
    let later = work.clone();
    assert_eq!(go_back(&mut work, 0), Ok(()));
    assert_eq!(go_back(&mut work, 255), Ok(()));
    assert_eq!(work, later);
}

#[test]
fn refused_names_leave_every_word() {
    let mut work = vec![7; WORK_WORDS + 3];
    assert_eq!(open(JOB, &mut work), Ok(()));
    for name in [0, 9, 99, 255] {
        assert_eq!(keep(&mut work, name), Ok(()));
    }
    let before = work.clone();
    assert_eq!(keep(&mut work, 1), Err(Refused::NO_PLACE));
    assert_eq!(go_back(&mut work, 1), Err(Refused::UNKNOWN_NAME));
    assert_eq!(drop_name(&mut work, 254), Err(Refused::UNKNOWN_NAME));
    assert_eq!(keep(&mut work[..WORK_WORDS - 1], 0), Err(Refused::FULL));
    assert_eq!(go_back(&mut work[..WORK_WORDS - 1], 0), Err(Refused::FULL));
    assert_eq!(drop_name(&mut work[..WORK_WORDS - 1], 0), Err(Refused::FULL));
    assert_eq!(work, before);
    assert_eq!(drop_name(&mut work, 99), Ok(()));
    assert_eq!(keep(&mut work, 1), Ok(()));
    assert_eq!(go_back(&mut work, 99), Err(Refused::UNKNOWN_NAME));
}

/// Spoilt rings are refused before an unknown name; opening is the way back, and keeps no name.
#[test]
fn no_way_back_but_opening() {
    let mut work = vec![7; WORK_WORDS];
    assert_eq!(open(JOB, &mut work), Ok(()));
    assert_eq!(keep(&mut work, 7), Ok(()));
    let behind = work[WORK_WORDS - 1];
    work[1] = POINTS as u32 + 1;
    for name in [7, 8] {
        assert_eq!(go_back(&mut work, name), Err(Refused::CROWDED));
        assert_eq!(keep(&mut work, name), Err(Refused::CROWDED));
        assert_eq!(drop_name(&mut work, name), Err(Refused::CROWDED));
    }
    assert_eq!(open(JOB, &mut work), Ok(()));
    assert_eq!(go_back(&mut work, 7), Err(Refused::UNKNOWN_NAME));
    assert_eq!((behind, work[WORK_WORDS - 1]), (7, 7));
    assert_eq!(open(&JOB[..9], &mut work), Err(Refused::TORN));
    assert!(work.iter().all(|word| *word == 0));
}

#[test]
fn kept_after_finishing_in_one_call() {
    let (mut work, mut tray) = (vec![7; WORK_WORDS], vec![7; TRAY_BYTES]);
    assert_eq!(open(JOB, &mut work), Ok(()));
    assert_eq!(keep(&mut work, 7), Ok(()));
    assert_eq!(finish(JOB, &mut work, &mut tray), Ok(()));
    assert_eq!(go_back(&mut work, 7), Err(Refused::UNKNOWN_NAME));
    assert_eq!(keep(&mut work, 8), Ok(()));
    let kept = work.clone();
    assert_eq!(go_back(&mut work, 8), Ok(()));
    assert_eq!(work, kept);
    assert_eq!(reason(&work, 1), Ok(Reason::Written { open: false, place: 1 }));
}

/// Opened in a work space of its own.
fn opened(job: &[u8]) -> Vec<u32> {
    let mut work = vec![7; WORK_WORDS];
    assert_eq!(open(job, &mut work), Ok(()));
    work
}

/// Two drawings, and a third beside the pair: three times the triangles, each drawing's own; then back to the first alone, which was kept.
#[test]
fn laid_together() {
    let (mut work, second, mut tray) = (opened(JOB), opened(JOB), vec![7; TRAY_BYTES]);
    assert_eq!(keep(&mut work, 7), Ok(()));
    let alone = work.clone();
    for count in 2..=3 {
        assert_eq!(lay_together(&mut work, &second), Ok(()));
        assert_eq!(work[1..3], [4 * count, count]);
        assert_eq!(work[BLOCK..], alone[BLOCK..]);
    }
    assert_eq!(second, opened(JOB));
    for record in (0..6).rev().chain(3..6) {
        while step(&mut work, record).is_ok() {}
    }
    assert_eq!(write(&work, &mut tray), Ok(()));
    let [piece, hole] = &triangles()[..] else { panic!("two triangles") };
    assert_eq!(paths(&tray).iter().collect::<Vec<_>>(), [piece, piece, piece, hole, hole, hole]);
    assert_eq!(go_back(&mut work, 7), Ok(()));
    assert_eq!(work[..BLOCK], alone[..BLOCK]);
}

/// Each refusal in its turn, and both work spaces as found.
#[test]
fn refused_laying_leaves_both() {
    let other = [&JOB[..3], &[JOB[3] ^ 2], &JOB[4..]].concat();
    let refuses = |mut first: Vec<u32>, second: Vec<u32>, refused: Refused| {
        let before = first.clone();
        assert_eq!(lay_together(&mut first, &second), Err(refused));
        assert_eq!(first, before);
    };
    let (good, differs) = (opened(JOB), opened(&other));
    let short = good[..WORK_WORDS - 1].to_vec();
    let altered = |work: &[u32], at: usize, word: u32| {
        let mut work = work.to_vec();
        work[at] = word;
        work
    };
    let crowded = altered(&good, 1, POINTS as u32 + 1);
    let mut stepped = differs.clone();
    assert_eq!(step(&mut stepped, 0), Ok(()));
    refuses(short.clone(), crowded.clone(), Refused::FULL);
    refuses(crowded.clone(), short, Refused::FULL);
    refuses(crowded.clone(), altered(&good, 16, u32::MAX), Refused::CROWDED);
    refuses(altered(&good, 16, u32::MAX), crowded, Refused::OFF_THE_TABLE);
    refuses(stepped.clone(), good.clone(), Refused::SETTINGS_DIFFER);
    refuses(good.clone(), stepped.clone(), Refused::SETTINGS_DIFFER);
    refuses(stepped.clone(), differs.clone(), Refused::OUT_OF_TURN);
    refuses(differs, stepped, Refused::OUT_OF_TURN);
    // As many points as there may be, of which most are on no ring.
    refuses(altered(&good, 1, POINTS as u32 - 3), good.clone(), Refused::FULL);
    assert_eq!(lay_together(&mut altered(&good, 1, POINTS as u32 - 4), &good), Ok(()));
    // Bytes are compared: what is above them in the word is not.
    assert_eq!(lay_together(&mut altered(&good, 0, 256), &good), Ok(()));
    refuses(altered(&good, 0, 4), good, Refused::SETTINGS_DIFFER);
}

/// The box beside a record's ring.
fn box_of(work: &[u32], record: usize) -> [i32; 4] {
    [0, 1, 2, 3].map(|side| work[BOXES + side * RECORDS + record] as i32 - COORDINATE)
}

/// After opening, the cut and going back: each ring's box, and the records of windows that just touch it and just miss it.
#[test]
fn windows() {
    let (mut work, mut list) = (opened(JOB), [7; RECORDS]);
    assert_eq!(keep(&mut work, 7), Ok(()));
    assert_eq!(box_of(&work, 0), [0, 0, 10, 12]);
    assert_eq!(records_in(&work, Rect::ALL, &mut list), Ok(&[0][..]));
    while step(&mut work, 0).is_ok() {}
    assert_eq!([box_of(&work, 0), box_of(&work, 1)], [[0, 0, 5, 12], [5, 0, 10, 10]]);
    for ([left, top, right, bottom], records) in [
        ([5, 11, 5, 11], &[0][..]),
        ([5, 10, 5, 10], &[0, 1]),
        ([6, 10, 99, 99], &[1]),
        ([6, 11, 99, 99], &[]),
        ([-9, -9, 0, 0], &[0]),
        ([-9, -9, -1, 99], &[]),
        ([9, 0, 8, 9], &[]),
        ([0, 9, 9, 8], &[]),
    ] {
        list.fill(7);
        assert_eq!(records_in(&work, Rect { left, top, right, bottom }, &mut list), Ok(records));
        assert!(list[records.len()..].iter().all(|word| *word == 0));
    }
    assert_eq!(go_back(&mut work, 7), Ok(()));
    assert_eq!(box_of(&work, 0), [0, 0, 10, 12]);
}

/// 10 for the length, 7 for a box that is not its ring's, then 11; the list is as found.
#[test]
fn refused_windows_leave_the_list() {
    let (mut work, mut list) = (opened(JOB), [7; RECORDS]);
    let mut refuses = |work: &[u32], words: usize, refused: Refused| {
        assert_eq!(records_in(work, Rect::ALL, &mut list[..words]), Err(refused));
        assert_eq!(list, [7; RECORDS]);
    };
    refuses(&work[..WORK_WORDS - 1], 0, Refused::FULL);
    refuses(&work, 0, Refused::SMALL_TRAY);
    for side in 0..4 {
        work[BOXES + side * RECORDS] ^= 1;
        refuses(&work, 0, Refused::MUDDLED);
        assert_eq!(step(&mut work, 0), Err(Refused::MUDDLED));
        work[BOXES + side * RECORDS] ^= 1;
    }
}
