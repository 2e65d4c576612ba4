// The refusals' words; and 11, 12, 14, 15 and 16, which only the library gives, and 17, on the examples of docs/JOB.md. 1 to 10 are run by tests/cutlist.
use outline::*;

/// `ring 1 - 0,0 5,5` under `settings 0`: an open line of two points, a path of 27 bytes.
const LINE: &[u8] = &[
    1, 1, 0, 0, 2, 18, 0, 0, 0, 0, 0, 0, 0, 0, 0, 1, 0, 1, 0, 0, 0, 0, 0, 0, 0, 2, 18, 0, 5, 0, 0, 0, 5, 0, 0, 0, 0, 0,
    0, 0, 0, 0, 0, 0, 0, 0, 3, 5, 0, 1, 255, 255, 0, 0,
];

#[test]
fn small_tray() {
    let (mut work, mut tray) = (vec![7; WORK_WORDS], vec![7; 27]);
    assert_eq!(finish(LINE, &mut work, &mut tray[..26]), Err(Refused(11)));
    assert_eq!(finish(LINE, &mut work, &mut tray), Ok(()));
    assert_eq!(paths(&tray), [Path { open: true, points: vec![(5, 5, 0).into(), (0, 0, 0).into()] }]);
}

#[test]
fn out_of_turn() {
    let mut work = vec![7; WORK_WORDS];
    assert_eq!(open(&[1, 1, 0, 0], &mut work), Ok(()));
    assert_eq!(step(&mut work, 0), Err(Refused(12)));
}

#[test]
fn unknown_name_and_no_place() {
    let mut work = vec![7; WORK_WORDS];
    assert_eq!(open(&[1, 1, 0, 0], &mut work), Ok(()));
    assert_eq!(go_back(&mut work, 0), Err(Refused(14)));
    assert_eq!(drop_name(&mut work, 0), Err(Refused(14)));
    for name in 1..=4 {
        assert_eq!(keep(&mut work, name), Ok(()));
    }
    assert_eq!(keep(&mut work, 5), Err(Refused(15)));
}

#[test]
fn settings_differ() {
    let (mut first, mut second) = (vec![7; WORK_WORDS], vec![7; WORK_WORDS]);
    assert_eq!(open(&[1, 1, 0, 0], &mut first), Ok(()));
    assert_eq!(open(&[1, 1, 0, 1], &mut second), Ok(()));
    assert_eq!(lay_together(&mut first, &second), Err(Refused(16)));
}

#[test]
fn past_mending() {
    // Both points of the line name point 0 as their next.
    let mut job = LINE.to_vec();
    job[15] = 0;
    let found = job.clone();
    assert_eq!(mend(&mut job), Err(Refused(17)));
    assert_eq!(job, found);
    // Both name point 1 as their prev: mended.
    let mut job = LINE.to_vec();
    job[38] = 1;
    assert_eq!(open(&job, &mut vec![7; WORK_WORDS]), Err(Refused(6)));
    assert_eq!(mend(&mut job), Ok(()));
    assert_eq!(job, LINE);
}

#[test]
fn every_refusal_has_its_word() {
    assert!((1..=17).all(|number| !Refused(number).word().is_empty() && !Refused(number).meaning().is_empty()));
    assert_eq!(Refused(7).word(), "muddled");
    assert_eq!(Refused(12).to_string(), format!("refused 12, out of turn: {}", Refused::OUT_OF_TURN.meaning()));
    assert_eq!((Refused(0).word(), Refused(99).meaning()), ("", ""));
    assert_eq!(Refused(99).to_string(), "refused 99");
}
