// The crate's constants are those of the C header, each of them, and no other.
use outline::*;
use std::collections::BTreeMap;

const HEADER: &str = include_str!("../../c/outline.h");

/// `#define OUTLINE_NAME 1` and, in the enums, `OUTLINE_NAME = 1`.
fn header() -> BTreeMap<&'static str, u64> {
    let constant = |line: &'static str| {
        let line = line.strip_prefix("#define ").unwrap_or(line).trim_start().strip_prefix("OUTLINE_")?;
        let (name, value) = line.split_once(' ')?;
        let digits = value.trim_start_matches("= ").split(|letter: char| !letter.is_ascii_digit()).next()?;
        Some((name, digits.parse().ok()?))
    };
    HEADER.lines().filter_map(constant).collect()
}

#[test]
fn constants() {
    let ours = [
        ("POINTS", POINTS as u64),
        ("RECORDS", RECORDS as u64),
        ("SEGMENTS", SEGMENTS as u64),
        ("JOINS", JOINS as u64),
        ("COORDINATE", COORDINATE as u64),
        ("STATES", STATES as u64),
        ("WORK_WORDS", WORK_WORDS as u64),
        ("TRAY_BYTES", TRAY_BYTES as u64),
        ("JOB_BYTES", JOB_BYTES as u64),
        ("TEXT_BYTES", TEXT_BYTES as u64),
        ("RATE", u64::from(RATE)),
        ("REWRITTEN_BYTES", REWRITTEN_BYTES as u64),
        ("ANSWER_BYTES", ANSWER_BYTES as u64),
    ];
    let refusals = [
        ("TORN", Refused::TORN),
        ("STRANGE", Refused::STRANGE),
        ("CROWDED", Refused::CROWDED),
        ("OFF_THE_TABLE", Refused::OFF_THE_TABLE),
        ("NO_SUCH", Refused::NO_SUCH),
        ("LOOSE", Refused::LOOSE),
        ("MUDDLED", Refused::MUDDLED),
        ("OPEN_EDGE", Refused::OPEN_EDGE),
        ("KNOT", Refused::KNOT),
        ("FULL", Refused::FULL),
        ("SMALL_TRAY", Refused::SMALL_TRAY),
        ("OUT_OF_TURN", Refused::OUT_OF_TURN),
        ("BAD_RATE", Refused::BAD_RATE),
        ("UNKNOWN_NAME", Refused::UNKNOWN_NAME),
        ("NO_PLACE", Refused::NO_PLACE),
        ("SETTINGS_DIFFER", Refused::SETTINGS_DIFFER),
        ("PAST_MENDING", Refused::PAST_MENDING),
    ];
    for (name, refused) in refusals {
        assert_eq!(refused.word().replace(' ', "_").to_uppercase(), name);
    }
    let reasons = [
        ("NO_RING", Reason::NoRing),
        ("JOINED", Reason::Joined { taker: 0 }),
        ("SMALL_RING", Reason::SmallRing),
        ("RING_FELL", Reason::RingFell),
        ("SMALL_AREA", Reason::SmallArea),
        ("SHORT_PATH", Reason::ShortPath),
        ("SMALL_PATH", Reason::SmallPath),
        ("WRITTEN", Reason::Written { open: false, place: 0 }),
    ];
    let refusals = refusals.map(|(name, refused)| (name, u64::from(refused.0)));
    let reasons = reasons.map(|(name, reason)| (name, u64::from(reason.number())));
    assert_eq!(header(), ours.into_iter().chain(refusals).chain(reasons).collect());
}
