// A plain reading of document 02, Ask 11, on the words of two work spaces, from its sentences and docs/WORKSPACE.md alone: what laying together answers, and the first's words after it.
use crate::plain;
use crate::words::*;

/// The first's words with the second's drawing laid beside its own; or the refusal's number, the first that applies.
pub fn laid(first: &[u32], second: &[u32]) -> Result<Vec<u32>, u8> {
    if first.len() < WORDS || second.len() < WORDS {
        return Err(10);
    }
    plain::tested(first)?;
    plain::tested(second)?;
    if settings_differ(first, second) {
        return Err(16);
    }
    if is_stepped(first) || is_stepped(second) {
        return Err(12);
    }
    if is_crowd(first, second) {
        return Err(10);
    }
    Ok(pooled(first, second))
}

/// "The two settings bytes are unequal."
pub fn settings_differ(first: &[u32], second: &[u32]) -> bool {
    first[SETTINGS] as u8 != second[SETTINGS] as u8
}

/// "Any record is an offcut or discarded by a step, or any closed ring isn't at its start."
pub fn is_stepped(w: &[u32]) -> bool {
    (0..records(w)).any(|r| stepped(w, r).is_some())
}

/// What says so of a record.
pub fn stepped(w: &[u32], r: usize) -> Option<&'static str> {
    let ringless = w[FIRST + r] == NONE;
    match () {
        _ if w[CUT + r] != NONE => Some("12 for an offcut"),
        _ if ringless && (AT_VALIDITY..=AT_SPLIT).contains(&w[REASON + r]) => Some("12 for a discarded record"),
        _ if ringless || is_open(w, r) => None,
        _ if w[MARK + r] != VALIDITY => Some("12 for a ring that has been stepped"),
        _ if w[PRESENT + r] != w[FIRST + r] => Some("12 for a present place alone"),
        _ => None,
    }
}

/// "Point and record limits now bind the pair."
pub fn is_crowd(first: &[u32], second: &[u32]) -> bool {
    points(first) + points(second) > MOST_POINTS || records(first) + records(second) > MOST_RECORDS
}

/// "The second's points and records after the first's, in the first's work space, with numbers raised to fit, none staying none."
fn pooled(first: &[u32], second: &[u32]) -> Vec<u32> {
    let mut w = first.to_vec();
    let raised = |word: u32, count: usize, by: usize| if (word as usize) < count { word + by as u32 } else { word };
    let (p, r) = (points(first), records(first));
    let point = |word: u32| raised(word, points(second), p);
    let record = |word: u32| raised(word, records(second), r);
    for i in 0..points(second) {
        [X, Y, Z].into_iter().for_each(|column| w[column + p + i] = second[column + i]);
        [NEXT, PREV].into_iter().for_each(|column| w[column + p + i] = point(second[column + i]));
        w[REC + p + i] = record(second[REC + i]);
    }
    for i in 0..records(second) {
        [FLAGS, MARK, REASON].into_iter().chain(SIDES).for_each(|column| w[column + r + i] = second[column + i]);
        [FIRST, PRESENT, START].into_iter().for_each(|column| w[column + r + i] = point(second[column + i]));
        [OWNER, CUT, TAKER].into_iter().for_each(|column| w[column + r + i] = record(second[column + i]));
    }
    (w[POINTS], w[RECORDS]) = ((p + points(second)) as u32, (r + records(second)) as u32);
    w
}

/// What a call may have met; a long run must have met each.
pub const MET: [&str; 24] = [
    "10 for the first's length",
    "10 for the second's length, the first spoilt",
    "10 for the second's length alone",
    "3 to 7 of the first, the second spoilt too",
    "3 to 7 of the second alone",
    "16, and stepped too",
    "16, and a crowd too",
    "12, and a crowd too",
    "12 in the first alone",
    "12 in the second alone",
    "12 for an offcut",
    "12 for a discarded record",
    "12 for a ring that has been stepped",
    "12 for a present place alone",
    "10 for a crowd of points",
    "10 for a crowd of records",
    "as many points as there may be",
    "as many records as there may be",
    "equal bytes in unequal words",
    "nothing laid on a drawing",
    "a drawing laid on nothing",
    "an owner raised",
    "an owner of none",
    "a taker raised",
];

/// Which of these a call on these words, with this answer, has met.
pub fn met(first: &[u32], second: &[u32], answer: u32) -> Vec<&'static str> {
    if first.len() < WORDS || second.len() < WORDS {
        let spoilt = first.len() >= WORDS && plain::tested(first).is_err();
        return match (first.len() < WORDS, spoilt) {
            (true, _) => vec!["10 for the first's length"],
            (false, true) => vec!["10 for the second's length, the first spoilt"],
            (false, false) => vec!["10 for the second's length alone"],
        };
    }
    let spoilt = [first, second].map(|w| plain::tested(w).is_err());
    if spoilt != [false, false] {
        return if spoilt[0] && !spoilt[1] {
            Vec::new()
        } else {
            vec![if spoilt[0] { "3 to 7 of the first, the second spoilt too" } else { "3 to 7 of the second alone" }]
        };
    }
    let stepped_in = [first, second].map(is_stepped);
    let (steps, crowd) = (stepped_in != [false, false], is_crowd(first, second));
    let mut met = Vec::new();
    let mut when = |holds: bool, name: &'static str| met.extend(holds.then_some(name));
    match answer {
        16 => {
            when(steps, "16, and stepped too");
            when(crowd, "16, and a crowd too");
        }
        12 => {
            when(crowd, "12, and a crowd too");
            when(stepped_in == [true, false], "12 in the first alone");
            when(stepped_in == [false, true], "12 in the second alone");
            for w in [first, second] {
                let mut why = (0..records(w)).filter_map(|r| stepped(w, r));
                let only = why.next();
                when(why.all(|other| Some(other) == only), only.unwrap_or("12 for a ring that has been stepped"));
            }
        }
        10 => {
            when(points(first) + points(second) > MOST_POINTS, "10 for a crowd of points");
            when(records(first) + records(second) > MOST_RECORDS, "10 for a crowd of records");
        }
        _ => {
            when(points(first) + points(second) == MOST_POINTS, "as many points as there may be");
            when(records(first) + records(second) == MOST_RECORDS, "as many records as there may be");
            when(first[SETTINGS] != second[SETTINGS], "equal bytes in unequal words");
            when(records(second) == 0 && records(first) > 0, "nothing laid on a drawing");
            when(records(first) == 0 && records(second) > 0, "a drawing laid on nothing");
            let owned = (0..records(second)).any(|r| second[OWNER + r] != NONE);
            when(owned && records(first) > 0, "an owner raised");
            when((0..records(second)).any(|r| second[OWNER + r] == NONE) && records(first) > 0, "an owner of none");
            let taken = |r: usize| second[FIRST + r] == NONE && second[REASON + r] == JOINED;
            when((0..records(second)).any(taken) && records(first) > 0, "a taker raised");
        }
    }
    met
}
