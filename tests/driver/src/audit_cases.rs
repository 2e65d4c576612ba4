// What the program crate `audit_cases` prints: the plain reading of the tests, on two squares and on each of its alterations of them.
use crate::plain;
use crate::words::*;

const AT: u32 = RAISED as u32;

/// A square of points a to a + 3, linked in this order, of a record.
fn square(w: &mut [u32], a: usize, record: u32) {
    for (k, (x, y)) in [(0, 0), (10, 0), (10, 10), (0, 10)].into_iter().enumerate() {
        let p = a + k;
        (w[X + p], w[Y + p], w[REC + p]) = (AT + x, AT + y, record);
        (w[NEXT + p], w[PREV + p]) = ((a + (k + 1) % 4) as u32, (a + (k + 3) % 4) as u32);
    }
}

/// Two squares, each a closed ring at its start; record 1 is owned by record 0.
fn built() -> Vec<u32> {
    let mut w = vec![0; WORDS];
    (w[POINTS], w[RECORDS]) = (8, 2);
    for (record, owner, first) in [(0, NONE, 0), (1, 0, 4)] {
        square(&mut w, first, record as u32);
        (w[OWNER + record], w[FIRST + record], w[PRESENT + record]) = (owner, first as u32, first as u32);
        (w[START + record], w[CUT + record]) = (first as u32, NONE);
    }
    w
}

/// The altered words: column, place and what is written there.
const ALTERED: [(usize, usize, u32); 17] = [
    (POINTS, 0, MOST_POINTS as u32 + 1),
    (RECORDS, 0, MOST_RECORDS as u32 + 1),
    (X, 2, 2 * AT),
    (X, 2, 2 * AT + 1),
    (NEXT, 1, 8),
    (PREV, 5, 8),
    (REC, 0, 2),
    (OWNER, 0, 2),
    (Z, 2, 2 * AT + 1),
    (FIRST, 1, 8),
    (NEXT, 1, 3),
    (PREV, 1, 3),
    (FIRST, 1, 2),
    (PRESENT, 1, 2),
    (MARK, 1, DONE),
    (MARK, 1, DONE + 1),
    (FLAGS, 1, 1),
];

/// A record without a ring: the reason kept, and the taker.
const EMPTIED: [(u32, u32); 7] =
    [(0, 0), (NO_RING, 2), (JOINED, 0), (JOINED, 2), (AT_SPLIT, 2), (AT_SPLIT + 1, 0), (JOINED, NONE)];

fn line(w: &[u32]) -> String {
    plain::rings_tested(w).map_or_else(|refusal| format!("refused {refusal:02}\n"), |()| "passed\n".into())
}

pub fn lines() -> String {
    let altered = ALTERED.iter().map(|&(column, at, word)| {
        let mut w = built();
        w[column + at] = word;
        line(&w)
    });
    let emptied = EMPTIED.iter().map(|&(reason, taker)| {
        let mut w = built();
        (w[FIRST + 1], w[REASON + 1], w[TAKER + 1]) = (NONE, reason, taker);
        line(&w)
    });
    std::iter::once(line(&built())).chain(altered).chain(emptied).collect()
}
