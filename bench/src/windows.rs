// Which records a window shows: outline_records_in, less what its tests of the work space take, beside walking every ring's points in the same words.
use crate::jobs::of_rings;
use crate::pairs::apart;
use crate::{side_by_side, Lent};
use outline::{Rect, COORDINATE, POINTS, RECORDS};
use std::hint::black_box;

/// Where the columns stand (docs/WORKSPACE.md).
const X: usize = 16;
const Y: usize = X + POINTS;
const NEXT: usize = Y + POINTS;
const FIRST: usize = 16 + 6 * POINTS + 2 * RECORDS;
const NONE: u32 = 65_535;

/// The same records from the points: each ring is walked for its box.
fn walked(work: &[u32], window: Rect, list: &mut [u32]) -> usize {
    let mut found = 0;
    for record in 0..work[2] as usize {
        let first = work[FIRST + record];
        if first == NONE {
            continue;
        }
        let (mut least, mut greatest) = ([u32::MAX; 2], [0; 2]);
        let mut at = first;
        loop {
            let place = [work[X + at as usize], work[Y + at as usize]];
            for axis in 0..2 {
                least[axis] = least[axis].min(place[axis]);
                greatest[axis] = greatest[axis].max(place[axis]);
            }
            at = work[NEXT + at as usize];
            if at == first {
                break;
            }
        }
        let side = |word: u32| i64::from(word) - i64::from(COORDINATE);
        let meets = |axis: usize, from: i32, to: i32| {
            from <= to && side(least[axis]) <= i64::from(to) && i64::from(from) <= side(greatest[axis])
        };
        if meets(0, window.left, window.right) && meets(1, window.top, window.bottom) {
            list[found] = record as u32;
            found += 1;
        }
    }
    list[found..].fill(0);
    found
}

fn row(name: &str, rings: usize, window: Rect) {
    let bytes = of_rings(&apart(rings)).bytes();
    let (mut lent, mut refused) = (Lent::new(), Lent::new());
    let (mut list, mut other) = (vec![7; RECORDS], vec![7; RECORDS]);
    assert_eq!(outline::open(&bytes, &mut lent.work), Ok(()), "{name} is refused");
    assert_eq!(outline::open(&bytes, &mut refused.work), Ok(()), "{name} is refused");
    let shown = outline::records_in(&lent.work, window, &mut list).expect("the window is answered").len();
    assert!(walked(&lent.work, window, &mut other) == shown && list == other, "{name}: the records differ");
    let mut whole = || {
        let _ = black_box(outline::records_in(black_box(&lent.work), window, &mut list));
    };
    // A step on a record that is not there is refused after the tests, which walk every point.
    let mut tests = || {
        let _ = black_box(outline::step(&mut refused.work, u32::MAX));
    };
    let t = side_by_side(&mut [&mut whole, &mut tests], 50);
    let mut walking = || {
        black_box(walked(black_box(&lent.work), window, &mut other));
    };
    let points = side_by_side(&mut [&mut walking], 50)[0];
    let ours = t[0] - t[1];
    println!(
        "| {rings} rings, {name} | {shown} | {:.1} | {:.1} | {ours:.1} | {points:.1} | {:.2} |",
        t[0],
        t[1],
        ours / points
    );
}

pub fn rows() {
    println!("\n| window | records | the call, µs | its tests, µs | the window itself, µs | walking the points, µs | ratio |");
    println!("|---|---|---|---|---|---|---|");
    for rings in [16, 128, 512] {
        row("all of them", rings, Rect::ALL);
        // Half as far as the rings lie, both ways.
        let half = -520_000 + 20_000 * (rings as f64).sqrt().ceil() as i32;
        row("about a quarter", rings, Rect { left: -COORDINATE, top: -COORDINATE, right: half, bottom: half });
    }
    row("inside out", 512, Rect { left: 1, top: 1, right: 0, bottom: 0 });
}
