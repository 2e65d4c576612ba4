// A job from rings: its bytes, and the outlines of rings that one job cannot hold. tests/drawn compares many more with the Rust's stage.
use outline::*;

fn ring(open: bool, at: &[(i32, i32, i32)]) -> Ring {
    Ring { open, points: at.iter().copied().map(Point::from).collect() }
}

fn of(rings: Vec<Ring>) -> Job {
    Job { rings, ..Job::default() }
}

fn square(k: i32) -> Ring {
    ring(false, &[(20 * k, 0, k), (20 * k + 10, 0, 0), (20 * k + 10, 10, 0), (20 * k, 10, -k)])
}

/// The sample's ring, which is cut into a piece and a hole, at a place of its own.
fn crossed(k: i32) -> Ring {
    ring(false, &[(20 * k, 0, 1), (20 * k + 10, 10, 2), (20 * k + 10, 0, 3), (20 * k, 12, -4)])
}

fn in_one_call(job: &[u8]) -> Result<Vec<Path>, Refused> {
    let (mut work, mut tray) = (vec![0; WORK_WORDS], vec![0; TRAY_BYTES]);
    finish(job, &mut work, &mut tray)?;
    Ok(paths(&tray))
}

/// The bytes are the samples', which `tools/jobtext` made, and the settings' bits are where they belong.
#[test]
fn bytes() {
    let depth = ring(false, &[(0, 0, 1), (10, 10, 2), (10, 0, 3), (0, 12, -4)]);
    let mut job = of(vec![depth]);
    assert_eq!(job.bytes().unwrap(), include_bytes!("../../../samples/depth.job"));
    job.preserve_collinear = true;
    assert_eq!(job.bytes().unwrap()[3], 1);
    job.reverse_solution = true;
    assert_eq!(job.bytes().unwrap()[3], 3);
    assert_eq!(of(vec![]).bytes().unwrap(), [1, 1, 0, 0]);
}

/// A ring without points has a record and no outline; a line stays a line; the order is the rings'.
#[test]
fn small_ones() {
    let line = ring(true, &[(5, 5, 7), (0, 0, 0)]);
    let job = of(vec![line.clone(), ring(false, &[]), square(3), ring(true, &[]), square(1)]);
    let outlines = job.finish().unwrap();
    assert_eq!(outlines, in_one_call(&job.bytes().unwrap()).unwrap());
    let firsts: Vec<(bool, i32)> = outlines.iter().map(|path| (path.open, path.points[0].x)).collect();
    assert_eq!(firsts, [(false, 70), (false, 30), (true, 0)]);
    assert_eq!(of(vec![]).finish(), Ok(vec![]));
}

/// At the limits it is one job; past them it is no job, but rings are finished all the same, in their order.
#[test]
fn shared_out() {
    let (most, more) = (of((0..512).map(square).collect()), of((0..1_300).map(square).collect()));
    assert_eq!(most.finish().unwrap(), in_one_call(&most.bytes().unwrap()).unwrap());
    assert_eq!(more.bytes(), Err(Refused::CROWDED));
    let outlines = more.finish().unwrap();
    assert_eq!(outlines.len(), 1_300);
    for (k, path) in (0..).zip(&outlines) {
        assert_eq!(*path, in_one_call(&of(vec![square(k)]).bytes().unwrap()).unwrap()[0]);
    }
}

/// What was cut off comes after all the rings, as in one large run. 300 rings fit into a job, but what is cut off them does not.
#[test]
fn offcuts_last() {
    let rings: Vec<Ring> = (0..700).map(crossed).collect();
    assert_eq!(in_one_call(&of(rings[..300].to_vec()).bytes().unwrap()), Err(Refused::FULL));
    let outlines = of(rings.clone()).finish().unwrap();
    assert_eq!(outlines.len(), 1_400);
    for (k, ring) in rings.iter().enumerate() {
        let alone = in_one_call(&of(vec![ring.clone()]).bytes().unwrap()).unwrap();
        assert_eq!([&outlines[k], &outlines[700 + k]], [&alone[0], &alone[1]]);
    }
}

#[test]
fn refused() {
    let long = |n: i32| ring(false, &(0..n).map(|k| (k, k * k % 1_000, 0)).collect::<Vec<_>>());
    assert_eq!(of(vec![square(0), long(2_049), square(1)]).finish(), Err(Refused::CROWDED));
    assert_eq!(of(vec![square(0), ring(false, &[(1_048_577, 0, 0)])]).finish(), Err(Refused::OFF_THE_TABLE));
    // Crossings for ever.
    let at = [(0, -1), (9, 2), (7, 13), (-1, 0), (8, 9), (0, 0), (9, 5), (10, 0), (6, 16), (9, 0)];
    let endless = ring(false, &at.map(|(x, y)| (x, y, 0)));
    assert_eq!(of(vec![square(0), endless, square(1)]).finish(), Err(Refused::FULL));
}

/// What docs/JOB.md says of jobs that no sweep leaves: a pentagram, whose edges cross two edges apart, comes back uncut with a point doubled; and with level segments
/// of two heights nothing is left of a square.
#[test]
fn presupposed() {
    let pentagram = [(0, 100), (-59, -81), (95, 31), (-95, 31), (59, -81)].map(|(x, y)| (x, y, 0));
    let outlines = of(vec![ring(false, &pentagram)]).finish().unwrap();
    let points: Vec<String> = outlines[0].points.iter().map(Point::to_string).collect();
    assert_eq!((outlines.len(), points.join(" ").as_str()), (1, "-59,-81,0 95,31,0 -95,31,0 59,-81,0 95,31,0 0,100,0"));
    let square = of(vec![ring(false, &[(0, 0, 0), (10, 0, 0), (10, 10, 0), (0, 10, 0)])]).bytes().unwrap();
    assert_eq!(in_one_call(&square).unwrap().len(), 1);
    assert_eq!(in_one_call(&[&square[..], &[4, 2, 0, 0, 0]].concat()).unwrap().len(), 1);
    assert_eq!(in_one_call(&[&square[..], &[4, 2, 0, 0, 0, 4, 2, 0, 2, 0]].concat()), Ok(vec![]));
}
