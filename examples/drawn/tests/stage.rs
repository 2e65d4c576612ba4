// Rings that one job cannot hold, shared out by `outline::Job`, against one large run of the Rust's stage; and drawings against the whole `execute`.
use drawn::{compare, listing, sweep};
use oracle::core::{FillRule, Paths64, Point64};
use oracle::drawn::{drawing, table, Drawing};
use oracle::engine::{ClipType, ClipperBase, OutPt, OutRec};
use oracle::engine_public::Clipper64;
use oracle::rng::Rng;
use outline::{Job, Point, Refused, Ring};

/// The Rust's stage on the rings as they are, all at once: for NoClip `execute` sweeps nothing.
fn stage(job: &Job) -> (Paths64, Paths64) {
    let mut base = ClipperBase::new();
    base.preserve_collinear = job.preserve_collinear;
    base.reverse_solution = job.reverse_solution;
    for (record, ring) in job.rings.iter().enumerate() {
        let (first, count) = (base.outpt_arena.len(), ring.points.len());
        for (k, p) in ring.points.iter().enumerate() {
            let mut op = OutPt::new(Point64::new_z(p.x.into(), p.y.into(), p.z.into()), record);
            (op.next, op.prev) = (first + (k + 1) % count, first + (k + count - 1) % count);
            base.outpt_arena.push(op);
        }
        let mut outrec = OutRec::new(record);
        outrec.pts = (count > 0).then_some(first);
        outrec.is_open = ring.open;
        base.outrec_list.push(outrec);
    }
    let (mut closed, mut open) = (Paths64::new(), Paths64::new());
    Clipper64 { base }.execute(ClipType::NoClip, FillRule::EvenOdd, &mut closed, Some(&mut open));
    (closed, open)
}

/// A ring on a few places, so that points coincide, lie in line, and edges cross: some of it is cut off. One whose crossings come for ever is drawn anew.
fn ring(rng: &mut Rng, settings: (bool, bool)) -> Ring {
    loop {
        let (side, count) = (rng.pick(&[6, 20, 400]), rng.below(20));
        let points = (0..count).map(|_| Point::from((rng.from(0, side), rng.from(0, side), rng.from(-9, 9)))).collect();
        let ring = Ring { open: rng.one_in(9), points };
        let (preserve_collinear, reverse_solution) = settings;
        let alone = Job { preserve_collinear, reverse_solution, rings: vec![ring.clone()] };
        match alone.finish() {
            Err(Refused::FULL) => continue,
            told => told.expect("a small ring is finished"),
        };
        return ring;
    }
}

#[test]
fn one_large_run() {
    let (mut past, mut cut_off) = (0, 0);
    for case in 0..40 {
        let mut rng = Rng::of(37, case);
        let settings = (rng.one_in(2), rng.one_in(2));
        let rings: Vec<Ring> = (0..rng.from(100, 900)).map(|_| ring(&mut rng, settings)).collect();
        let job = Job { preserve_collinear: settings.0, reverse_solution: settings.1, rings };
        let outlines = job.finish().unwrap();
        let (closed, open) = stage(&job);
        compare::same(&outlines, &closed, &open).unwrap_or_else(|what| panic!("case {case}: {what}"));
        past += usize::from(job.bytes().is_err());
        cut_off += closed.len();
        // The comparison sees an exchange.
        let mut other = outlines.clone();
        other.swap(0, 1);
        assert!(compare::same(&other, &closed, &open).is_err());
    }
    assert!(past > 20 && cut_off > 1_000, "{past} jobs past the limits, {cut_off} closed outlines");
}

/// A drawing the whole way, against `execute`; and where one job holds its rings, our own lines against the library's. Ours first: rings that it finishes are rings on
/// which the Rust ends. None where it is refused; else whether it was one job.
fn whole_way(name: &str, drawing: &Drawing) -> Option<bool> {
    let (clip_type, fill_rule) = (drawing.clip_type, drawing.fill_rule);
    let job = sweep::job(&mut drawing.clipper(), clip_type, fill_rule).expect("the sweep does not give up");
    let outlines = job.finish().ok()?;
    let (closed, open) = drawing.executed().expect("the sweep does not give up");
    compare::same(&outlines, &closed, &open).unwrap_or_else(|what| panic!("{name}: {what}\n{drawing}"));
    assert_eq!(sweep::outlines(&mut drawing.clipper(), clip_type, fill_rule).unwrap(), outlines);
    assert_eq!(listing::listing(&job).unwrap(), listing::of_paths(&outlines, job.reverse_solution));
    Some(job.bytes().is_ok())
}

#[test]
fn drawings() {
    for (name, drawing) in table() {
        assert_eq!(whole_way(name, &drawing), Some(true), "{name}");
    }
    let drawn = (0..400).filter_map(|case| {
        let (name, drawing) = drawing(&mut Rng::of(38, case));
        whole_way(name, &drawing)
    });
    assert!(drawn.count() > 390);
}

/// A drawing whose sweep leaves more than a job holds.
#[test]
fn larger_than_a_job() {
    let tray = &table()[0].1;
    let mut large = Drawing { settings: 3, ..Drawing::default() };
    for k in 0..12 {
        let moved = |p: &Point64| Point64::new_z(p.x / 8 + 40_000 * (k % 4), p.y / 8 + 40_000 * (k / 4), k);
        large.subject.extend(tray.subject.iter().map(|path| path.iter().map(moved).collect()));
    }
    assert_eq!(whole_way("twelve trays", &large), Some(false));
}

/// Text and back.
#[test]
fn text() {
    for case in 0..200 {
        let (_, drawing) = drawing(&mut Rng::of(39, case));
        assert_eq!(Drawing::read(&drawing.to_string()).unwrap().to_string(), drawing.to_string());
    }
    for bad in [
        "Union",
        "Union NonZero settings 4",
        "subject 0,0 1",
        "clip 0,0,0,0",
        "subject 0,x",
        "ring 0,0",
        "union NonZero settings 0",
    ] {
        assert!(Drawing::read(bad).is_err(), "{bad}");
    }
}
