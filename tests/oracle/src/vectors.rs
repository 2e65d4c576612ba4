// Cases of the real geometry functions, one a line: `name numbers = result`. README.md has the format. Depths are drawn apart, so that places are as before.
use crate::core::{dot_product_three_points, get_segment_intersect_pt, is_collinear, segments_intersect, Point64};
use crate::engine_fns::{area_triangle, is_very_small_triangle, pts_really_close};
use crate::fraction::{near_tie, rounded};
use crate::job::{Job, COORDINATE, NONE};
use crate::rng::Rng;
use crate::{gen, real};

/// A coordinate of one of three kinds: small, near a limit, or anywhere.
fn coordinate(rng: &mut Rng, kind: usize) -> i64 {
    let small = rng.from(-6, 6);
    let value = match kind {
        0 => small,
        1 => rng.pick(&[-COORDINATE, COORDINATE, -COORDINATE, COORDINATE, 0]),
        2 => {
            let near = small.abs();
            rng.pick(&[-COORDINATE + near, COORDINATE - near])
        }
        3 => rng.from(-COORDINATE, COORDINATE),
        _ => rng.from(-100, 100),
    };
    value as i64
}

/// A point up to 3 away in each direction, for closeness.
fn beside(rng: &mut Rng, at: Point64) -> Point64 {
    let mut near = |c: i64| (c + rng.from(-3, 3) as i64).clamp(-COORDINATE as i64, COORDINATE as i64);
    Point64::new(near(at.x), near(at.y))
}

/// The same places with a depth each.
fn deep<const N: usize>(rng: &mut Rng, points: [Point64; N]) -> [Point64; N] {
    points.map(|p| Point64::new_z(p.x, p.y, gen::depth(rng) as i64))
}

fn points(rng: &mut Rng) -> [Point64; 4] {
    let kind = rng.below(6);
    let mut point = || {
        let kind = if kind == 5 { rng.below(5) } else { kind };
        Point64::new(coordinate(rng, kind), coordinate(rng, kind))
    };
    let mut four = [point(), point(), point(), point()];
    // One case in four has its third point on the line of the first two, or two points that are one.
    if rng.one_in(4) {
        let (a, b) = (four[0], four[1]);
        let (x, y) = ((a.x + b.x) / 2, (a.y + b.y) / 2);
        four[2] = rng.pick(&[Point64::new(x, y), a, b]);
    }
    four
}

/// Four points whose second fraction, or whose first, lies as near to the middle of two floats as its divisor lets it; their edges cross.
fn near_points(rng: &mut Rng) -> [Point64; 4] {
    let side = COORDINATE as i64;
    loop {
        let det = ((1 << 39) + (rng.bits() >> 25) as i64) | 1;
        let num = near_tie(det);
        // The first edge is (side, 1), so that the divisor is dx2 - dy2 * side, and the second numerator likewise.
        let (a, b) = (Point64::new(0, 0), Point64::new(side, 1));
        let c = Point64::new(-(num % side), num / side);
        let d = Point64::new(c.x + det % side, c.y - det / side);
        if segments_intersect(a, b, c, d, false) {
            return if rng.one_in(2) { [a, b, c, d] } else { [c, d, a, b] };
        }
    }
}

/// What `get_segment_intersect_pt` shows: parallel, at the start, at the end, or inside, and its point. Where the point inside
/// falls on an end by truncation, that end is told by the fraction's own sign and size in whole numbers. Inside, the fractions of the
/// first edge and of the second, each M and E for M / 2^E, exact and then rounded once.
fn crossing([a, b, c, d]: [Point64; 4]) -> String {
    let mut at = Point64::new(0, 0);
    if !get_segment_intersect_pt(a, b, c, d, &mut at) {
        return "parallel".into();
    }
    let divisor = (b.y - a.y) * (d.x - c.x) - (d.y - c.y) * (b.x - a.x);
    let first = (a.x - c.x) * (d.y - c.y) - (a.y - c.y) * (d.x - c.x);
    let second = (a.x - c.x) * (b.y - a.y) - (a.y - c.y) * (b.x - a.x);
    let along = first * divisor.signum();
    if along <= 0 {
        return format!("start{}", text(&[at]));
    }
    if along >= divisor.abs() {
        return format!("end{}", text(&[at]));
    }
    let ((m1, e1), (m2, e2)) = (rounded(first, divisor), rounded(second, divisor));
    format!("inside{} {m1} {e1} {m2} {e2}", text(&[at]))
}

/// The condition in `clean_collinear` on which it drops `pt`, from the real functions that it calls.
fn removable(preserve: bool, prev: Point64, pt: Point64, next: Point64) -> bool {
    is_collinear(prev, pt, next)
        && (pt == prev || pt == next || !preserve || dot_product_three_points(prev, pt, next) < 0.0)
}

/// The real `is_very_small_triangle` of a ring of three, asked of `pt`.
fn very_small(prev: Point64, pt: Point64, next: Point64) -> bool {
    let mut job = Job::default();
    job.add_ring(0, NONE, &[prev, pt, next].map(|p| (p.x as i32, p.y as i32, p.z as i32)));
    is_very_small_triangle(1, &real::open_untested(&job).outpt_arena)
}

fn text(points: &[Point64]) -> String {
    points.iter().map(|p| format!(" {} {} {}", p.x, p.y, p.z)).collect()
}

/// Two cases of four points: whether their edges cross, and where.
fn edges(four: [Point64; 4]) -> String {
    let [a, b, c, d] = four;
    let (points, cross) = (text(&four), segments_intersect(a, b, c, d, false) as u8);
    format!("segments_intersect{points} = {cross}\nget_segment_intersect_pt{points} = {}\n", crossing(four))
}

/// One round: a case of each function on the same four points, and a crossing near the middle of two floats.
pub fn geometry(seed: u64, index: u64) -> String {
    let mut out = String::new();
    let (mut rng, mut depths) = (Rng::of(seed, index), Rng::of(!seed, !index));
    let four = deep(&mut depths, points(&mut rng));
    let [a, b, c, _] = four;
    let [near] = deep(&mut depths, [beside(&mut rng, a)]);
    let three = text(&[a, b, c]);
    let dot = dot_product_three_points(a, b, c);
    let sign = (dot > 0.0) as i32 - (dot < 0.0) as i32;
    out += &format!("pts_really_close{} = {}\n", text(&[a, near]), pts_really_close(a, near) as u8);
    out += &format!("is_collinear{three} = {}\n", is_collinear(a, b, c) as u8);
    out += &format!("dot_product_three_points{three} = {sign}\n");
    out += &format!("area_triangle{three} = {}\n", area_triangle(a, b, c) as i64);
    out += &edges(four);
    // The third point may lie between the first two: then it is in line between them, and the second is a spike.
    let [prev, pt, next] = rng.pick(&[[a, c, b], [a, b, c]]);
    for preserve in [false, true] {
        let gone = removable(preserve, prev, pt, next) as u8;
        out += &format!("removable {}{} = {gone}\n", preserve as u8, text(&[prev, pt, next]));
    }
    let [prev, pt, next] = rng.pick(&[[a, near, b], [near, b, a], [b, a, near], [a, b, c]]);
    out += &format!("is_very_small_triangle{} = {}\n", text(&[prev, pt, next]), very_small(prev, pt, next) as u8);
    out + &edges(deep(&mut depths, near_points(&mut rng)))
}

/// One case of the real `build_path64_from_outpt`: `path REVERSE OPEN points = path` or `none`.
pub fn path(seed: u64, index: u64) -> String {
    let (mut rng, mut depths) = (Rng::of(seed, index), Rng::of(!seed, !index));
    let mut ring = gen::ring(&mut rng);
    // Equal neighbours, and now and then an end equal to the first.
    for k in 1..ring.len() {
        if rng.one_in(3) {
            ring[k] = ring[k - 1];
        }
    }
    let (reverse, open) = (rng.one_in(2), rng.one_in(3));
    let mut job = Job::default();
    let ring: Vec<_> = ring.iter().map(|&(x, y)| (x, y, gen::depth(&mut depths))).collect();
    job.add_ring(0, NONE, &ring);
    let path = real::path_of(&real::open_untested(&job), 0, reverse, open);
    let text = |points: &[real::Pt]| points.iter().map(|(x, y, z)| format!(" {x} {y} {z}")).collect::<String>();
    let ring: Vec<_> = ring.iter().map(|&(x, y, z)| (x as i64, y as i64, z as i64)).collect();
    let result = path.map_or_else(|| " none".to_string(), |path| text(&path));
    format!("path {} {}{} ={result}\n", reverse as u8, open as u8, text(&ring))
}
