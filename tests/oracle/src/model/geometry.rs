// Whole-number geometry of the model, from document 01; only the crossing point takes floats.

/// x, y and z. Rules look at places alone: only `same` says whether two points are equal.
pub type Pt = (i64, i64, i64);

/// Equality of points ignores z (document 02, Ask 9).
pub fn same(a: Pt, b: Pt) -> bool {
    (a.0, a.1) == (b.0, b.1)
}

/// Twice the signed area that three points turn through.
fn cross(a: Pt, b: Pt, c: Pt) -> i64 {
    (b.0 - a.0) * (c.1 - b.1) - (b.1 - a.1) * (c.0 - b.0)
}

/// Whether b is to be dropped between a and c: in line, and equal to one of them, or a spike, or collinear points aren't kept.
pub fn droppable(a: Pt, b: Pt, c: Pt, keep: bool) -> bool {
    let dot = (b.0 - a.0) * (c.0 - b.0) + (b.1 - a.1) * (c.1 - b.1);
    cross(a, b, c) == 0 && (same(a, b) || same(b, c) || !keep || dot < 0)
}

/// Whether two points differ by under 2 in both x and y.
pub fn close(a: Pt, b: Pt) -> bool {
    (a.0 - b.0).abs() < 2 && (a.1 - b.1).abs() < 2
}

/// The divisor of two edges a-b and c-d, and the numerators of their fractions along a-b and along c-d.
fn fractions(a: Pt, b: Pt, c: Pt, d: Pt) -> (i64, i64, i64) {
    let (dx1, dy1) = (b.0 - a.0, b.1 - a.1);
    let (dx2, dy2) = (d.0 - c.0, d.1 - c.1);
    let (ex, ey) = (a.0 - c.0, a.1 - c.1);
    (dy1 * dx2 - dy2 * dx1, ex * dy2 - ey * dx2, ex * dy1 - ey * dx1)
}

/// Whether the edges cross strictly inside both.
pub fn crosses(a: Pt, b: Pt, c: Pt, d: Pt) -> bool {
    let (divisor, along_first, along_second) = fractions(a, b, c, d);
    let inside = |part: i64| part != 0 && part.signum() == divisor.signum() && part.abs() < divisor.abs();
    inside(along_first) && inside(along_second)
}

/// Where edges that cross meet: one division, one product, one sum, each rounded once, then toward zero. They cross inside, so z is 0.
pub fn crossing_point(a: Pt, b: Pt, c: Pt, d: Pt) -> Pt {
    let (divisor, along_first, _) = fractions(a, b, c, d);
    let fraction = along_first as f64 / divisor as f64;
    let along = |from: i64, to: i64| (from as f64 + fraction * (to - from) as f64) as i64;
    (along(a.0, b.0), along(a.1, b.1), 0)
}

/// Twice a ring's area, by the listing's formula.
pub fn doubled_area(ring: &[Pt]) -> i64 {
    let n = ring.len();
    (0..n).map(|k| (ring[(k + n - 1) % n], ring[k])).map(|(p, q)| (p.1 + q.1) * (p.0 - q.0)).sum()
}
