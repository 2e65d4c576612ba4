//! The page that plays two orders side by side: one file, with the steps as data in it.
use crate::orders::{Run, Step};
use crate::view::Ring;
use outline::Point;
use std::fmt::Write;

const PAGE: &str = include_str!("page.html");

/// Three numbers a point.
fn numbers(points: &[Point]) -> String {
    points.iter().map(|point| point.to_string()).collect::<Vec<_>>().join(",")
}

fn ring(ring: &Ring) -> String {
    let cut = ring.cut_from.map_or(-1, |from| from as i64);
    format!(
        "{{\"open\":{},\"due\":{},\"at\":{},\"cut\":{cut},\"why\":\"{}\",\"points\":[{}]}}",
        ring.open,
        ring.due,
        ring.present,
        ring.why,
        numbers(&ring.points)
    )
}

/// How one list of points becomes another: how many stay at the front, how many at the back, and what stands between.
fn change(before: &[Point], after: &[Point]) -> String {
    let front = before.iter().zip(after).take_while(|(a, b)| a == b).count();
    let room = before.len().min(after.len()) - front;
    let back = before.iter().rev().zip(after.iter().rev()).take(room).take_while(|(a, b)| a == b).count();
    let between = &after[front..after.len() - back];
    let comma = if between.is_empty() { "" } else { "," };
    format!("[{front},{back}{comma}{}]", numbers(between))
}

/// The steps of a run: record, step due afterwards, present place, the change of its points, and the offcut or 0.
fn steps(opened: &[Ring], run: &Run) -> String {
    let mut rings = opened.to_vec();
    let mut out = String::new();
    for (count, Step { record, ring: after, offcut }) in run.steps.iter().enumerate() {
        let change = change(&rings[*record].points, &after.points);
        let cut = offcut.as_ref().map_or("0".to_string(), ring);
        let comma = if count == 0 { "" } else { ",\n" };
        write!(out, "{comma}[{record},{},{},{change},{cut}]", after.due, after.present).unwrap();
        rings[*record] = after.clone();
        rings.extend(offcut.clone());
    }
    out
}

fn escape(text: &str) -> String {
    text.replace('&', "&amp;").replace('<', "&lt;").replace('>', "&gt;").replace('"', "&quot;")
}

pub fn page(name: &str, opened: &[Ring], runs: &[Run]) -> String {
    let rings: Vec<String> = opened.iter().map(ring).collect();
    let runs: Vec<String> = runs
        .iter()
        .map(|run| format!("{{\"name\":\"{}\",\"steps\":[{}]}}", run.order.name(), steps(opened, run)))
        .collect();
    let data = format!("{{\"rings\":[{}],\"runs\":[{}]}}", rings.join(","), runs.join(",\n"));
    PAGE.replace("NAME-OF-THE-JOB", &escape(name)).replace("DATA-OF-THE-JOB", &data)
}

#[cfg(test)]
mod tests {
    use super::*;

    #[test]
    fn changes() {
        let [a, b, c] = [(0, 0, 0), (1, 1, -1), (1, 1, 7)].map(Point::from);
        assert_eq!(change(&[a, b, c], &[a, c]), "[1,1]");
        assert_eq!(change(&[a, c], &[a, b, c]), "[1,1,1,1,-1]");
        assert_eq!(change(&[a, a], &[a, a]), "[2,0]");
        assert_eq!(change(&[a, b], &[]), "[0,0]");
        assert_eq!(change(&[a, a], &[a, a, a]), "[2,0,0,0,0]");
    }

    #[test]
    fn names_are_escaped() {
        assert!(page("<a & \"b\">", &[], &[]).contains("&lt;a &amp; &quot;b&quot;&gt;"));
    }
}
