//! Two orders' rings matched: a ring that the job has by its record, an offcut by the ring it was cut from and cutting order.
use crate::orders::Run;
use crate::view::Ring;
use std::collections::BTreeMap;

/// A ring's name in any order: its record, or the name of the ring that it was cut from and its place among that one's offcuts.
pub type Name = Vec<usize>;

pub fn names(rings: &[Ring]) -> Vec<Name> {
    let mut names: Vec<Name> = Vec::new();
    let mut cut = vec![0; rings.len()];
    for (record, ring) in rings.iter().enumerate() {
        // An offcut has a later record than the ring it was cut from.
        let name = match ring.cut_from {
            Some(from) if from < record => {
                cut[from] += 1;
                [names[from].as_slice(), &[cut[from] - 1]].concat()
            }
            _ => vec![record],
        };
        names.push(name);
    }
    names
}

pub fn say(name: &[usize]) -> String {
    let (record, cuts) = name.split_first().expect("a name begins with a record");
    cuts.iter().rev().fold(String::new(), |said, cut| format!("{said}offcut {cut} of ")) + &format!("ring {record}")
}

fn matched(run: &Run) -> BTreeMap<Name, &Ring> {
    names(&run.rings).into_iter().zip(&run.rings).collect()
}

fn points(ring: Option<&&Ring>) -> String {
    match ring {
        None => "not there".to_string(),
        Some(ring) if ring.points.is_empty() => "no points".to_string(),
        Some(ring) => ring.points.iter().map(|point| point.to_string()).collect::<Vec<_>>().join(" "),
    }
}

/// The first thing in which two orders differ: a ring, how many steps there were, or the paths written.
pub fn difference(one: &Run, other: &Run) -> Option<String> {
    let (a, b) = (matched(one), matched(other));
    let (first, second) = (one.order.name(), other.order.name());
    for name in a.keys().chain(b.keys()) {
        let same = |x: &&Ring, y: &&Ring| (x.open, x.due, &x.points) == (y.open, y.due, &y.points);
        let (x, y) = (a.get(name), b.get(name));
        if !matches!((x, y), (Some(x), Some(y)) if same(x, y)) {
            return Some(format!("{}: {first} {}; {second} {}", say(name), points(x), points(y)));
        }
    }
    if one.count != other.count {
        return Some(format!("steps: {first} {}; {second} {}", one.count, other.count));
    }
    let sorted = |run: &Run| {
        let mut all: Vec<_> = run.paths.iter().flatten().map(|path| (path.open, path.points.clone())).collect();
        all.sort();
        all
    };
    (sorted(one) != sorted(other)).then(|| format!("the paths written: {first} and {second} differ"))
}

#[cfg(test)]
mod tests {
    use super::*;
    use crate::orders::{run, Order};

    const CROSSED: &[u8] = include_bytes!("../../../../../samples/crossed.job");

    fn finished(order: Order) -> Run {
        let mut work = vec![0; outline::WORK_WORDS];
        outline::open(CROSSED, &mut work).unwrap();
        run(&work, order, false)
    }

    #[test]
    fn the_sample_is_the_same() {
        let (one, other) = (finished(Order::Rising), finished(Order::Falling));
        assert_eq!(names(&one.rings), [vec![0], vec![0, 0]]);
        assert_eq!(difference(&one, &other), None);
    }

    #[test]
    fn what_differs_is_shown() {
        let one = finished(Order::Rising);
        let spoiled = |spoil: fn(&mut Run)| {
            let mut other = finished(Order::Shuffled(1));
            spoil(&mut other);
            difference(&one, &other).expect("a difference")
        };
        let points = spoiled(|run| run.rings[1].points[0].x = 6);
        assert_eq!(points, "offcut 0 of ring 0: rising 5,5,0 10,10,0 10,0,0; shuffled 6,5,0 10,10,0 10,0,0");
        let depth = spoiled(|run| run.rings[1].points[2].z = 6);
        assert_eq!(depth, "offcut 0 of ring 0: rising 5,5,0 10,10,0 10,0,0; shuffled 5,5,0 10,10,0 10,0,6");
        assert!(spoiled(|run| run.rings[0].points.clear()).ends_with("shuffled no points"));
        assert!(spoiled(|run| drop(run.rings.pop())).ends_with("shuffled not there"));
        assert!(spoiled(|run| run.rings.push(Ring::default())).starts_with("ring 2: rising not there"));
        assert!(spoiled(|run| run.rings[0].due = 3).starts_with("ring 0: "));
        assert_eq!(spoiled(|run| run.count += 1), "steps: rising 13; shuffled 14");
        assert_eq!(spoiled(|run| run.paths = Ok(vec![])), "the paths written: rising and shuffled differ");
    }

    #[test]
    fn offcuts_by_cutting_order() {
        let cut = |from| Ring { cut_from: Some(from), ..Ring::default() };
        let rings = [Ring::default(), Ring::default(), cut(1), cut(0), cut(1), cut(2)];
        assert_eq!(names(&rings), [vec![0], vec![1], vec![1, 0], vec![0, 0], vec![1, 1], vec![1, 0, 0]]);
        assert_eq!(say(&[1, 0, 2]), "offcut 2 of offcut 0 of ring 1");
    }
}
