// A drawing as text: parts after `;` or a line's end, `#` for a comment.
//
//   Union NonZero settings 1; subject 0,0 9,0 9,9 0,9; open 1,1 12,3; clip 5,5,7 14,5 14,14
use super::Drawing;
use crate::core::{FillRule, Path64, Point64};
use crate::engine::ClipType;
use crate::job::{KEEP, REVERSE};
use std::fmt;

const CLIP_TYPES: [(&str, ClipType); 5] = [
    ("NoClip", ClipType::NoClip),
    ("Intersection", ClipType::Intersection),
    ("Union", ClipType::Union),
    ("Difference", ClipType::Difference),
    ("Xor", ClipType::Xor),
];

const FILL_RULES: [(&str, FillRule); 4] = [
    ("EvenOdd", FillRule::EvenOdd),
    ("NonZero", FillRule::NonZero),
    ("Positive", FillRule::Positive),
    ("Negative", FillRule::Negative),
];

fn named<T: Copy>(table: &[(&str, T)], name: &str) -> Option<T> {
    table.iter().find(|(known, _)| *known == name).map(|(_, value)| *value)
}

/// x,y or x,y,z.
fn point(word: &str) -> Result<Point64, String> {
    let number = |part: &str| part.parse::<i32>().map(i64::from);
    let numbers: Result<Vec<i64>, _> = word.split(',').map(number).collect();
    match numbers.as_deref() {
        Ok(&[x, y]) => Ok(Point64::new(x, y)),
        Ok(&[x, y, z]) => Ok(Point64::new_z(x, y, z)),
        _ => Err(format!("not a point X,Y or X,Y,Z of whole numbers: {word}")),
    }
}

fn take(drawing: &mut Drawing, part: &str) -> Result<(), String> {
    let words: Vec<&str> = part.split_whitespace().collect();
    let path = |words: &[&str]| words.iter().map(|word| point(word)).collect::<Result<Path64, String>>();
    match words[..] {
        [] => (),
        ["subject", ref words @ ..] => drawing.subject.push(path(words)?),
        ["open", ref words @ ..] => drawing.open.push(path(words)?),
        ["clip", ref words @ ..] => drawing.clip.push(path(words)?),
        [clip_type, fill_rule, "settings", settings] => {
            drawing.clip_type = named(&CLIP_TYPES, clip_type).ok_or(format!("not a clip type: {clip_type}"))?;
            drawing.fill_rule = named(&FILL_RULES, fill_rule).ok_or(format!("not a fill rule: {fill_rule}"))?;
            let settings = settings.parse().ok().filter(|bits| bits & !(KEEP | REVERSE) == 0);
            drawing.settings = settings.ok_or("settings are a number from 0 to 3")?;
        }
        _ => return Err(format!("not CLIP_TYPE FILL_RULE settings S, subject, open or clip: {part}")),
    }
    Ok(())
}

impl Drawing {
    /// Reads a drawing; else says what is wrong with it.
    pub fn read(text: &str) -> Result<Drawing, String> {
        let mut drawing = Drawing::default();
        let lines = text.lines().map(|line| line.split('#').next().unwrap_or(""));
        for part in lines.flat_map(|line| line.split(';')) {
            take(&mut drawing, part.trim())?;
        }
        Ok(drawing)
    }
}

impl fmt::Display for Drawing {
    fn fmt(&self, f: &mut fmt::Formatter<'_>) -> fmt::Result {
        write!(f, "{:?} {:?} settings {}", self.clip_type, self.fill_rule, self.settings)?;
        for (word, paths) in [("subject", &self.subject), ("open", &self.open), ("clip", &self.clip)] {
            for path in paths {
                write!(f, "\n{word}")?;
                for p in path {
                    write!(f, " {},{}", p.x, p.y)?;
                    if p.z != 0 {
                        write!(f, ",{}", p.z)?;
                    }
                }
            }
        }
        writeln!(f)
    }
}
