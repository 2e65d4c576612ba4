//! From a drawing to outlines: reads a drawing as text, sweeps it by the Rust, takes the rings that the sweep left, finishes them by the library and prints the listing.
use drawn::{compare, listing, sweep};
use oracle::drawn::Drawing;
use std::error::Error;
use std::io::{Read, Write};

const USAGE: &str = "usage: drawn DRAWING [--compare] [--job FILE]      DRAWING - for standard input

Prints the listing of a drawing, which is text, parts after ; or a line's end, # for a comment:

    Union NonZero settings 1; subject 0,0 9,0 9,9 0,9; open 1,1 12,3; clip 5,5,7 14,5 14,14

that is: a clip type (Intersection, Union, Difference, Xor), a fill rule (EvenOdd, NonZero, Positive, Negative) and the job's settings; closed subjects, open subjects, clips; points
as X,Y or X,Y,Z.

    --compare      also clips by the Rust alone (`execute`) and says whether the paths are the same
    --job FILE     also writes the job, for ./cutlist, tools/picture and the others";

/// What the words after the program's name ask for.
#[derive(Default)]
struct Asked {
    drawing: Option<String>,
    compare: bool,
    job: Option<String>,
}

fn asked(mut words: impl Iterator<Item = String>) -> Option<Asked> {
    let mut asked = Asked::default();
    while let Some(word) = words.next() {
        match word.as_str() {
            "--compare" => asked.compare = true,
            "--job" => asked.job = Some(words.next()?),
            _ if word.starts_with("--") || asked.drawing.is_some() => return None,
            _ => asked.drawing = Some(word),
        }
    }
    asked.drawing.is_some().then_some(asked)
}

fn text(name: &str) -> Result<String, Box<dyn Error>> {
    let mut text = String::new();
    match name {
        "-" => std::io::stdin().read_to_string(&mut text).map(|_| ()),
        name => std::fs::read_to_string(name).map(|read| text = read),
    }
    .map_err(|why| format!("cannot read {name}: {why}"))?;
    Ok(text)
}

fn run(asked: &Asked) -> Result<(), Box<dyn Error>> {
    let drawing = Drawing::read(&text(asked.drawing.as_deref().unwrap_or("-"))?)?;
    let job = sweep::job(&mut drawing.clipper(), drawing.clip_type, drawing.fill_rule)?;
    if let Some(name) = &asked.job {
        std::fs::write(name, job.bytes()?).map_err(|why| format!("cannot write {name}: {why}"))?;
    }
    let mut out = listing::listing(&job)?;
    if asked.compare {
        // Rings that ours finishes are rings on which the Rust ends.
        let (closed, open) = drawing.executed().ok_or("the Rust gave up")?;
        compare::same(&job.finish()?, &closed, &open)?;
        out += &format!("the Rust's execute gives the same: closed {} open {}\n", closed.len(), open.len());
    }
    said(&out)
}

fn said(out: &str) -> Result<(), Box<dyn Error>> {
    Ok(std::io::stdout().write_all(out.as_bytes()).map_err(|why| format!("cannot write: {why}"))?)
}

fn main() {
    let words: Vec<String> = std::env::args().skip(1).collect();
    let help = words.iter().any(|word| word == "--help");
    let (status, ran) = match asked(words.into_iter()) {
        _ if help => (2, said(&format!("{USAGE}\n"))),
        None => (2, Err(USAGE.lines().next().unwrap_or("").into())),
        Some(asked) => (1, run(&asked)),
    };
    if let Err(why) = ran {
        eprintln!("drawn: {why}");
        std::process::exit(status);
    }
}
