//! The listing of a job from rings: the library's own, or the same lines for rings that were shared out over several jobs.
use outline::{list, Job, Path, Refused, TEXT_BYTES, TRAY_BYTES, WORK_WORDS};

/// The listing; or the refusal.
pub fn listing(job: &Job) -> Result<String, Refused> {
    match one_job(job) {
        Some(listing) => Ok(listing),
        None => Ok(of_paths(&job.finish()?, job.reverse_solution)),
    }
}

/// What the library lists; none where it refuses the job, or one job cannot hold the rings.
fn one_job(job: &Job) -> Option<String> {
    let (mut work, mut tray, mut text) = (vec![0; WORK_WORDS], vec![0; TRAY_BYTES], vec![0; TEXT_BYTES]);
    let listing = list(&job.bytes().ok()?, &mut work, &mut tray, 0, &mut text)?;
    let listing = String::from_utf8_lossy(listing).into_owned();
    (!listing.starts_with("refused")).then_some(listing)
}

/// Sum of (prev y + y) × (prev x − x) over a path.
fn doubled_area(path: &Path) -> i64 {
    let before = path.points.iter().cycle().skip(path.points.len() - 1);
    let number = i64::from;
    before.zip(&path.points).map(|(a, b)| (number(a.y) + number(b.y)) * (number(a.x) - number(b.x))).sum()
}

/// The lines that the library would list of these paths.
pub fn of_paths(paths: &[Path], reversed: bool) -> String {
    let open = paths.iter().filter(|path| path.open).count();
    let mut out = format!("closed {} open {open}\n", paths.len() - open);
    for path in paths {
        let points: String = path.points.iter().map(|point| format!(" {point}")).collect();
        out += &match path.open {
            true => format!("line {}{points}\n", path.points.len()),
            false => {
                let area = doubled_area(path);
                let word = match if reversed { -area } else { area }.signum() {
                    1 => "piece",
                    0 => "flat",
                    _ => "hole",
                };
                format!("{word} {} {area}{points}\n", path.points.len())
            }
        };
    }
    out
}
