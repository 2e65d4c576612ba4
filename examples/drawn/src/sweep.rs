//! From the Rust's sweep to outlines: the code of docs/CLIPPER.md, word for word.
use oracle::core::FillRule;
use oracle::engine::{ClipType, ClipperBase};
use oracle::engine_public::Clipper64;
use outline::{Job, Path, Point, Ring};
use std::error::Error;

/// The rings that a sweep left, records rising, each from its record's first point on.
pub fn rings(base: &ClipperBase) -> Result<Vec<Ring>, Box<dyn Error>> {
    let mut rings = Vec::new();
    for record in &base.outrec_list {
        let Some(first) = record.pts else { continue };
        let (mut points, mut at) = (Vec::new(), first);
        loop {
            let pt = base.outpt_arena[at].pt;
            points.push(Point { x: pt.x.try_into()?, y: pt.y.try_into()?, z: pt.z.try_into()? });
            at = base.outpt_arena[at].next;
            if at == first {
                break;
            }
        }
        rings.push(Ring { open: record.is_open, points });
    }
    Ok(rings)
}

/// The job of a clipper that holds its subjects and clips: `execute_internal` sweeps, and joins.
pub fn job(clipper: &mut Clipper64, clip_type: ClipType, fill_rule: FillRule) -> Result<Job, Box<dyn Error>> {
    if !clipper.base.execute_internal(clip_type, fill_rule, false) {
        return Err("the sweep gave up".into());
    }
    let rings = rings(&clipper.base)?;
    clipper.base.clean_up();
    let (preserve_collinear, reverse_solution) = (clipper.preserve_collinear(), clipper.reverse_solution());
    Ok(Job { preserve_collinear, reverse_solution, rings })
}

/// In place of `execute`: its closed paths, then its open ones.
pub fn outlines(
    clipper: &mut Clipper64,
    clip_type: ClipType,
    fill_rule: FillRule,
) -> Result<Vec<Path>, Box<dyn Error>> {
    Ok(job(clipper, clip_type, fill_rule)?.finish()?)
}
