// A child module of the Rust's engine.rs: only a child may call its parent's private functions, and these two are private.
use super::{ClipType, ClipperBase};
use crate::core::FillRule;

impl ClipperBase {
    /// The real `convert_horz_segs_to_joins`.
    pub(crate) fn call_convert_horz_segs_to_joins(&mut self) {
        self.convert_horz_segs_to_joins();
    }

    /// The real `process_horz_joins`.
    pub(crate) fn call_process_horz_joins(&mut self) {
        self.process_horz_joins();
    }
}

impl ClipperBase {
    /// The sweep, by the real functions in the order of `execute_internal`, up to the last scanline's level segments: what is left of that call is to make joins
    /// of them (`convert_horz_segs_to_joins`, as after every scanline before) and to carry out all joins. False where the sweep gives up.
    pub(crate) fn sweep_to_last_line(&mut self, clip_type: ClipType, fill_rule: FillRule) -> bool {
        (self.cliptype, self.fillrule, self.using_polytree) = (clip_type, fill_rule, false);
        self.reset();
        let first = if clip_type == ClipType::NoClip { None } else { self.pop_scanline() };
        let Some(mut line) = first else { return true };
        while self.succeeded {
            self.insert_local_minima_into_ael(line);
            self.level_edges();
            if self.scanline_list.is_empty() {
                break;
            }
            self.convert_horz_segs_to_joins();
            self.horz_seg_list.clear();
            self.bot_y = line;
            line = self.pop_scanline().expect("the list has a scanline");
            let at_top = self.do_intersections(line);
            self.do_top_of_scanbeam(line, at_top);
            self.level_edges();
        }
        self.succeeded
    }

    fn level_edges(&mut self) {
        while let Some(edge) = self.pop_horz() {
            self.do_horizontal(edge);
        }
    }
}
