//! How long each run of a mapper is.

use crate::case::{Case, Line};
use second::answer::Refusal;
use second::rules::compressed::Frame;
use second::rules::lengths;

type Rule = fn(usize, usize) -> Result<usize, Refusal>;

fn length(name: &str, call: &str, rule: Rule, format: usize, run: usize) -> Case {
    let outcome = rule(format, run);
    let line = Line::new(name, call).key("format", format).key("run", run);
    line.gives("length", outcome.unwrap_or(0)).answered(&outcome)
}

fn compressed(name: &str, of: Frame, run: usize) -> Case {
    let outcome = lengths::compressed(of, run);
    let line = Line::new(name, "compressed lengths").key("format", of.format).key("kind", of.kind);
    let line = line.key("first", of.first).key("missing", of.missing).key("run", run);
    line.gives("length", outcome.unwrap_or(0)).answered(&outcome)
}

pub fn all() -> Vec<Case> {
    let frame = |first, missing| Frame { format: 12, kind: 1, first, missing };
    vec![
        length("done", "slot lengths", lengths::slot, 12, 0),
        length("refusal 1", "slot lengths", lengths::slot, 17, 3),
        length("refusal 11", "slot lengths", lengths::slot, 16, 3),
        length("done", "frame lengths", lengths::frame, 16, 2),
        length("done", "DPDCH lengths", lengths::dpdch, 6, 1),
        length("done", "DPDCH frame lengths", lengths::dpdch_frame, 0, 0),
        length("done", "DPCCH lengths", lengths::dpcch, 2, 1),
        length("done", "DPCCH frame lengths", lengths::dpcch_frame, 2, 3),
        length("done", "HS-PDSCH lengths", lengths::hspdsch, 1, 2),
        compressed("done", frame(4, 7), 1),
        compressed("refusal 27", frame(9, 7), 4),
    ]
}
