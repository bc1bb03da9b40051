//! Samples, each part by its bits.

use crate::case::{Case, Line};
use crate::runs::numbers;
use second::rules::sample::{Sample, Setting, sample};

/// A float by its bits, so that no rounding and no sign of a zero is lost.
fn bits(number: f32) -> String {
    format!("{:08x}", number.to_bits())
}

fn levels(setting: Setting) -> String {
    match setting {
        Setting::Off => "off".to_string(),
        Setting::Shared(level) => format!("shared,{}", bits(level)),
        Setting::Each(first, second) => format!("each,{},{}", bits(first), bits(second)),
    }
}

fn take(name: &str, values: [i64; 2], setting: Setting, antenna: usize) -> Case {
    let outcome = sample(values, setting, antenna);
    let taken = outcome.unwrap_or(Sample::ZERO);
    let line = Line::new(name, "sample").key("values", numbers(&values)).key("setting", levels(setting));
    let line = line.key("antenna", antenna);
    line.gives("sample", format!("{},{}", bits(taken.inphase), bits(taken.quadrature))).answered(&outcome)
}

fn taken() -> Vec<Case> {
    vec![
        take("done", [3, -16], Setting::Off, 1),
        take("done", [3, -16], Setting::Shared(0.1), 1),
        take("done", [3, -16], Setting::Each(0.1, 2.5), 0),
        take("done", [3, -16], Setting::Each(0.1, 2.5), 1),
        take("done", [16, 0], Setting::Each(0.0009765625, 1024.0), 0),
        take("done", [-16, 15], Setting::Each(0.0009765625, 1024.0), 1),
    ]
}

fn refused() -> Vec<Case> {
    vec![
        take("refusal 11", [17, -17], Setting::Shared(0.0), 2),
        take("refusal 11", [16, -17], Setting::Shared(0.0), 2),
        take("refusal 11", [16, -16], Setting::Shared(0.0), 2),
        take("refusal 11", [16, -16], Setting::Each(1024.5, 0.0), 2),
        take("refusal 11", [16, -16], Setting::Each(1.0, 0.0009765624), 0),
        take("refusal 11", [16, -16], Setting::Off, 2),
        take("refusal 11", [16, -16], Setting::Each(1.0, f32::NAN), 0),
    ]
}

pub fn all() -> Vec<Case> {
    [taken(), refused()].concat()
}
