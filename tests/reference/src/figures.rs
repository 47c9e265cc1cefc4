//! The figures of an area as text, so that another program's can be compared.
//!
//! Lines, in this order:
//! - `check yes` or `check no`, where no may come from short storage too;
//! - `broken` and the names of the broken clauses, if there are any;
//! - in a sound area alone, `axes N`, `held N` and for each held index in the
//!   order of places `index PLACE levels L1 ... Ld state S`, followed for a
//!   delivered one by `coefficient C tensor T difference D`, the last two
//!   times 2^20;
//! - `recorded N`, the recorded mean; `differences N`, the sum of the
//!   delivered differences; and `cross N`, the cross total.

use crate::area::{Area, ACTIVE, OLD};
use crate::calls;
use crate::grid::Levels;
use crate::soundness;
use crate::sums;
use std::fmt::Write;

pub fn figures(area: &Area) -> String {
    let mut text = String::new();
    let answer = if calls::check(area) { "yes" } else { "no" };
    line(&mut text, format!("check {answer}"));
    let broken = soundness::broken_clauses(area);
    if !broken.is_empty() {
        let names: Vec<String> = broken.iter().map(|clause| format!("{clause:?}")).collect();
        line(&mut text, format!("broken {}", names.join(" ")));
        return text;
    }
    let axes = area.job.axes as usize;
    let readings = calls::delivered_readings(area);
    let reading = |index: &Levels, number: usize| readings.at(index, number);
    let delivered = |index: &Levels| readings.is_delivered(index);
    line(&mut text, format!("axes {axes}\nheld {}", area.job.held));
    for (place, record) in area.held().iter().enumerate() {
        let levels: Vec<String> = record.levels[..axes].iter().map(u32::to_string).collect();
        let state = match record.state {
            OLD => "old",
            ACTIVE => "active",
            _ => "wanted",
        };
        let mut said = format!("index {place} levels {} state {state}", levels.join(" "));
        if record.is_delivered() {
            let coefficient = sums::coefficient(axes, &record.levels, &delivered);
            let tensor = sums::full_tensor_rule(axes, &record.levels, &reading);
            let difference = sums::difference(axes, &record.levels, &reading);
            write!(said, " coefficient {coefficient} tensor {tensor} difference {difference}")
                .expect("a string takes all");
        }
        line(&mut text, said);
    }
    line(&mut text, format!("recorded {}", area.job.mean));
    line(&mut text, format!("differences {}", sums::sum_of_differences(axes, &readings)));
    line(&mut text, format!("cross {}", sums::cross_total(axes, &readings)));
    text
}

fn line(text: &mut String, said: String) {
    text.push_str(&said);
    text.push('\n');
}
