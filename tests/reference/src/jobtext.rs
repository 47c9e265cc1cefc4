//! A readable text for a job file.
//!
//! Lines `axes 2`, `budget 64`, `threshold 40`, each once and before the
//! entries; then a line for each entry: `entry 50: 64 16448`, the indicator
//! before the colon and the readings after it, in the order of the block's points.
//! A `#` begins a comment; blank lines don't count.

use crate::jobfile::{Entry, JobFile, MOST_ENTRIES, MOST_READINGS};
use std::str::FromStr;

/// The job a text says, or what is wrong with which line (from 1).
pub fn parse(text: &str) -> Result<JobFile, String> {
    let mut axes: Option<u32> = None;
    let mut budget: Option<u32> = None;
    let mut threshold: Option<u64> = None;
    let mut entries: Vec<Entry> = Vec::new();
    let mut total = 0;
    for (above, line) in text.lines().enumerate() {
        let said = line.split('#').next().unwrap_or("").trim();
        if said.is_empty() {
            continue;
        }
        let fault = |what: String| format!("line {}: {what}", above + 1);
        let (word, rest) = said.split_once(char::is_whitespace).unwrap_or((said, ""));
        let early = entries.is_empty();
        match word {
            "axes" => set(&mut axes, word, rest, early).map_err(fault)?,
            "budget" => set(&mut budget, word, rest, early).map_err(fault)?,
            "threshold" => set(&mut threshold, word, rest, early).map_err(fault)?,
            "entry" => {
                let entry = parse_entry(rest).map_err(fault)?;
                total += entry.readings.len();
                if total > MOST_READINGS as usize {
                    return Err(fault(format!("more than {MOST_READINGS} readings in all")));
                }
                entries.push(entry);
                if entries.len() > MOST_ENTRIES as usize {
                    return Err(fault(format!("more than {MOST_ENTRIES} entries")));
                }
            }
            _ => return Err(fault(format!("`{word}` is not axes, budget, threshold or entry"))),
        }
    }
    Ok(JobFile {
        axes: axes.ok_or("no line says `axes`")?,
        budget: budget.ok_or("no line says `budget`")?,
        threshold: threshold.ok_or("no line says `threshold`")?,
        entries,
    })
}

fn set<T: FromStr>(
    slot: &mut Option<T>,
    word: &str,
    rest: &str,
    early: bool,
) -> Result<(), String> {
    if !early {
        return Err(format!("`{word}` comes before the entries"));
    }
    if slot.is_some() {
        return Err(format!("`{word}` is said twice"));
    }
    *slot = Some(number(rest.trim())?);
    Ok(())
}

fn parse_entry(rest: &str) -> Result<Entry, String> {
    let (indicator, readings) =
        rest.split_once(':').ok_or("an entry has a colon after its indicator")?;
    let indicator = number(indicator.trim())?;
    let readings: Vec<i32> = readings.split_whitespace().map(number).collect::<Result<_, _>>()?;
    if readings.is_empty() {
        return Err("an entry has at least one reading".to_string());
    }
    Ok(Entry { indicator, readings })
}

fn number<T: FromStr>(said: &str) -> Result<T, String> {
    said.parse().map_err(|_| format!("`{said}` is not a number that fits its field"))
}

/// The text of a job.
pub fn write(job: &JobFile) -> String {
    let mut text =
        format!("axes {}\nbudget {}\nthreshold {}\n", job.axes, job.budget, job.threshold);
    for entry in &job.entries {
        text.push_str(&format!("entry {}:", entry.indicator));
        for reading in &entry.readings {
            text.push_str(&format!(" {reading}"));
        }
        text.push('\n');
    }
    text
}
