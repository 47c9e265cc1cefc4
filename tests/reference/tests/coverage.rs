//! What the runs of fixed seeds in the repository's tests see of choose, promote and
//! the carried error: every answer, each place that is and isn't an active index's,
//! every end, each ceiling, each way that the threshold lies to both errors. And what
//! they see of job files: every refusal, each way to break the form.

use reference::drive::{drive, missing, Counts, ENOUGH};
use reference::survey::{self, survey};

/// What the carried error comes to, by the rule or not.
const CARRIED: [&str; 14] = [
    "choose met",
    "choose met with the threshold equal to the pending error",
    "choose capped",
    "choose capped with the threshold equal to the pending error",
    "choose capped with pending above 0",
    "choose capped with carried at most the threshold",
    "choose capped with the threshold one below both",
    "promote promoted",
    "promote promoted with nothing admitted",
    "promote promoted with carried above 0",
    "promote promoted at the ceiling of level alone",
    "promote promoted at the ceiling of excess alone",
    "promote promoted at both ceilings",
    "promote spent with carried above 0",
];

fn assert_seen(seen: &Counts, names: &[&str], least: u64) {
    for name in names {
        let count = seen.get(*name).copied().unwrap_or(0);
        assert!(count >= least, "{name}: {count} in {seen:?}");
    }
}

#[test]
fn long_lists_see_all_that_is_due() {
    for seed in [6, 8] {
        assert_eq!(missing(&drive(seed, ENOUGH)), [] as [&str; 0], "seed {seed}");
    }
}

#[test]
fn lists_of_calls_see_what_is_carried() {
    let seen = drive(1, 20_000);
    assert_seen(&seen, &CARRIED, 1);
    assert!(seen["choose capped"] > 50, "{seen:?}");
    assert!(seen["highest carried error"] > 1 << 32, "{seen:?}");
}

/// All that a survey has to see. By the rule alone a job that carries is never met. Let
/// c be the indicator of an index that is carried, and e the last promotion, its own or
/// a later one, of an indicator of at most c. At e the pending error was above the
/// threshold, so that the other active indices had more than the threshold less c; none
/// of them was larger than e, so that none is promoted later, for then only indicators
/// above c are. So pending and c together stay above the threshold. The program goes
/// by the rule; lists in which each promoted place was the one that choose would have
/// answered are asserted in `drive`. Where another place is promoted it can be met.
#[test]
fn job_files_see_all_that_is_due() {
    let seen = survey(1, 1_000);
    assert_eq!(survey::missing(&seen), [] as [String; 0], "{seen:?}");
    for (name, count) in seen.iter().filter(|(name, _)| name.starts_with("refused")) {
        assert!(*count >= 2, "{name}: {count}");
    }
    assert_seen(&seen, &CARRIED, 2);
    assert!(!seen.contains_key("choose met with carried above 0"), "{seen:?}");
    for name in seen.keys().filter(|name| name.starts_with("promote")) {
        assert!(!name.contains("another") && !name.contains("choose says"), "{name}");
    }
    for (end, least) in [("capped", 30), ("spent", 3), ("short", 3)] {
        let count = seen.get(&format!("end {end} with carried above 0")).copied().unwrap_or(0);
        assert!(count >= least, "{end}: {count} in {seen:?}");
    }
}
