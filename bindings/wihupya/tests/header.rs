//! That the header for C says what these bindings say.

mod support;

use support::{run, Storage};
use wihupya::*;

const HEADER: &str = include_str!("../../../include/wihupya.h");

/// What the header defines a name as, without the comment after it.
fn defined(name: &str) -> Option<&'static str> {
    HEADER.lines().find_map(|line| {
        let value = line.strip_prefix("#define WIHUPYA_")?.strip_prefix(name)?.strip_prefix(' ')?;
        Some(value.split("/*").next().unwrap_or(value).trim())
    })
}

/// The number that the header defines a name as.
fn number(name: &str) -> usize {
    defined(name).unwrap().parse().unwrap()
}

/// `NotSound` as `NOT_SOUND`.
fn in_c(name: &str) -> String {
    let begins = |(at, letter): (usize, char)| match letter.is_uppercase() && at > 0 {
        true => vec!['_', letter],
        false => vec![letter.to_ascii_uppercase()],
    };
    name.chars().enumerate().flat_map(begins).collect()
}

#[test]
fn causes_have_the_same_names_and_numbers() {
    for cause in Refusal::ALL {
        let name = in_c(&format!("{cause:?}"));
        assert_eq!(defined(&name), Some(cause.number().to_string().as_str()), "{name}");
    }
}

#[test]
fn limits_are_the_same() {
    let numbers = [
        ("MOST_AXES", MOST_AXES as i64),
        ("RECORDS", RECORDS as i64),
        ("RECORD_CELLS", RECORD_CELLS as i64),
        ("JOB_WORDS", JOB_WORDS as i64),
        ("LARGEST_BUDGET", LARGEST_BUDGET.into()),
        ("LARGEST_BLOCK", LARGEST_BLOCK as i64),
        ("LARGEST_READING", LARGEST_READING.into()),
        ("SCALE", SCALE),
    ];
    for (name, number) in numbers {
        assert_eq!(defined(name), Some(number.to_string().as_str()), "{name}");
    }
    assert_eq!(defined("CELLS"), Some("(WIHUPYA_RECORDS * WIHUPYA_RECORD_CELLS)"));
}

#[test]
fn the_job_records_words_are_the_headers() {
    let job = JobRecord {
        threshold: 1 << 32 | 2,
        pending_error: 3 << 32 | 4,
        carried_error: 11 << 32 | 12,
        scaled_mean: 5 << 32 | 6,
        axes: 7,
        budget: 8,
        held: 9,
        reserved: 10,
    };
    let words = job.to_words();
    let wide = |name| words[number(name)..][..2].to_vec();
    assert_eq!(wide("JOB_THRESHOLD"), [2, 1]);
    assert_eq!(wide("JOB_PENDING"), [4, 3]);
    assert_eq!(wide("JOB_MEAN"), [6, 5]);
    assert_eq!(wide("JOB_CARRIED"), [12, 11]);
    let narrow =
        ["JOB_AXES", "JOB_BUDGET", "JOB_HELD", "JOB_RESERVED"].map(|name| words[number(name)]);
    assert_eq!(narrow, [7, 8, 9, 10]);
}

/// One axis; the root is delivered with the indicator 5.
fn root_delivered(threshold: u64, budget: u32) -> Storage {
    let mut storage = Storage::started(1, threshold, budget);
    storage.call(|job| job.deliver(&[0], 5)).unwrap();
    storage
}

/// The words as the library writes them, and what the bindings make of them.
#[test]
fn choices_have_the_headers_numbers() {
    let choices = [
        ("MET", root_delivered(5, 1), 0, Choice::Met),
        ("CAPPED", run((1, 9, 129), 0, |_| 10).0, 0, Choice::Capped),
        ("CHOSEN", Storage::wanting_nothing(), 1, Choice::Place(1)),
    ];
    for (name, mut storage, place, choice) in choices {
        let (cause, words) = storage.choice_words();
        assert_eq!((cause, words.len()), (0, number("CHOICE_WORDS")));
        assert_eq!(words[number("CHOICE_ANSWER")] as usize, number(name), "{name}");
        assert_eq!(words[number("CHOICE_PLACE")], place, "{name}");
        assert_eq!(storage.call(|job| job.choose()), Ok(choice), "{name}");
    }
}

#[test]
fn outcomes_have_the_headers_numbers() {
    let outcomes = [
        ("SPENT", root_delivered(4, 2), Promotion::Spent),
        ("PROMOTED", root_delivered(4, 3), Promotion::Promoted),
    ];
    for (name, mut storage, promotion) in outcomes {
        let (cause, words) = storage.clone().outcome_word(0);
        assert_eq!((cause, words.len()), (0, number("OUTCOME_WORDS")));
        assert_eq!(words[0] as usize, number(name), "{name}");
        assert_eq!(storage.call(|job| job.promote(0)), Ok(promotion), "{name}");
    }
}

/// Both axes are refined up to their highest level, and (2,2) is active: the
/// counts are all different, and the carried error takes both its words.
#[test]
fn the_counts_lie_where_the_header_says() {
    let indicator = |levels: &[u32]| if levels == [2, 2] { 7 } else { u32::MAX };
    let (mut storage, _) = run((2, 7, 261), 0, indicator);
    storage.job.scaled_mean = -(3 << 32 | 4);
    let mut words = [u32::MAX; 11];
    let Storage { job, cells, store } = &storage;
    assert_eq!(wihupya_sys::result(&job.to_words(), &mut words, cells, store), 0);
    assert_eq!(number("COUNT_WORDS"), words.len());
    let narrow = |name| words[number(name)];
    let wide = |name| u64::from(narrow(name)) | u64::from(words[number(name) + 1]) << 32;
    let said = Counts {
        pending_error: wide("COUNT_PENDING"),
        carried_error: wide("COUNT_CARRIED"),
        scaled_mean: wide("COUNT_MEAN") as i64,
        old: narrow("COUNT_OLD"),
        active: narrow("COUNT_ACTIVE"),
        wanted: narrow("COUNT_WANTED"),
        reserved: narrow("COUNT_RESERVED"),
        ceiling: narrow("COUNT_CEILING"),
    };
    let expected = Counts {
        pending_error: 7,
        carried_error: 2 * u64::from(u32::MAX),
        scaled_mean: -(3 << 32 | 4),
        old: 15,
        active: 1,
        wanted: 0,
        reserved: 261,
        ceiling: 2,
    };
    assert_eq!(said, expected);
    assert_eq!(storage.call(|job| job.result()), Ok(expected));
}

/// The root's block is delivered, so that the three are different.
#[test]
fn the_doubles_lie_where_the_header_says() {
    let mut storage = Storage::started(2, 0, 64);
    storage.call(|job| job.deliver(&[5], 9)).unwrap();
    storage.job.scaled_mean = 3 * SCALE;
    let mut report = [f64::NAN; 3];
    let Storage { job, cells, store } = &storage;
    assert_eq!(wihupya_sys::doubles(&job.to_words(), &mut report, cells, store), 0);
    assert_eq!(number("DOUBLES_LENGTH"), report.len());
    let reported = |name| report[number(name)];
    let doubles = storage.call(|job| job.doubles()).unwrap();
    assert_eq!(doubles, Doubles { mean: 3.0, pending_error: 9.0, largest_difference: 5.0 });
    assert_eq!(reported("DOUBLES_MEAN"), doubles.mean);
    assert_eq!(reported("DOUBLES_PENDING"), doubles.pending_error);
    assert_eq!(reported("DOUBLES_LARGEST"), doubles.largest_difference);
}
