//! The readable text of a job and the job file say the same.

use reference::examples::scope_job;
use reference::generate;
use reference::{jobfile, jobtext};

const SCOPE_TEXT: &str = "axes 2\nbudget 64\nthreshold 40\nentry 100: 4160\n\
                          entry 50: 64 16448\nentry 0: 4096 4224\nentry 10: 1088 9280\n";

#[test]
fn the_document_job_as_text() {
    assert_eq!(jobtext::write(&scope_job()), SCOPE_TEXT);
    assert_eq!(jobtext::parse(SCOPE_TEXT), Ok(scope_job()));
    let commented = format!("# a job\n\n  {} # and so on\n", SCOPE_TEXT.replace(':', " :"));
    assert_eq!(jobtext::parse(&commented), Ok(scope_job()));
}

#[test]
fn file_to_text_and_back() {
    let mut converted = 0;
    for seed in 0..400 {
        let generated = generate::generate(seed);
        if let Ok(job) = jobfile::parse(&generated.bytes) {
            let text = jobtext::write(&job);
            let again = jobtext::parse(&text).expect("a written text is right");
            assert_eq!(jobfile::write(&again), generated.bytes, "seed {seed}");
            converted += 1;
        }
    }
    assert!(converted > 200);
}

#[test]
fn faults_name_their_line() {
    for (text, fault) in [
        ("axes 2\nbudgets 3\n", "line 2: `budgets` is not axes, budget, threshold or entry"),
        ("axes two\n", "line 1: `two` is not a number that fits its field"),
        ("axes 1\naxes 1\n", "line 2: `axes` is said twice"),
        ("axes -1\n", "line 1: `-1` is not a number that fits its field"),
        ("\n# c\nentry 1 2\n", "line 3: an entry has a colon after its indicator"),
        ("entry 1:\n", "line 1: an entry has at least one reading"),
        ("entry 1: 2147483648\n", "line 1: `2147483648` is not a number that fits its field"),
        ("entry 4294967296: 1\n", "line 1: `4294967296` is not a number that fits its field"),
        ("entry 1: 2\nbudget 3\n", "line 2: `budget` comes before the entries"),
        ("axes 1\nbudget 1\n", "no line says `threshold`"),
    ] {
        assert_eq!(jobtext::parse(text), Err(fault.to_string()));
    }
    let many = "entry 1: 1\n".repeat(513);
    assert_eq!(jobtext::parse(&many), Err("line 513: more than 512 entries".to_string()));
    let long = format!("entry 1: {}\n", "1 ".repeat(8193));
    assert_eq!(jobtext::parse(&long), Err("line 1: more than 8192 readings in all".to_string()));
}
