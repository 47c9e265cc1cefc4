//! The example files are what the model and the program make of them.

use reference::examples::examples;
use reference::grid::reading_in_range;
use reference::{jobfile, jobtext, program};
use std::path::Path;

#[test]
fn the_files_are_as_they_are_made() {
    let directory = Path::new(env!("CARGO_MANIFEST_DIR")).join("../../examples");
    for example in examples() {
        let read = |ending: &str| {
            let path = directory.join(format!("{}.{ending}", example.name));
            std::fs::read(&path).unwrap_or_else(|fault| panic!("{}: {fault}", path.display()))
        };
        assert_eq!(read("txt"), example.text.as_bytes(), "{}", example.name);
        assert_eq!(read("job"), example.job, "{}", example.name);
        assert_eq!(read("report"), example.report.as_bytes(), "{}", example.name);
        assert!(example.text.starts_with("# "));
        let packed = jobfile::write(&jobtext::parse(&example.text).unwrap());
        assert_eq!(packed, example.job);
        assert_eq!(program::report(&packed), example.report);
    }
}

#[test]
fn the_examples_end_as_they_say() {
    let [two, four, eight] = examples();
    assert_eq!(two.job.len(), 100);
    for (example, axes, ending) in [(&two, 2, "met"), (&four, 4, "met"), (&eight, 8, "spent")] {
        assert!(example.report.starts_with(&format!("axes {axes}\n")));
        assert!(example.report.ends_with(&format!("unused 0\nend {ending}\n")));
        let job = jobfile::parse(&example.job).unwrap();
        let mut readings = job.entries.iter().flat_map(|entry| &entry.readings);
        assert!(readings.all(|&reading| reading_in_range(reading)));
    }
}
