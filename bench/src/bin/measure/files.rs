//! The job files that the programs are measured on, in a directory of
//! their own that is removed afterwards.

use crate::job::Job;
use reference::jobfile::{self, Entry, JobFile};
use std::fs;
use std::path::{Path, PathBuf};

pub struct Files {
    directory: PathBuf,
    named: Vec<(String, PathBuf)>,
}

/// A block has an odd size only if it is the root's, so a job reserves an odd
/// number of readings, and 8,191 is the most.
fn of_most_readings() -> Job {
    Job::paced(8, [10, 3, 1, 8, 7, 8, 2, 1])
}

/// The longest file has 512 entries and 8,192 readings: a job that leaves
/// little room, and entries that it doesn't use.
pub fn longest() -> JobFile {
    let job = Job::paced(7, [7, 4, 8, 4, 2, 8, 3, 10]);
    let mut file = job.file();
    let (entries, readings) = (512 - job.held(), 8_192 - job.readings());
    for unused in 0..entries {
        let own = if unused == 0 { readings + 1 - entries } else { 1 };
        file.entries.push(Entry { indicator: 0, readings: vec![0; own] });
    }
    file
}

impl Files {
    pub fn write() -> Files {
        let directory = std::env::temp_dir().join(format!("bench-files-{}", std::process::id()));
        fs::create_dir_all(&directory).expect("a directory for files");
        let mut files = Files { directory, named: Vec::new() };
        let (most_held, most_readings) = (Job::of_512_held(), of_most_readings());
        let longest = jobfile::write(&longest());
        for (job, name) in [(&most_held, "most held"), (&most_readings, "most readings")] {
            let name = format!("{name}: {} held, {} readings", job.held(), job.readings());
            files.add(name, jobfile::write(&job.file()));
        }
        files.add(format!("longest file: {} bytes", longest.len()), longest);
        files.add("start alone: an empty file".to_string(), Vec::new());
        files
    }

    fn add(&mut self, name: String, bytes: Vec<u8>) {
        let path = self.directory.join(format!("{}.job", self.named.len()));
        fs::write(&path, bytes).expect("a file in the directory");
        self.named.push((name, path));
    }

    pub fn named(&self) -> impl Iterator<Item = (&str, &Path)> {
        self.named.iter().map(|(name, path)| (name.as_str(), path.as_path()))
    }
}

impl Drop for Files {
    fn drop(&mut self) {
        // Left behind in the temporary directory at worst.
        let _ = fs::remove_dir_all(&self.directory);
    }
}

#[cfg(test)]
mod tests {
    use super::*;
    use reference::program;

    #[test]
    fn the_longest_file_is_the_longest_and_its_job_uses_most_of_it() {
        let bytes = jobfile::write(&longest());
        assert_eq!(bytes.len(), 38_936);
        let report = program::report(&bytes);
        assert!(report.ends_with("unused 2\nend spent\n"), "{report}");
        assert_eq!(bench::program::report(&bytes), report);
    }

    #[test]
    fn the_most_readings_are_8191() {
        assert_eq!(of_most_readings().readings(), 8_191);
    }
}
