//! The jobs that are measured. They are worked out once, on the idiomatic
//! side; then any side can go through them, and they can be written as files.

use crate::sides::{Idiomatic, Side, ANY_BLOCK};
use bench::area::BUDGET_LIMIT;
use bench::index::{Levels, MOST_AXES};
use bench::steps::{self, Promotion};
use reference::jobfile::{Entry, JobFile};
use reference::rng::Rng;
use reference::style::{self, IndicatorStyle, ReadingStyle};

/// With these paces a job of eight axes holds exactly 32, 128 and 512 indices
/// on its way, the last with 8,141 readings of the 8,192 that can be.
const PACES: Levels = [2, 7, 3, 8, 9, 7, 2, 4];

/// A job with the threshold 0 and the whole budget, carried on until it is
/// spent: the deliveries before each choose, whose place is then promoted.
pub struct Job {
    pub axes: u32,
    pub batches: Vec<Vec<Entry>>,
}

/// How the points of a block are asked for.
#[derive(Clone, Copy, Debug, PartialEq, Eq)]
pub enum Asking {
    /// By a call of point for each.
    ByPoint,
    /// By one call of points.
    ByPoints,
}

/// The parts of going through a job.
#[derive(Clone, Copy, Debug, PartialEq, Eq)]
pub enum Part {
    Points,
    Delivers,
    Chooses,
    Promotes,
}

impl Job {
    /// The job that ends with 512 held.
    pub fn of_512_held() -> Job {
        Job::paced(MOST_AXES, PACES)
    }

    pub fn paced(axes: usize, paces: Levels) -> Job {
        let mut rng = Rng::new(1);
        let mut side = Idiomatic::new();
        side.start(axes as u32, 0, BUDGET_LIMIT);
        let mut batches = Vec::new();
        loop {
            let mut batch = Vec::new();
            while let Some(place) = steps::first_wanted(&side.job, &side.records) {
                let levels = side.records[place].levels;
                // Never 0, so that the job is not met before its time.
                let indicator = style::indicator(IndicatorStyle::Paced(paces), &mut rng, &levels);
                let indicator = indicator.max(1);
                let readings = style::readings(ReadingStyle::Smooth, &mut rng, axes, &levels);
                side.deliver(&readings, indicator);
                batch.push(Entry { indicator, readings });
            }
            batches.push(batch);
            let place = side.choose();
            if steps::promote(&mut side.job, &mut side.records, place) == Promotion::Spent {
                return Job { axes: axes as u32, batches };
            }
        }
    }

    pub fn held(&self) -> usize {
        self.batches.iter().map(Vec::len).sum()
    }

    pub fn readings(&self) -> usize {
        self.batches.iter().flatten().map(|entry| entry.readings.len()).sum()
    }

    /// Goes through the whole job, each part by way of `perform`: every point
    /// of every block, deliver, choose, and promote, the last of which is spent.
    pub fn go_through<S: Side>(
        &self,
        asking: Asking,
        mut perform: impl FnMut(Part, &mut dyn FnMut()),
    ) -> S {
        let mut side = S::new();
        side.start(self.axes, 0, BUDGET_LIMIT);
        let mut buffer = [0; ANY_BLOCK];
        for batch in &self.batches {
            for Entry { indicator, readings } in batch {
                perform(Part::Points, &mut || match asking {
                    Asking::ByPoint => {
                        let one = &mut buffer[..MOST_AXES];
                        (0..readings.len()).for_each(|n| side.point(n, one));
                    }
                    Asking::ByPoints => {
                        assert_eq!(side.points(&mut buffer) as usize, readings.len());
                    }
                });
                perform(Part::Delivers, &mut || side.deliver(readings, *indicator));
            }
            let mut place = 0;
            perform(Part::Chooses, &mut || place = side.choose());
            perform(Part::Promotes, &mut || side.promote(place));
        }
        side
    }

    /// The last area of the job that holds no more than so many, each
    /// delivered.
    pub fn area<S: Side>(&self, most: u32) -> S {
        let mut side = S::new();
        side.start(self.axes, 0, BUDGET_LIMIT);
        let mut before = side.clone();
        for batch in &self.batches {
            for Entry { indicator, readings } in batch {
                side.deliver(readings, *indicator);
            }
            if side.held() > most {
                break;
            }
            before = side.clone();
            side.promote_chosen();
        }
        before
    }

    pub fn file(&self) -> JobFile {
        let entries = self.batches.iter().flatten().cloned().collect();
        JobFile { axes: self.axes, budget: BUDGET_LIMIT, threshold: 0, entries }
    }
}

#[cfg(test)]
mod tests {
    use super::*;
    use crate::sides::{cells_of, words_of, Proved};
    use reference::area::Area;
    use reference::{jobfile, program};

    /// What is compared is the same work only if it leaves the same.
    #[test]
    fn both_sides_leave_the_same_area() {
        let job = Job::of_512_held();
        assert_eq!((job.held(), job.readings()), (512, 8_141));
        for asking in [Asking::ByPoint, Asking::ByPoints] {
            let proved: Proved = job.go_through(asking, |_, part| part());
            let idiomatic: Idiomatic = job.go_through(asking, |_, part| part());
            assert_eq!(proved.cells, cells_of(&idiomatic.records));
            assert_eq!(proved.store, idiomatic.store);
            assert_eq!(proved.job, words_of(&idiomatic.job));
        }
        for held in [32, 128, 512] {
            let area: Proved = job.area(held);
            assert_eq!(area.held(), held);
            assert_eq!(area.cells, cells_of(&job.area::<Idiomatic>(held).records));
        }
    }

    /// So that both have looked for the same difference.
    #[test]
    fn both_sides_give_the_same_doubles() {
        let job = Job::of_512_held();
        for held in [32, 128, 512] {
            let (proved, idiomatic) = (job.area::<Proved>(held), job.area::<Idiomatic>(held));
            let mut report = [f64::NAN; 3];
            let Proved { job, cells, store } = &proved;
            assert_eq!(wihupya_sys::doubles(job, &mut report, cells, store), 0);
            let Idiomatic { job, records, store } = &idiomatic;
            let doubles = steps::doubles(job, records, store);
            let expected = [doubles.mean, doubles.pending, doubles.largest];
            assert_eq!(report.map(f64::to_bits), expected.map(f64::to_bits), "{held} held");
        }
    }

    /// Each block as one call of points gives it, then as calls of point do.
    #[test]
    fn both_sides_give_the_same_points() {
        let job = Job::of_512_held();
        let (mut proved, mut idiomatic) = (Proved::new(), Idiomatic::new());
        proved.start(job.axes, 0, BUDGET_LIMIT);
        idiomatic.start(job.axes, 0, BUDGET_LIMIT);
        for batch in &job.batches {
            for Entry { indicator, readings } in batch {
                let (mut one, mut other) = ([7; ANY_BLOCK], [7; ANY_BLOCK]);
                let counts = [proved.points(&mut one), idiomatic.points(&mut other)];
                assert_eq!(counts, [readings.len() as u32; 2]);
                assert!(one == other);
                let (own, rest) = one.split_at(readings.len() * MOST_AXES);
                assert!(rest.iter().all(|&byte| byte == 7));
                for (n, point) in own.chunks_exact(MOST_AXES).enumerate() {
                    let mut alone = [0; MOST_AXES];
                    proved.point(n, &mut alone);
                    assert_eq!(point, alone);
                }
                proved.deliver(readings, *indicator);
                idiomatic.deliver(readings, *indicator);
            }
            proved.promote_chosen();
            idiomatic.promote_chosen();
        }
    }

    #[test]
    fn the_file_of_a_job_gives_the_references_report() {
        let file = Job::of_512_held().file();
        let mut area = Area::empty(512, 8_192);
        let expected = program::text(&program::run(&file, &mut area));
        assert_eq!(bench::program::report(&jobfile::write(&file)), expected);
        assert!(expected.ends_with("unused 0\nend spent\n"), "{expected}");
    }
}
