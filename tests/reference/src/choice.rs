//! The calls of random lists: what a job is meant to become, and calls
//! that advance it, leave it as it is, or are to be refused. A choice needs to
//! know the first wanted block and which state is at which place and no more, so
//! that lists on any area, altered ones included, can use it.

use crate::area::Area;
use crate::call::Call;
use crate::calls;
use crate::corner::{self, Corner};
use crate::generate::ceiling_target;
use crate::grid::{self, Levels, BUDGET_LIMIT, MOST_AXES, READING_LIMIT};
use crate::log::Job;
use crate::places::Places;
use crate::rng::Rng;
use crate::style::{self, IndicatorStyle, ReadingStyle};

/// The longest buffer lent to points; the largest block takes 16,384 bytes.
pub const LONGEST_BUFFER: usize = 20_000;

/// What the present job is meant to become.
pub struct Parameters {
    pub axes: u32,
    pub threshold: u64,
    pub budget: u32,
    pub indicators: IndicatorStyle,
    pub readings: ReadingStyle,
    /// How many of a hundred calls carry the job on.
    pub steps: u64,
    /// How many of a hundred promotes go to any active place and not to the one of
    /// largest indicator.
    pub own_way: u64,
    /// Whether the job goes on where choose answers met or capped.
    pub past_the_end: bool,
}

/// A block to be delivered, with the number of axes of its job.
#[derive(Clone, Copy)]
pub struct Block {
    pub axes: usize,
    pub levels: Levels,
}

impl Block {
    /// The log's first wanted block.
    pub fn of_job(job: &Job) -> Option<Block> {
        let wanted = job.first_wanted()?;
        Some(Block { axes: job.axes, levels: job.entries[wanted].levels })
    }

    /// The first wanted block of any area. An altered one may name an index that has
    /// no block; then there is none.
    pub fn of_area(area: &Area) -> Option<Block> {
        let levels = area.records[calls::first_wanted(area)?].levels;
        let axes = area.job.axes as usize;
        let has_block = (1..=MOST_AXES).contains(&axes) && grid::within_ceilings(&levels);
        has_block.then_some(Block { axes, levels })
    }
}

/// Chooses calls; they depend on the seed and on the blocks and places asked about.
pub struct Chooser {
    pub rng: Rng,
    pub parameters: Parameters,
}

impl Parameters {
    /// A job that fills the held places, the budget, or goes toward a ceiling.
    fn grow(&mut self, which: u64, rng: &mut Rng) {
        match which {
            0 => {
                self.axes = rng.between(5, 8) as u32;
                self.indicators = IndicatorStyle::SmallBlocksFirst;
                self.budget = BUDGET_LIMIT;
            }
            1 => {
                self.indicators =
                    rng.pick(&[IndicatorStyle::LargeBlocksFirst, IndicatorStyle::Any]);
                self.budget = rng.between(6_000, 8_192) as u32;
            }
            _ => {
                self.indicators = IndicatorStyle::Toward(ceiling_target(rng, self.axes as usize));
                self.budget = BUDGET_LIMIT;
            }
        }
        // A job meant to grow isn't cut off by its threshold or by many calls that do not
        // advance it, mostly grows as the rule has it, and ends where that ends.
        self.threshold = 0;
        self.steps = 95;
        self.own_way = rng.pick(&[0, 0, 3]);
        self.past_the_end = false;
    }

    fn turn_to(&mut self, corner: Corner) {
        let Corner { indicators, threshold, budget } = corner;
        (self.indicators, self.threshold, self.budget) = (indicators, threshold, budget);
        self.own_way = self.own_way.min(10);
    }

    /// A job toward a corner that goes on past its end: where it is capped, or where
    /// it is met all the same under a threshold that takes what is carried.
    fn turn_past(&mut self, corner: Corner, rng: &mut Rng) {
        self.turn_to(corner);
        self.threshold = rng.pick(&[self.threshold, 200, 1_000, 1 << 40, u64::MAX]);
        self.past_the_end = true;
    }
}

pub fn random_parameters(rng: &mut Rng) -> Parameters {
    let axes = rng.between(1, 8) as usize;
    let readings = style::any_reading_style(rng);
    let mut parameters = Parameters {
        axes: axes as u32,
        threshold: rng.pick(&[0, 0, 0, 1, 25, 100, 1 << 33, u64::MAX]),
        budget: rng.between(1, 300) as u32,
        indicators: style::any_indicator_style(rng, axes),
        readings,
        steps: rng.pick(&[40, 60, 80]),
        own_way: rng.pick(&[0, 0, 0, 10, 50, 100]),
        past_the_end: rng.percent(25),
    };
    match rng.below(900) {
        which @ 0..=2 => parameters.grow(which, rng),
        3..=14 => {
            // Two axes, for each step goes through all readings so far.
            parameters.axes = 2;
            parameters.turn_to(corner::of_excess(rng, 2));
            parameters.steps = 95;
        }
        15..=74 => parameters.turn_to(corner::of_level(rng, axes)),
        75..=104 => parameters.turn_past(corner::of_level(rng, axes), rng),
        _ => {}
    }
    parameters
}

/// The size of the wanted block; 1 where none is wanted and it doesn't matter.
fn size_of(wanted: Option<Block>) -> usize {
    wanted.map_or(1, |block| grid::block_size(&block.levels))
}

impl Chooser {
    pub fn new(mut rng: Rng) -> Chooser {
        let parameters = random_parameters(&mut rng);
        Chooser { rng, parameters }
    }

    pub fn draw_parameters(&mut self) {
        self.parameters = random_parameters(&mut self.rng);
    }

    pub fn start(&self) -> Call {
        let Parameters { axes, threshold, budget, .. } = self.parameters;
        Call::Start { axes, threshold, budget }
    }

    /// A start with an argument out of range; the other may be too.
    pub fn damaged_start(&mut self) -> Call {
        let mut axes = self.parameters.axes;
        let mut budget = self.parameters.budget;
        let which = self.rng.below(3);
        if which != 0 {
            axes = self.rng.pick(&[0, 9, 10, 257, 1 << 16, u32::MAX]);
        }
        if which != 1 {
            budget = self.rng.pick(&[0, 8_193, 8_194, 1 << 16, u32::MAX]);
        }
        Call::Start { axes, threshold: self.rng.number(), budget }
    }

    pub fn point(&mut self, wanted: Option<Block>) -> Call {
        let size = size_of(wanted) as u64;
        let n = if self.rng.percent(30) { size - 1 } else { self.rng.below(size) };
        Call::Point { n, buffer: self.rng.between(i64::from(self.parameters.axes), 12) as usize }
    }

    pub fn damaged_point(&mut self, wanted: Option<Block>) -> Call {
        let size = size_of(wanted) as u64;
        let n = self.rng.pick(&[size, size + 1, 1 << 32, u64::MAX, 0]);
        let buffer = match self.rng.percent(40) {
            true => self.rng.place(self.parameters.axes as usize),
            false => self.rng.between(8, 12) as usize,
        };
        Call::Point { n, buffer }
    }

    /// The wanted block's axes; where none is wanted or an altered area has no
    /// axes, those that are meant.
    fn axes_of(&self, wanted: Option<Block>) -> usize {
        let block = wanted.filter(|block| block.axes > 0);
        block.map_or(self.parameters.axes as usize, |block| block.axes)
    }

    /// From any point on, with room for one point or more: for just one, for the
    /// whole block or what is left of it, for a byte less or more than that, for
    /// some points and a part of one, or for anything.
    pub fn points(&mut self, wanted: Option<Block>) -> Call {
        let (axes, size) = (self.axes_of(wanted), size_of(wanted));
        let n = match self.rng.below(10) {
            0..=3 => 0,
            4 | 5 => size - 1,
            _ => self.rng.place(size),
        };
        let whole = axes * self.rng.pick(&[size, size - n]);
        let buffer = match self.rng.below(10) {
            0 => axes,
            1 => whole,
            2 => whole - 1,
            3 => whole + 1,
            4..=7 => axes * (1 + self.rng.place(size)) + self.rng.place(axes),
            _ => self.rng.place(LONGEST_BUFFER + 1),
        };
        Call::Points { n: n as u64, buffer: buffer.max(axes) }
    }

    pub fn damaged_points(&mut self, wanted: Option<Block>) -> Call {
        let (axes, size) = (self.axes_of(wanted), size_of(wanted) as u64);
        let n = self.rng.pick(&[size, size + 1, 2 * size, 1 << 32, u64::MAX, 0]);
        let buffer = match self.rng.percent(40) {
            true => self.rng.place(axes),
            false => self.rng.place(LONGEST_BUFFER + 1),
        };
        Call::Points { n, buffer }
    }

    /// The call that carries the job on: the wanted block, or a promote, or at times
    /// and at the job's end a choose.
    pub fn carry_on(&mut self, wanted: Option<Block>, places: &Places) -> Call {
        let Some(Block { axes, levels }) = wanted else {
            let ended = places.active.is_empty() || places.chosen().is_none();
            let asks = match ended && !self.parameters.past_the_end {
                true => 90,
                false => 20,
            };
            return match self.rng.percent(asks) {
                true => Call::Choose,
                false => self.promote(places),
            };
        };
        let indicator = style::indicator(self.parameters.indicators, &mut self.rng, &levels);
        let readings = style::readings(self.parameters.readings, &mut self.rng, axes, &levels);
        Call::Deliver { readings, indicator }
    }

    /// A promote of an active index, mostly the one of largest indicator; of any
    /// place where none is active.
    pub fn promote(&mut self, places: &Places) -> Call {
        let own_way = self.rng.percent(self.parameters.own_way);
        let place = match places.largest {
            None => places.any(&mut self.rng),
            Some(_) if own_way => self.rng.pick(&places.active),
            Some(largest) => largest,
        };
        Call::Promote { place }
    }

    /// A promote of any place, which is mostly not that of an active index.
    pub fn damaged_promote(&mut self, places: &Places) -> Call {
        Call::Promote { place: places.any(&mut self.rng) }
    }

    /// A delivery with a wrong count, a reading out of range, or both; none of
    /// it matters where no block is wanted.
    pub fn damaged_deliver(&mut self, wanted: Option<Block>) -> Call {
        let size = size_of(wanted);
        let mut readings = vec![READING_LIMIT; size];
        let which = self.rng.below(4);
        if which != 0 {
            let place = self.rng.place(size);
            readings[place] =
                self.rng.pick(&[READING_LIMIT + 1, -READING_LIMIT - 1, i32::MIN, i32::MAX]);
        }
        if which < 2 {
            let other = self.rng.pick(&[0, size - 1, size + 1, 2 * size, 9_000]);
            readings.resize(other, 0);
        }
        Call::Deliver { readings, indicator: self.rng.number() as u32 }
    }
}
