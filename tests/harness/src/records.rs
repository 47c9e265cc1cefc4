//! Lists of calls over lent index record structs, as the program of
//! tests/records reads them, and the lines that it has to print: the
//! reference's answers, with a digest of the area after each call.

use crate::answers::{choice_words, outcome_word, BEHIND};
use crate::check_cases::near_ceiling;
use crate::initial_areas::{garbage, large_block, InitialAreas};
use reference::area::{Area, IndexRecord, JobRecord, WORDS};
use reference::call::{self, Answer, Call};
use reference::calls::Choice;
use reference::choice::{Block, Chooser, LONGEST_BUFFER};
use reference::grid::{BUDGET_LIMIT, HELD_LIMIT, MOST_AXES, READING_LIMIT};
use reference::places::Places;
use reference::reports;
use reference::rng::Rng;
use reference::steps;
use std::collections::BTreeMap;

/// What the program has room for: one more than a job can hold, of each.
const RECORDS: usize = HELD_LIMIT + 1;
const READINGS: usize = BUDGET_LIMIT as usize + 1;
/// What lies in the program's buffer beforehand, in what is lent and behind it.
const FILL: u8 = 200;
const END: u32 = 0;
const CONTENT: u32 = 8;

/// The program's input, and the output that is due.
pub struct Lists {
    area: Area,
    initial_areas: InitialAreas,
    pub input: Vec<u8>,
    pub output: String,
    /// How often each answer was seen, by the call and the number that is
    /// printed first.
    pub seen: BTreeMap<(&'static str, u64), u32>,
}

impl Default for Lists {
    fn default() -> Lists {
        let mut area = Area::empty(RECORDS, READINGS);
        area.records.fill(IndexRecord::from_words(&[0; WORDS]));
        let (input, output) = (Vec::new(), String::new());
        let (initial_areas, seen) = (InitialAreas::default(), BTreeMap::new());
        Lists { area, initial_areas, input, output, seen }
    }
}

impl Lists {
    /// A list that begins in storage full of anything, where every call but
    /// start is refused: a start on too few records, one on just enough, calls
    /// that the root refuses, and calls of all kinds.
    pub fn from_garbage(&mut self, seed: u64, count: usize) {
        let mut chooser = Chooser::new(Rng::new(seed));
        let mut area = garbage(&mut chooser.rng);
        area.job.budget = chooser.parameters.budget;
        self.content(area);
        let unsound = [
            Call::Check,
            Call::Point { n: 0, buffer: MOST_AXES + 1 },
            Call::Points { n: 0, buffer: MOST_AXES + 1 },
            Call::Deliver { readings: vec![1], indicator: 1 },
            Call::Choose,
            Call::Promote { place: 0 },
            Call::Result,
            Call::CrossTotal,
            Call::Doubles,
        ];
        for call in unsound {
            self.call(&call, RECORDS, READINGS);
        }
        let start = chooser.start();
        for lent in [HELD_LIMIT - 1, HELD_LIMIT] {
            self.call(&start, lent, READINGS);
        }
        let refused = [
            Call::Point { n: 1, buffer: MOST_AXES },
            Call::Points { n: 1, buffer: MOST_AXES },
            Call::Choose,
            Call::Promote { place: 0 },
            Call::Deliver { readings: vec![1, 2], indicator: 1 },
            Call::Deliver { readings: vec![READING_LIMIT + 1], indicator: 1 },
        ];
        for call in refused {
            self.call(&call, RECORDS, READINGS);
        }
        self.carry_on(&mut chooser, count);
    }

    /// Each call once, on 511, 512 and 513 records in turn, from storage full of
    /// zeros: few steps.
    pub fn each_call(&mut self) {
        let calls = [
            (Call::Start { axes: 1, threshold: 0, budget: 3 }, HELD_LIMIT),
            (Call::Point { n: 0, buffer: 2 }, RECORDS),
            (Call::Deliver { readings: vec![-5], indicator: 9 }, RECORDS),
            (Call::Choose, RECORDS),
            (Call::Promote { place: 0 }, HELD_LIMIT),
            (Call::Points { n: 0, buffer: 3 }, RECORDS),
            (Call::Check, HELD_LIMIT - 1),
            (Call::Result, HELD_LIMIT),
            (Call::CrossTotal, RECORDS),
            (Call::Doubles, HELD_LIMIT),
        ];
        for (call, lent) in calls {
            self.call(&call, lent, 3);
        }
    }

    /// A list that begins with a job a few promotions before its end at 512
    /// held, or at that end.
    pub fn from_nearly_full(&mut self, seed: u64, count: usize) {
        let mut chooser = Chooser::new(Rng::new(seed));
        let area = self.initial_areas.nearly_full(&mut chooser.rng);
        self.begin(area, &mut chooser);
        self.carry_on(&mut chooser, count);
    }

    /// A list that begins with a job on its way to the ceilings.
    pub fn from_near_ceiling(&mut self, seed: u64, count: usize) {
        let mut chooser = Chooser::new(Rng::new(seed));
        let area = near_ceiling(&mut chooser.rng);
        self.begin(area, &mut chooser);
        self.carry_on(&mut chooser, count);
    }

    /// A list that begins with the largest block that a job can reach: points
    /// from its first, from its last and from others on, then calls of all kinds.
    pub fn from_large_block(&mut self, seed: u64, count: usize) {
        let mut chooser = Chooser::new(Rng::new(seed));
        let area = large_block(&mut chooser.rng);
        let axes = area.job.axes as usize;
        self.begin(area, &mut chooser);
        for (n, buffer) in [(0, LONGEST_BUFFER), (1, 1_024 * axes - 1), (1_023, 2 * axes)] {
            self.call(&Call::Points { n, buffer }, RECORDS, READINGS);
        }
        self.carry_on(&mut chooser, count);
    }

    /// Doubles on the areas by name, which have means of all sizes, differences
    /// of one size and causes to refuse.
    pub fn reports_by_name(&mut self) {
        for reports::Case { area, .. } in reports::cases() {
            let (records, readings) = (area.records.len(), area.store.len());
            self.content(area);
            self.call(&Call::Doubles, records, readings);
        }
    }

    /// Choose and promote on the areas by name, which have places of all kinds, both
    /// ends and causes to refuse.
    pub fn steps_by_name(&mut self) {
        for steps::Case { area, call, .. } in steps::cases() {
            let (records, readings) = (area.records.len(), area.store.len());
            self.content(area);
            self.call(&call, records, readings);
        }
    }

    pub fn end(&mut self) {
        self.word(END);
    }

    /// An area whose job goes on as it came to be.
    fn begin(&mut self, area: Area, chooser: &mut Chooser) {
        chooser.parameters.axes = area.job.axes;
        self.content(area);
    }

    fn carry_on(&mut self, chooser: &mut Chooser, count: usize) {
        for _ in 0..count {
            let call = self.next_call(chooser);
            let lent = chooser.rng.pick(&[511, 512, 512, 512, 513, 513, 513, 513]);
            let budget = self.area.job.budget.min(BUDGET_LIMIT) as usize;
            let store = chooser.rng.pick(&[READINGS, READINGS, READINGS, budget, budget / 2]);
            self.call(&call, lent, store);
        }
    }

    fn next_call(&self, chooser: &mut Chooser) -> Call {
        let (wanted, places) = (Block::of_area(&self.area), Places::of_area(&self.area));
        match chooser.rng.below(100) {
            // Few blocks are wanted for long, so they are asked for while they are.
            0..=24 if wanted.is_some() => chooser.points(wanted),
            0..=41 => chooser.carry_on(wanted, &places),
            42..=47 => chooser.point(wanted),
            48..=51 => chooser.damaged_point(wanted),
            52..=60 => chooser.points(wanted),
            61..=65 => chooser.damaged_points(wanted),
            66..=71 => chooser.damaged_deliver(wanted),
            72..=75 => Call::Choose,
            76..=78 => chooser.promote(&places),
            79..=82 => chooser.damaged_promote(&places),
            83..=86 => Call::Result,
            87..=89 => Call::CrossTotal,
            90..=92 => Call::Doubles,
            93..=95 => Call::Check,
            _ => chooser.damaged_start(),
        }
    }

    /// Another content of the whole area.
    fn content(&mut self, mut area: Area) {
        area.records.resize(RECORDS, IndexRecord::wanted([7; MOST_AXES], 7));
        area.store.resize(READINGS, 7);
        self.head(CONTENT, RECORDS, READINGS);
        for record in &area.records {
            record.to_words().into_iter().for_each(|word| self.word(word));
        }
        area.store.iter().for_each(|&reading| self.word(reading as u32));
        job_words(&area.job).into_iter().for_each(|word| self.word(word));
        self.area = area;
        self.line(CONTENT, &[]);
    }

    /// A call, lent so many records and readings; the reference isn't lent
    /// the others.
    fn call(&mut self, call: &Call, lent: usize, readings: usize) {
        self.head(kind(call), lent, readings);
        arguments(call).into_iter().for_each(|word| self.word(word));
        let length = call.buffer_length().unwrap_or(0);
        let mut buffer = vec![FILL; length + BEHIND];
        let records_kept = self.area.records.split_off(lent);
        let store_kept = self.area.store.split_off(readings);
        let answer = call::perform(&mut self.area, call, &mut buffer[..length]);
        self.area.records.extend(records_kept);
        self.area.store.extend(store_kept);
        let mut numbers = printed(&answer);
        *self.seen.entry((call.name(), numbers[0])).or_default() += 1;
        if call.buffer_length().is_some() {
            numbers.push(buffer.iter().fold(0, |digest, &byte| mix(digest, byte.into())));
        }
        self.line(kind(call), &numbers);
    }

    fn head(&mut self, kind: u32, records: usize, readings: usize) {
        [kind, records as u32, readings as u32].into_iter().for_each(|word| self.word(word));
    }

    fn word(&mut self, word: u32) {
        self.input.extend(word.to_le_bytes());
    }

    /// What was answered, and the digest of the area.
    fn line(&mut self, kind: u32, numbers: &[u64]) {
        let words = job_words(&self.area.job).into_iter();
        let words = words.chain(self.area.records.iter().flat_map(IndexRecord::to_words));
        let words = words.chain(self.area.store.iter().map(|&reading| reading as u32));
        let digest = words.fold(0, mix);
        self.output += &format!(" {kind}");
        for number in numbers.iter().chain([&digest]) {
            self.output += &format!(" {number}");
        }
        self.output += "\n";
    }
}

fn mix(digest: u64, word: u32) -> u64 {
    (digest * 65_599 + u64::from(word) % 4_294_967_291) % 4_294_967_291
}

fn wide(number: u64) -> [u32; 2] {
    [number as u32, (number >> 32) as u32]
}

fn job_words(job: &JobRecord) -> Vec<u32> {
    let mut words = vec![job.axes];
    words.extend(wide(job.threshold));
    words.extend([job.budget, job.held, job.reserved]);
    words.extend(wide(job.pending));
    words.extend(wide(job.carried));
    words.extend(wide(job.mean as u64));
    words
}

fn kind(call: &Call) -> u32 {
    match call {
        Call::Start { .. } => 1,
        Call::Point { .. } => 2,
        Call::Deliver { .. } => 3,
        Call::Promote { .. } => 4,
        Call::Result => 5,
        Call::CrossTotal => 6,
        Call::Check => 7,
        // 8 is a content.
        Call::Points { .. } => 9,
        Call::Doubles => 10,
        Call::Choose => 11,
    }
}

fn arguments(call: &Call) -> Vec<u32> {
    match call {
        Call::Start { axes, threshold, budget } => {
            [&[*axes][..], &wide(*threshold), &[*budget]].concat()
        }
        Call::Point { n, buffer } | Call::Points { n, buffer } => {
            [&wide(*n)[..], &[*buffer as u32]].concat()
        }
        Call::Deliver { readings, indicator } => [*indicator, readings.len() as u32]
            .into_iter()
            .chain(readings.iter().map(|&reading| reading as u32))
            .collect(),
        Call::Promote { place } => wide(*place).to_vec(),
        _ => Vec::new(),
    }
}

/// The numbers that the program prints for an answer. What choose and promote answer
/// is 20 above the word of the exported call.
fn printed(answer: &Answer) -> Vec<u64> {
    match answer {
        Answer::Started | Answer::Point(_) | Answer::Delivered => vec![0],
        Answer::Points { counts, .. } => vec![0, counts.written.into(), counts.block.into()],
        Answer::Choice(choice) => choice_numbers(*choice),
        Answer::Promotion(promotion) => vec![20 + u64::from(outcome_word(*promotion))],
        Answer::Totals(totals) => [0, totals.old.into(), totals.active.into()]
            .into_iter()
            .chain([totals.wanted.into(), totals.reserved.into(), totals.pending])
            .chain([totals.carried, totals.mean as u64, totals.ceiling.into()])
            .collect(),
        Answer::CrossTotal(total) => vec![0, *total as u64],
        Answer::Doubles(report) => [&[0], &report.bits()[..]].concat(),
        Answer::Sound(sound) => vec![30 + u64::from(*sound)],
        Answer::Refused(cause) => vec![cause.number().into()],
    }
}

/// The place is printed only where one is chosen.
fn choice_numbers(choice: Choice) -> Vec<u64> {
    let [word, _] = choice_words(choice);
    let place = match choice {
        Choice::Place(place) => Some(place),
        Choice::Met | Choice::Capped => None,
    };
    [20 + u64::from(word)].into_iter().chain(place).collect()
}
