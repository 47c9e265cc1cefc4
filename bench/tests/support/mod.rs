//! One area twice, as this version has it and as the reference has it. A call
//! is performed on both, and then everything that was lent is compared.

use bench::area::{IndexRecord, JobRecord};
use bench::calls::{self, Cause};
use bench::steps::{Choice, Counts, Doubles, PointCounts, Promotion};
use reference::area::{self, Area};
use reference::call::{self, Answer, Call, Lengths};
use reference::calls as reference_calls;
use reference::doubles::Report;

/// The storage that a caller has.
#[derive(Clone, Debug, PartialEq, Eq)]
pub struct Lent {
    pub job: JobRecord,
    pub records: Vec<IndexRecord>,
    pub store: Vec<i32>,
}

impl Lent {
    pub fn of(area: &Area) -> Lent {
        Lent {
            job: job_of(&area.job),
            records: area.records.iter().map(record_of).collect(),
            store: area.store.clone(),
        }
    }

    pub fn check(&self) -> bool {
        calls::check(&self.job, &self.records, &self.store)
    }
}

fn job_of(job: &area::JobRecord) -> JobRecord {
    let area::JobRecord { axes, threshold, budget, held, reserved, pending, carried, mean } = *job;
    JobRecord { axes, threshold, budget, held, reserved, pending, carried, mean }
}

fn record_of(record: &area::IndexRecord) -> IndexRecord {
    let area::IndexRecord { levels, state, indicator, first_reading, forward, backward } = *record;
    IndexRecord { levels, state, indicator, first_reading, forward, backward }
}

pub struct Pair {
    own: Lent,
    reference: Area,
}

impl Pair {
    pub fn new(area: Area) -> Pair {
        Pair { own: Lent::of(&area), reference: area }
    }

    pub fn area(&self) -> &Area {
        &self.reference
    }

    /// Performs a call on both sides, lent so much of the storage, with a
    /// buffer of this content, and gives the reference's answer.
    pub fn call(&mut self, call: &Call, lengths: Lengths, buffer: &[u8]) -> Answer {
        let (mut own_buffer, mut reference_buffer) = (buffer.to_vec(), buffer.to_vec());
        let records_kept = self.reference.records.split_off(lengths.records);
        let store_kept = self.reference.store.split_off(lengths.store);
        let answer = call::perform(&mut self.reference, call, &mut reference_buffer);
        self.reference.records.extend(records_kept);
        self.reference.store.extend(store_kept);

        let own = self.own_call(call, lengths, &mut own_buffer);
        let expected = match &answer {
            Answer::Refused(cause) => Err(cause.number()),
            accepted => Ok(accepted.clone()),
        };
        assert_eq!(own, expected, "the answer of {call:?}");
        assert_eq!(own_buffer, reference_buffer, "the buffer after {call:?}");
        let Lent { job, records, store } = Lent::of(&self.reference);
        assert_eq!(self.own.job, job, "the job record after {call:?}");
        assert!(self.own.records == records, "the records after {call:?}");
        assert!(self.own.store == store, "the store after {call:?}");
        answer
    }

    fn own_call(
        &mut self,
        call: &Call,
        lengths: Lengths,
        buffer: &mut [u8],
    ) -> Result<Answer, u32> {
        let job = &mut self.own.job;
        let records = &mut self.own.records[..lengths.records];
        let store = &mut self.own.store[..lengths.store];
        let answer = match call {
            Call::Start { axes, threshold, budget } => {
                calls::start(job, records, store, *axes, *threshold, *budget)
                    .map(|()| Answer::Started)
            }
            Call::Point { n, .. } => calls::point(job, records, store, *n as usize, buffer)
                .map(|()| Answer::Point(buffer[..job.axes as usize].to_vec())),
            Call::Points { n, .. } => calls::points(job, records, store, *n as usize, buffer)
                .map(|counts| written(counts, job.axes, buffer)),
            Call::Deliver { readings, indicator } => {
                calls::deliver(job, records, store, readings, *indicator)
                    .map(|()| Answer::Delivered)
            }
            Call::Choose => calls::choose(job, records, store).map(choice),
            Call::Promote { place } => {
                calls::promote(job, records, store, *place as usize).map(promotion)
            }
            Call::Result => calls::result(job, records, store).map(totals),
            Call::Doubles => calls::doubles(job, records, store).map(report),
            Call::CrossTotal => calls::cross_total(job, records, store).map(Answer::CrossTotal),
            Call::Check => Ok(Answer::Sound(calls::check(job, records, store))),
        };
        answer.map_err(|cause: Cause| cause as u32)
    }
}

fn written(PointCounts { written, block }: PointCounts, axes: u32, buffer: &[u8]) -> Answer {
    Answer::Points {
        counts: reference_calls::PointCounts { written, block },
        positions: buffer[..(written * axes) as usize].to_vec(),
    }
}

fn choice(choice: Choice) -> Answer {
    Answer::Choice(match choice {
        Choice::Met => reference_calls::Choice::Met,
        Choice::Capped => reference_calls::Choice::Capped,
        Choice::Place(place) => reference_calls::Choice::Place(place as u64),
    })
}

fn promotion(promotion: Promotion) -> Answer {
    Answer::Promotion(match promotion {
        Promotion::Spent => reference_calls::Promotion::Spent,
        Promotion::Promoted => reference_calls::Promotion::Promoted,
    })
}

fn report(Doubles { mean, pending, largest }: Doubles) -> Answer {
    Answer::Doubles(Report { mean, pending, largest })
}

fn totals(counts: Counts) -> Answer {
    let Counts { old, active, wanted, reserved, pending, carried, mean, ceiling } = counts;
    Answer::Totals(reference_calls::Totals {
        old,
        active,
        wanted,
        reserved,
        pending,
        carried,
        mean,
        ceiling,
    })
}
