//! The exported calls on storage that is lent. The nine that can be refused
//! give 0 or the number of the cause. Storage that a call is lent shared must
//! come back as it was; the functions assert that.

use crate::lent::{Lent, Loan};
use reference::area::Area;
use std::fmt::Debug;
use std::hint::black_box;
use wihupya_sys as exported;

pub use wihupya_sys::{
    ChoiceWords, CountWords, DoublesReport, OutcomeWord, PointsWords, TotalWords,
};

/// Check on an area whose cells end with its last record.
pub fn check(area: &Area) -> bool {
    check_lent(&mut Lent::of(area))
}

/// Check on all of any job words, cells and readings.
pub fn check_lent(lent: &mut Lent) -> bool {
    check_loan(&lent.all())
}

pub fn check_loan(loan: &Loan) -> bool {
    let kept = Snapshot::of(loan);
    let answer = exported::check(loan.job, loan.cells, loan.store);
    kept.assert_unchanged("check", loan);
    answer
}

pub fn start(loan: Loan, axes: u32, threshold: u64, budget: u32) -> u32 {
    let Loan { job, cells, store } = loan;
    let kept = store.to_vec();
    let number = exported::start(job, axes, threshold, budget, cells, store);
    assert_same("start", store, &kept);
    number
}

pub fn point(loan: Loan, n: usize, buffer: &mut [u8]) -> u32 {
    let kept = Snapshot::of(&loan);
    let number = exported::point(loan.job, n, loan.cells, loan.store, buffer);
    kept.assert_unchanged("point", &loan);
    number
}

pub fn points(loan: Loan, n: usize, counts: &mut PointsWords, buffer: &mut [u8]) -> u32 {
    let kept = Snapshot::of(&loan);
    let number = exported::points(loan.job, n, counts, loan.cells, loan.store, buffer);
    kept.assert_unchanged("points", &loan);
    number
}

pub fn deliver(loan: Loan, readings: &[i32], indicator: u32) -> u32 {
    let Loan { job, cells, store } = loan;
    let kept = readings.to_vec();
    let number = exported::deliver(job, readings, indicator, cells, store);
    assert_same("deliver", readings, &kept);
    number
}

pub fn choose(loan: Loan, choice: &mut ChoiceWords) -> u32 {
    let kept = Snapshot::of(&loan);
    let number = exported::choose(loan.job, choice, loan.cells, loan.store);
    kept.assert_unchanged("choose", &loan);
    number
}

pub fn promote(loan: Loan, place: usize, outcome: &mut OutcomeWord) -> u32 {
    let Loan { job, cells, store } = loan;
    let kept = store.to_vec();
    let number = exported::promote(job, place, outcome, cells, store);
    assert_same("promote", store, &kept);
    number
}

pub fn result(loan: Loan, counts: &mut CountWords) -> u32 {
    let kept = Snapshot::of(&loan);
    let number = exported::result(loan.job, counts, loan.cells, loan.store);
    kept.assert_unchanged("result", &loan);
    number
}

pub fn doubles(loan: Loan, report: &mut DoublesReport) -> u32 {
    let kept = Snapshot::of(&loan);
    let number = exported::doubles(loan.job, report, loan.cells, loan.store);
    kept.assert_unchanged("doubles", &loan);
    number
}

pub fn cross_total(loan: Loan, total: &mut TotalWords) -> u32 {
    let kept = Snapshot::of(&loan);
    let number = exported::cross_total(loan.job, total, loan.cells, loan.store);
    kept.assert_unchanged("cross total", &loan);
    number
}

/// What a call was lent all shared, as it was before.
struct Snapshot(Lent);

impl Snapshot {
    fn of(loan: &Loan) -> Snapshot {
        Snapshot(Lent { job: *loan.job, cells: loan.cells.to_vec(), store: loan.store.to_vec() })
    }

    fn assert_unchanged(&self, call: &str, loan: &Loan) {
        assert_same(call, loan.job, &self.0.job);
        assert_same(call, loan.cells, &self.0.cells);
        assert_same(call, loan.store, &self.0.store);
    }
}

/// The compiler may take it that shared storage doesn't change, so the
/// comparison looks at it anew.
fn assert_same<T: PartialEq + Debug>(call: &str, now: &[T], before: &[T]) {
    assert!(*black_box(now) == *before, "{call} wrote into storage that it was lent shared");
}
