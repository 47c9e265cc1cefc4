//! One work area twice, as the library has it and as the reference has it. A
//! call is performed on both, and then everything is compared.

use crate::answers::{self, Slots};
use crate::lent::{JobRecord, Lent, Part};
use reference::area::{Area, WORDS};
use reference::call::{Answer, Call};
use std::fmt::Debug;

pub struct Pair {
    library: Lent,
    reference: Area,
    /// Cells past the last whole record, fewer than a record has. No call may
    /// write there.
    rest: Vec<u32>,
}

impl Pair {
    pub fn new(area: Area, rest: Vec<u32>) -> Pair {
        assert!(rest.len() < WORDS);
        let mut library = Lent::of(&area);
        library.cells.extend(&rest);
        Pair { library, reference: area, rest }
    }

    pub fn area(&self) -> &Area {
        &self.reference
    }

    /// All the storage there is.
    pub fn whole(&self) -> Part {
        self.library.whole()
    }

    /// Another content, of the same lengths, on both sides.
    pub fn replace(&mut self, area: Area) {
        let whole = self.whole();
        *self = Pair::new(area, std::mem::take(&mut self.rest));
        assert_eq!(self.whole(), whole);
    }

    /// Performs a call on both sides and gives the reference's answer; or says
    /// what differs.
    pub fn call(&mut self, call: &Call, part: Part, slots: &Slots) -> Result<Answer, String> {
        let (mut by_library, mut by_reference) = (slots.clone(), slots.clone());
        let answer = self.reference_call(call, part, &mut by_reference);
        let return_value = answers::of_library(self.library.part(part), call, &mut by_library);
        same("the answer", return_value, answers::return_value(&answer))?;
        same_each("point count word", &by_library.points, &by_reference.points)?;
        same_each("choice word", &by_library.choice, &by_reference.choice)?;
        same("the outcome word", by_library.outcome, by_reference.outcome)?;
        same_each("count word", &by_library.counts, &by_reference.counts)?;
        same_each("total word", &by_library.total, &by_reference.total)?;
        same_each("the bits of double", &by_library.doubles, &by_reference.doubles)?;
        same_each("byte of the buffer", &by_library.buffer, &by_reference.buffer)?;
        self.same_areas()?;
        Ok(answer)
    }

    /// The reference is lent whole records; what it isn't lent isn't there.
    fn reference_call(&mut self, call: &Call, part: Part, slots: &mut Slots) -> Answer {
        let area = &mut self.reference;
        let records_kept = area.records.split_off(area.records.len().min(part.cells / WORDS));
        let store_kept = area.store.split_off(part.store);
        let answer = answers::of_reference(area, call, slots);
        area.records.extend(records_kept);
        area.store.extend(store_kept);
        answer
    }

    fn same_areas(&self) -> Result<(), String> {
        let Lent { job, cells, store } = &self.library;
        let Area { job: reference_job, records, store: reference_store } = &self.reference;
        same_each("job word", job, &JobRecord::from(*reference_job).words())?;
        let (whole, rest) = cells.split_at(records.len() * WORDS);
        for (place, (words, record)) in whole.chunks(WORDS).zip(records).enumerate() {
            let expected = record.to_words();
            if words != expected {
                let at = |fault| format!("record {place}, {fault}");
                return same_each("word", words, &expected).map_err(at);
            }
        }
        same_each("cell past the last whole record", rest, &self.rest)?;
        same_each("element of the store", store, reference_store)
    }
}

fn same<T: PartialEq + Debug>(what: &str, by_library: T, by_reference: T) -> Result<(), String> {
    if by_library == by_reference {
        return Ok(());
    }
    Err(format!("{what} is {by_library:?}, the reference's {by_reference:?}"))
}

fn same_each<T>(what: &str, by_library: &[T], by_reference: &[T]) -> Result<(), String>
where
    T: PartialEq + Debug,
{
    if by_library == by_reference {
        return Ok(());
    }
    assert_eq!(by_library.len(), by_reference.len());
    for (number, (one, other)) in by_library.iter().zip(by_reference).enumerate() {
        same(&format!("{what} {number}"), one, other)?;
    }
    Ok(())
}

#[cfg(test)]
mod tests {
    use super::*;
    use reference::sample;

    /// A comparison that overlooks a word would pass any call.
    #[test]
    fn any_single_word_that_differs_is_noticed() {
        let pair = || Pair::new(sample::area(3), vec![5; WORDS - 1]);
        assert_eq!(pair().same_areas(), Ok(()));
        let Part { cells, store } = pair().whole();
        let mut changed = pair();
        for word in 0..changed.library.job.len() {
            changed.library.job[word] ^= 1 << 31;
            assert!(changed.same_areas().is_err(), "job word {word}");
            changed.library.job[word] ^= 1 << 31;
        }
        for cell in 0..cells {
            changed.library.cells[cell] ^= 1;
            assert!(changed.same_areas().is_err(), "cell {cell}");
            changed.library.cells[cell] ^= 1;
        }
        for element in 0..store {
            changed.library.store[element] ^= 1;
            assert!(changed.same_areas().is_err(), "element {element}");
            changed.library.store[element] ^= 1;
        }
        assert_eq!(changed.same_areas(), Ok(()));
    }
}
