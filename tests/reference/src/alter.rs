//! Alters an area in one to three places by seed: single numbers, and changes
//! of several numbers that belong together, so that the altered area is still
//! sound or breaks one clause alone.

use crate::area::{Area, IndexRecord, ACTIVE, NONE, OLD, WANTED, WORDS};
use crate::grid::{self, MOST_AXES, READING_LIMIT};
use crate::rng::Rng;
use crate::sums::DIFFERENCE_LIMIT;

mod carried;
mod choosing;
mod held;
mod near_misses;

pub use held::promote_past_limits;

type Change = fn(&mut Area, &mut Rng) -> Option<String>;

/// Every kind of change; each says what it did, or nothing if it cannot be
/// made in this area.
const CHANGES: [Change; 48] = [
    job_field,
    record_word,
    record_word,
    store_element,
    swap_records,
    active_indicator_with_pending,
    old_indicator,
    mean_within_or_at_bound,
    old_becomes_active,
    active_becomes_old,
    wanted_becomes_active,
    active_becomes_wanted,
    state_of_no_kind,
    held::drop_last_wanted,
    held::append_copy,
    held::append_past_ceiling,
    held::append_beyond_axes,
    link_beyond_axes,
    exchange_places,
    held::promote_past_limits,
    budget_moved,
    axes_moved,
    reading_in_block,
    wanted_indicator,
    first_reading,
    near_misses::append_root,
    near_misses::append_level_0,
    near_misses::cross_links,
    near_misses::forward_past_held,
    near_misses::backward_past_held,
    near_misses::drop_leaf,
    carried::carried_off,
    carried::carried_off,
    carried::carried_indicator,
    carried::uncarried_indicator,
    carried::exchange_indicators,
    carried::carried_left_behind,
    carried::threshold_near,
    carried::threshold_near,
    carried::threshold_near,
    carried::carry_all,
    carried::take_back,
    choosing::deliver_all,
    choosing::deliver_all,
    choosing::equal_indicators,
    choosing::equal_indicators,
    choosing::budget_of_a_promotion,
    choosing::budget_of_a_promotion,
];

/// Alters the area in one to three places and says how.
pub fn alter(area: &mut Area, rng: &mut Rng) -> Vec<String> {
    let places = rng.pick(&[1, 1, 1, 1, 2, 2, 3]);
    let mut done = Vec::new();
    while done.len() < places {
        let change = rng.pick(&CHANGES);
        done.extend(change(area, rng));
    }
    done
}

/// The place of a held record with this state, any of them.
fn any_in_state(area: &Area, rng: &mut Rng, state: u32) -> Option<usize> {
    let all: Vec<usize> =
        (0..area.held().len()).filter(|&place| area.records[place].state == state).collect();
    if all.is_empty() {
        None
    } else {
        Some(rng.pick(&all))
    }
}

fn axes(area: &Area) -> usize {
    MOST_AXES.min(area.job.axes as usize)
}

/// What a record adds to the carried error where it is old.
fn carries(area: &Area, record: &IndexRecord) -> u64 {
    match grid::at_a_ceiling(axes(area), &record.levels) {
        true => record.indicator.into(),
        false => 0,
    }
}

/// A number of 32 bits that is likely to matter in place of this one.
fn significant(area: &Area, rng: &mut Rng, was: u32) -> u32 {
    let bit = rng.below(32);
    match rng.below(11) {
        0 | 1 => was.wrapping_add(1),
        2 | 3 => was.wrapping_sub(1),
        4 => NONE,
        5 => rng.below(4) as u32,
        6 => rng.pick(&[8, 9, 511, 512, 513, 8_192, 8_193, 1 << 31]),
        7 => rng.below(u64::from(area.job.held) + 2) as u32,
        8 => area.job.reserved,
        // One bit, so that a part of the word alone is another.
        9 => was ^ (1 << rng.pick(&[8, 16, 31, bit])),
        _ => rng.number() as u32,
    }
}

fn significant_wide(area: &Area, rng: &mut Rng, was: u64) -> u64 {
    let bit = rng.below(64);
    match rng.below(6) {
        0 => was.wrapping_add(1),
        1 => was.wrapping_sub(1),
        2 => 0,
        3 => u64::from(significant(area, rng, was as u32)),
        4 => was ^ (1 << rng.pick(&[32, 63, bit])),
        _ => rng.number(),
    }
}

fn job_field(area: &mut Area, rng: &mut Rng) -> Option<String> {
    let was = area.job;
    let field = rng.below(8);
    match field {
        0 => area.job.axes = significant(area, rng, was.axes),
        1 => area.job.threshold = significant_wide(area, rng, was.threshold),
        2 => area.job.budget = significant(area, rng, was.budget),
        3 => area.job.held = significant(area, rng, was.held),
        4 => area.job.reserved = significant(area, rng, was.reserved),
        5 => area.job.pending = significant_wide(area, rng, was.pending),
        6 => area.job.carried = significant_wide(area, rng, was.carried),
        _ => area.job.mean = significant_wide(area, rng, was.mean as u64) as i64,
    }
    Some(format!("job field {field}: {was:?} became {:?}", area.job))
}

/// Any word of a record, mostly a held one, at times one past the last held.
fn record_word(area: &mut Area, rng: &mut Rng) -> Option<String> {
    let count = if rng.percent(90) { area.held().len() } else { area.records.len() };
    if count == 0 {
        return None;
    }
    let (place, other) = (rng.place(count), rng.place(count));
    let word = rng.place(WORDS);
    let mut words = area.records[place].to_words();
    let was = words[word];
    words[word] = match rng.percent(20) {
        true => area.records[other].to_words()[word],
        false => significant(area, rng, was),
    };
    area.records[place] = IndexRecord::from_words(&words);
    Some(format!("word {word} of record {place}: {was} became {}", words[word]))
}

fn store_element(area: &mut Area, rng: &mut Rng) -> Option<String> {
    let count = match rng.percent(70) {
        true => area.store.len().min(area.job.reserved as usize),
        false => area.store.len(),
    };
    if count == 0 {
        return None;
    }
    let place = rng.place(count);
    area.store[place] = significant(area, rng, area.store[place] as u32) as i32;
    Some(format!("store element {place} became {}", area.store[place]))
}

fn swap_records(area: &mut Area, rng: &mut Rng) -> Option<String> {
    let count = area.held().len();
    if count < 2 {
        return None;
    }
    let (one, other) = (rng.place(count), rng.place(count));
    area.records.swap(one, other);
    Some(format!("records {one} and {other} swapped with all their words"))
}

/// Sets an active record's indicator and carries the pending error along.
fn set_active_indicator(area: &mut Area, place: usize, indicator: u32) {
    let record = &mut area.records[place];
    let rest = area.job.pending.wrapping_sub(u64::from(record.indicator));
    area.job.pending = rest.wrapping_add(u64::from(indicator));
    record.indicator = indicator;
}

fn active_indicator_with_pending(area: &mut Area, rng: &mut Rng) -> Option<String> {
    let place = any_in_state(area, rng, ACTIVE)?;
    let indicator = significant(area, rng, area.records[place].indicator);
    set_active_indicator(area, place, indicator);
    Some(format!("indicator of active {place} became {indicator}, pending with it"))
}

fn old_indicator(area: &mut Area, rng: &mut Rng) -> Option<String> {
    let place = any_in_state(area, rng, OLD)?;
    area.records[place].indicator = significant(area, rng, area.records[place].indicator);
    Some(format!("indicator of old {place} became {}", area.records[place].indicator))
}

fn wanted_indicator(area: &mut Area, rng: &mut Rng) -> Option<String> {
    let place = any_in_state(area, rng, WANTED)?;
    area.records[place].indicator = rng.pick(&[1, 1 << 16, 1 << 31, u32::MAX]);
    Some(format!("indicator of wanted {place} became {}", area.records[place].indicator))
}

fn first_reading(area: &mut Area, rng: &mut Rng) -> Option<String> {
    let state = rng.pick(&[WANTED, ACTIVE, OLD]);
    let place = any_in_state(area, rng, state)?;
    let first = significant(area, rng, area.records[place].first_reading);
    area.records[place].first_reading = first;
    Some(format!("first reading of {place} became {first}"))
}

fn mean_within_or_at_bound(area: &mut Area, rng: &mut Rng) -> Option<String> {
    let delivered = area.held().iter().filter(|record| record.is_delivered()).count();
    let bound = delivered as i64 * DIFFERENCE_LIMIT as i64;
    let within = match bound {
        0 => 0,
        _ => rng.between(-bound, bound),
    };
    area.job.mean = rng.pick(&[bound, -bound, bound + 1, -bound - 1, within, i64::MIN, i64::MAX]);
    Some(format!("mean became {} where the bound is {bound}", area.job.mean))
}

/// Makes an old record active and takes both errors along.
fn make_active(area: &mut Area, place: usize) {
    let record = area.records[place];
    area.records[place].state = ACTIVE;
    area.job.pending = area.job.pending.wrapping_add(u64::from(record.indicator));
    area.job.carried = area.job.carried.wrapping_sub(carries(area, &record));
}

/// Makes an active record old and takes both errors along.
fn make_old(area: &mut Area, place: usize) {
    let record = area.records[place];
    area.records[place].state = OLD;
    area.job.pending = area.job.pending.wrapping_sub(u64::from(record.indicator));
    area.job.carried = area.job.carried.wrapping_add(carries(area, &record));
}

fn old_becomes_active(area: &mut Area, rng: &mut Rng) -> Option<String> {
    let place = any_in_state(area, rng, OLD)?;
    make_active(area, place);
    Some(format!("old {place} became active, both errors with it"))
}

fn active_becomes_old(area: &mut Area, rng: &mut Rng) -> Option<String> {
    let place = any_in_state(area, rng, ACTIVE)?;
    make_old(area, place);
    Some(format!("active {place} became old, both errors with it"))
}

/// The first wanted record becomes active with whatever the store holds.
fn wanted_becomes_active(area: &mut Area, rng: &mut Rng) -> Option<String> {
    let place = area.held().iter().position(|record| record.state == WANTED)?;
    area.records[place].state = ACTIVE;
    set_active_indicator(area, place, rng.below(1_000) as u32);
    Some(format!("wanted {place} became active, pending with it"))
}

fn active_becomes_wanted(area: &mut Area, rng: &mut Rng) -> Option<String> {
    let place = any_in_state(area, rng, ACTIVE)?;
    set_active_indicator(area, place, 0);
    area.records[place].state = WANTED;
    Some(format!("active {place} became wanted, pending with it"))
}

fn state_of_no_kind(area: &mut Area, rng: &mut Rng) -> Option<String> {
    let place = area.held().len().checked_sub(1)?;
    if area.records[place].state == ACTIVE {
        set_active_indicator(area, place, 0);
    }
    area.records[place].state = rng.pick(&[3, 4, 256, u32::MAX]);
    Some(format!("state of the last record became {}", area.records[place].state))
}

fn link_beyond_axes(area: &mut Area, rng: &mut Rng) -> Option<String> {
    let beyond = MOST_AXES - axes(area);
    if beyond == 0 || area.held().is_empty() {
        return None;
    }
    let axis = axes(area) + rng.place(beyond);
    let place = rng.place(area.held().len());
    let link = rng.pick(&[0, NONE - 1]);
    match rng.percent(50) {
        true => area.records[place].forward[axis] = link,
        false => area.records[place].backward[axis] = link,
    }
    Some(format!("a link of record {place} beyond d became {link}"))
}

/// Two held records change places, and everything that goes by places with
/// them: links, first readings and the readings in the store.
fn exchange_places(area: &mut Area, rng: &mut Rng) -> Option<String> {
    let count = area.held().len();
    if count < 2 {
        return None;
    }
    let (one, other) = (rng.place(count), rng.place(count));
    let mut blocks: Vec<Vec<i32>> = Vec::new();
    for record in area.held() {
        let first = record.first_reading as usize;
        let size = usize::try_from(grid::block_size_of_any(&record.levels)?).ok()?;
        blocks.push(area.store.get(first..first.checked_add(size)?)?.to_vec());
    }
    if blocks.iter().map(Vec::len).sum::<usize>() > area.store.len() {
        return None;
    }
    blocks.swap(one, other);
    area.records.swap(one, other);
    let mut first = 0;
    for (record, block) in area.records.iter_mut().zip(&blocks) {
        record.first_reading = first as u32;
        area.store[first..first + block.len()].copy_from_slice(block);
        first += block.len();
        for link in record.forward.iter_mut().chain(&mut record.backward) {
            if *link as usize == one {
                *link = other as u32;
            } else if *link as usize == other {
                *link = one as u32;
            }
        }
    }
    Some(format!("records {one} and {other} exchanged with all that goes by places"))
}

fn budget_moved(area: &mut Area, rng: &mut Rng) -> Option<String> {
    let reserved = area.job.reserved;
    area.job.budget =
        rng.pick(&[0, reserved, reserved.wrapping_sub(1), 8_192, 8_193, 8_240, u32::MAX]);
    Some(format!("budget became {}", area.job.budget))
}

fn axes_moved(area: &mut Area, rng: &mut Rng) -> Option<String> {
    area.job.axes = rng.pick(&[0, 9, area.job.axes.wrapping_add(1), u32::MAX]);
    Some(format!("axes became {}", area.job.axes))
}

/// One of the delivered readings, to a number in range or just outside.
fn reading_in_block(area: &mut Area, rng: &mut Rng) -> Option<String> {
    let state = rng.pick(&[ACTIVE, OLD]);
    let record = area.records[any_in_state(area, rng, state)?];
    let size = u64::try_from(grid::block_size_of_any(&record.levels)?).ok()?;
    let place = record.first_reading as usize + rng.below(size.max(1)) as usize;
    let edge = rng.pick(&[READING_LIMIT, READING_LIMIT + 1, 5, i32::MAX]);
    let reading = if rng.percent(50) { edge } else { -edge };
    *area.store.get_mut(place)? = reading;
    Some(format!("delivered reading {place} became {reading}"))
}
