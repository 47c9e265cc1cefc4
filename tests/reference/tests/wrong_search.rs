//! Wrong programs for the search a word at a time, each with one slip, and the
//! searches by name that tell them from a right one; for one of them it is a promotion.
//! Lists by seed notice each slip too.
//!
//! A program packs the held records once for a promotion, compares word with word where
//! the record and the sought list fit, compares the levels where one doesn't, and appends
//! the word of an admitted index together with its record.

use reference::alter;
use reference::area::{Area, NONE, OLD};
use reference::calls::{self, Promotion};
use reference::grid::{self, Levels, BUDGET_LIMIT, HELD_LIMIT, MOST_AXES, ROOT};
use reference::places::Places;
use reference::rng::Rng;
use reference::sample;
use reference::search::{self, Case, BYTE};

/// What a program does wrong.
#[derive(Clone, Copy, Debug, PartialEq, Eq)]
enum Slip {
    None,
    /// A level of 255 is taken not to fit. That is no wrong program: the levels are
    /// compared then.
    Fits254,
    /// The word is made with 128 for 256.
    Base128,
    /// A level of 256 is taken to fit.
    Fits256,
    /// The last held record isn't packed: its word is what lay there, 0.
    LastUnpacked,
    /// The word of an appended record is put at the refined place.
    AppendedAtRefined,
    /// A larger level that is sought is compared by its remainder.
    SoughtByRemainder,
    /// A larger level that is held is.
    HeldByRemainder,
    /// Larger levels are packed as they are.
    LargerPacked,
    /// The word has seven bytes.
    LastAxisLeftOut,
    /// Where something doesn't fit there is no match.
    LargerNotFound,
    /// A larger record ends the search.
    LargerEndsSearch,
    /// The last of equal ones is found.
    LastOfEquals,
}

/// The programs that answer as they must.
const RIGHT: [Slip; 2] = [Slip::None, Slip::Fits254];

const WRONG: [Slip; 11] = [
    Slip::Base128,
    Slip::Fits256,
    Slip::LastUnpacked,
    Slip::AppendedAtRefined,
    Slip::SoughtByRemainder,
    Slip::HeldByRemainder,
    Slip::LargerPacked,
    Slip::LastAxisLeftOut,
    Slip::LargerNotFound,
    Slip::LargerEndsSearch,
    Slip::LastOfEquals,
];

impl Slip {
    /// The word, byte after byte from axis 8 down; none where a level doesn't fit.
    fn word(self, levels: &Levels) -> Option<u64> {
        let highest = match self {
            Slip::Fits254 => 254,
            Slip::Fits256 => 256,
            Slip::LargerPacked => u32::MAX,
            _ => 255,
        };
        let base: u64 = if self == Slip::Base128 { 128 } else { 256 };
        let axes = if self == Slip::LastAxisLeftOut { 7 } else { MOST_AXES };
        let next = |word: u64, &level: &u32| word.wrapping_mul(base).wrapping_add(level.into());
        let fit = levels.iter().all(|&level| level <= highest);
        fit.then(|| levels[..axes].iter().rev().fold(0, next))
    }

    fn held_word(self, levels: &Levels) -> Option<u64> {
        match self {
            Slip::HeldByRemainder => self.word(&remainders(levels)),
            _ => self.word(levels),
        }
    }

    fn sought_word(self, levels: &Levels) -> Option<u64> {
        match self {
            Slip::SoughtByRemainder => self.word(&remainders(levels)),
            _ => self.word(levels),
        }
    }
}

fn remainders(levels: &Levels) -> Levels {
    levels.map(|level| level % BYTE)
}

/// The held records of a promotion and their words.
struct Packing {
    slip: Slip,
    held: Vec<Levels>,
    /// None where a record doesn't fit. Past the held lies 0.
    words: Vec<Option<u64>>,
}

impl Packing {
    /// Packs all that is held, once for the promotion.
    fn of(slip: Slip, held: &[Levels]) -> Packing {
        let mut words = vec![Some(0); HELD_LIMIT];
        let packed = match slip {
            Slip::LastUnpacked => held.len().saturating_sub(1),
            _ => held.len(),
        };
        for (word, levels) in words.iter_mut().zip(&held[..packed]) {
            *word = slip.held_word(levels);
        }
        Packing { slip, held: held.to_vec(), words }
    }

    /// Appends a record and its word, so that a later search finds it.
    fn append(&mut self, levels: Levels, refined: usize) {
        let place = match self.slip {
            Slip::AppendedAtRefined => refined,
            _ => self.held.len(),
        };
        self.words[place] = self.slip.held_word(&levels);
        self.held.push(levels);
    }

    fn first(&self, sought: &Levels) -> Option<usize> {
        let word = self.slip.sought_word(sought);
        let mut places = 0..self.searched();
        let matches = |place: &usize| match (self.words[*place], word) {
            (Some(held), Some(sought)) => held == sought,
            _ => self.slip != Slip::LargerNotFound && self.held[*place] == *sought,
        };
        match self.slip {
            Slip::LastOfEquals => places.rfind(matches),
            _ => places.find(matches),
        }
    }

    /// How many places are looked at.
    fn searched(&self) -> usize {
        let words = &self.words[..self.held.len()];
        let larger = words.iter().position(Option::is_none);
        match self.slip {
            Slip::LargerEndsSearch => larger.unwrap_or(words.len()),
            _ => words.len(),
        }
    }

    fn all(&self, sought: &[Levels]) -> Vec<Option<usize>> {
        sought.iter().map(|levels| self.first(levels)).collect()
    }

    /// The places of an index's backward neighbours, axis by axis.
    fn backward_links(&self, index: &Levels) -> [Option<usize>; MOST_AXES] {
        let backward = |axis| grid::backward_neighbour(index, axis);
        std::array::from_fn(|axis| backward(axis).and_then(|levels| self.first(&levels)))
    }
}

fn right(held: &[Levels], sought: &[Levels]) -> Vec<Option<usize>> {
    sought.iter().map(|levels| search::first_with(held, levels)).collect()
}

/// An appended index and the places of its backward neighbours, axis by axis.
type Appended = (Levels, [Option<usize>; MOST_AXES]);

/// What a promotion of a place appends, with a program's search: to admit an index, and
/// to link it before it is appended, its backward neighbours are looked up.
fn promotion(slip: Slip, area: &Area, refined: usize) -> Vec<Appended> {
    let mut packing = Packing::of(slip, &search::held_in(area));
    let mut appended = Vec::new();
    for index in admitted(&packing, area, refined) {
        appended.push((index, packing.backward_links(&index)));
        packing.append(index, refined);
    }
    appended
}

fn admitted(packing: &Packing, area: &Area, refined: usize) -> Vec<Levels> {
    let axes = area.job.axes as usize;
    let is_old = |levels: Levels| {
        let place = packing.first(&levels);
        place.is_some_and(|place| place == refined || area.records[place].state == OLD)
    };
    let all_old = |index: &Levels| {
        (0..axes).filter_map(|axis| grid::backward_neighbour(index, axis)).all(is_old)
    };
    let levels = &area.records[refined].levels;
    let neighbours = (0..axes).filter_map(|axis| grid::forward_neighbour(levels, axis));
    neighbours.filter(|index| grid::within_ceilings(index) && all_old(index)).collect()
}

/// The same as the calls have it; none where the place can't be promoted.
fn by_the_calls(area: &Area, place: u64) -> Option<Vec<Appended>> {
    let mut after = area.clone();
    if calls::promote(&mut after, place) != Ok(Promotion::Promoted) {
        return None;
    }
    let named = |link: u32| (link != NONE).then_some(link as usize);
    let appended = after.held()[area.held().len()..].iter();
    Some(appended.map(|record| (record.levels, record.backward.map(named))).collect())
}

/// A slip, the search by name that tells it from a right program, and what it finds
/// there.
type Told = (Slip, &'static str, Option<usize>);

const TOLD: [Told; 10] = [
    (Slip::Base128, "(129,1) held, (1,2) sought", Some(0)),
    (Slip::Fits256, "(256,1) held, (0,2) sought", Some(0)),
    (Slip::LastUnpacked, "every_byte_counts, 255 on every axis", None),
    (Slip::SoughtByRemainder, "the root held, (257,1) sought", Some(0)),
    (Slip::HeldByRemainder, "(257,1) held, the root sought", Some(0)),
    (Slip::LargerPacked, "a_carry_is_no_match", Some(0)),
    (Slip::LastAxisLeftOut, "every_byte_counts, 254 on axis 8", Some(1)),
    (Slip::LargerNotFound, "larger_is_found_unpacked", None),
    (Slip::LargerEndsSearch, "one_larger_record_spoils_no_other", None),
    (Slip::LastOfEquals, "held at places 1 and 3", Some(3)),
];

/// The words too are those of the definition.
#[test]
fn without_a_slip_the_search_is_right() {
    for Case { name, held, sought, place } in search::cases() {
        for slip in RIGHT {
            assert_eq!(Packing::of(slip, &held).first(&sought), place, "{slip:?}: {name}");
        }
        for levels in held.iter().chain([&sought]) {
            assert_eq!(Slip::None.word(levels), search::word(levels), "{name}: {levels:?}");
        }
    }
}

#[test]
fn each_slip_is_told_by_a_named_search() {
    let cases = search::cases();
    for (slip, told_by, finds) in TOLD {
        let case = cases.iter().find(|case| case.name == told_by).expect("a case of that name");
        assert_eq!(Packing::of(slip, &case.held).first(&case.sought), finds, "{slip:?}");
        assert_ne!(case.place, finds, "{slip:?} by {told_by}");
    }
    let told = |slip: &Slip| TOLD.iter().any(|(told, ..)| told == slip);
    let others: Vec<Slip> = WRONG.into_iter().filter(|slip| !told(slip)).collect();
    assert_eq!(others, [Slip::AppendedAtRefined]);
}

/// A job just started, the root delivered.
fn root_delivered(axes: u32) -> Area {
    let mut area = Area::empty(HELD_LIMIT, 64);
    assert_eq!(calls::start(&mut area, axes, 0, 64), Ok(()));
    assert_eq!(calls::deliver(&mut area, &[0], 1), Ok(()));
    area
}

/// The root raised to level 2 on one axis, and its link to the root.
fn above_the_root(axis: usize) -> Appended {
    let (mut index, mut links) = (ROOT, [None; MOST_AXES]);
    (index[axis], links[axis]) = (2, Some(0));
    (index, links)
}

/// The root's promotion in two axes: the word of (2,1) at place 0 covers the root's, so
/// that (1,2) loses its backward link. In one axis nothing is looked up after the only
/// word is appended, and the promotion shows nothing.
#[test]
fn a_word_at_the_refined_place_loses_the_root() {
    let (one, two) = (root_delivered(1), root_delivered(2));
    let due = [above_the_root(0), above_the_root(1)];
    assert_eq!(by_the_calls(&two, 0).as_deref(), Some(&due[..]));
    assert_eq!(promotion(Slip::None, &two, 0), due);
    let lost = (due[1].0, [None; MOST_AXES]);
    assert_eq!(promotion(Slip::AppendedAtRefined, &two, 0), [due[0], lost]);
    assert_eq!(promotion(Slip::AppendedAtRefined, &one, 0), due[..1]);
}

/// Looked up after all are appended, the root is lost to both, also in one axis, and of
/// the appended only the last is found, at the root's place.
#[test]
fn after_the_appends_the_root_is_no_longer_found() {
    let after = |slip: Slip, axes: usize| {
        let mut packing = Packing::of(slip, &[ROOT]);
        (0..axes).for_each(|axis| packing.append(above_the_root(axis).0, 0));
        packing
    };
    let sought = [ROOT, above_the_root(0).0, above_the_root(1).0];
    for axes in [1, 2] {
        for slip in RIGHT {
            let packing = after(slip, axes);
            assert_eq!(packing.all(&sought), right(&packing.held, &sought), "{axes}, {slip:?}");
        }
    }
    assert_eq!(after(Slip::None, 2).all(&sought), [Some(0), Some(1), Some(2)]);
    assert_eq!(after(Slip::AppendedAtRefined, 2).all(&sought), [None, None, Some(0)]);
    assert_eq!(after(Slip::AppendedAtRefined, 1).all(&sought), [None, Some(0), None]);
    let links = |packing: &Packing, axis| packing.backward_links(&above_the_root(axis).0)[axis];
    let packing = after(Slip::AppendedAtRefined, 2);
    assert_eq!([links(&packing, 0), links(&packing, 1)], [None, None]);
}

/// Held lists as they are late in a promotion: the last up to eight appended to what
/// was packed before, of which one place is refined; half the time nothing is appended.
fn in_a_promotion(slip: Slip, held: &[Levels], seed: u64) -> Packing {
    let mut rng = Rng::new(seed);
    if held.is_empty() {
        return Packing::of(slip, held);
    }
    let most = rng.pick(&[1, held.len().min(MOST_AXES + 1)]);
    let (before, appended) = held.split_at(held.len() - rng.place(most));
    let refined = rng.place(before.len());
    let mut packing = Packing::of(slip, before);
    appended.iter().for_each(|levels| packing.append(*levels, refined));
    packing
}

/// Which seeds told a slip.
type Seeds = [Vec<u64>; WRONG.len()];

fn note(told: &mut Seeds, seed: u64, differs: impl Fn(Slip) -> bool) {
    assert_eq!(RIGHT.into_iter().find(|&slip| differs(slip)), None, "seed {seed}");
    for (seeds, slip) in told.iter_mut().zip(WRONG) {
        if differs(slip) {
            seeds.push(seed);
        }
    }
}

fn print(told: &Seeds) {
    for (seeds, slip) in told.iter().zip(WRONG) {
        println!("{slip:?}: {}, first {:?}", seeds.len(), &seeds[..seeds.len().min(5)]);
    }
}

/// Lists by seed notice each slip, so that a comparison over seeds would without any
/// search by name.
#[test]
fn each_slip_is_told_by_lists_by_seed() {
    let mut told = Seeds::default();
    for seed in 0..300 {
        let (held, sought) = search::held_lists(seed);
        let due = right(&held, &sought);
        note(&mut told, seed, |slip| in_a_promotion(slip, &held, seed).all(&sought) != due);
    }
    print(&told);
    for (seeds, slip) in told.iter().zip(WRONG) {
        assert!(seeds.len() > 5, "{slip:?}: {seeds:?}");
    }
}

/// Slips that areas can tell. In a sound area no level is above 8 and no list is held
/// twice, so that words of another base, larger levels and equal ones never matter.
const IN_AREAS: [Slip; 3] = [Slip::LastUnpacked, Slip::AppendedAtRefined, Slip::LastAxisLeftOut];

fn assert_told_in_areas(told: &Seeds) {
    print(told);
    for (seeds, slip) in told.iter().zip(WRONG) {
        let least = if IN_AREAS.contains(&slip) { 5 } else { 0 };
        assert_eq!(seeds.len() > least, IN_AREAS.contains(&slip), "{slip:?}: {seeds:?}");
    }
}

/// Each held index and its neighbours, sought in the areas of some seeds.
#[test]
fn searches_in_areas_tell_what_they_can() {
    let mut told = Seeds::default();
    for seed in 0..200 {
        let area = sample::area(seed);
        let (held, sought) = (search::held_in(&area), search::sought_in(&area));
        let due = right(&held, &sought);
        note(&mut told, seed, |slip| in_a_promotion(slip, &held, seed).all(&sought) != due);
    }
    assert_told_in_areas(&told);
}

/// An area with nothing wanted and the highest budget, in which places can be promoted.
fn all_delivered(seed: u64) -> Area {
    let mut area = sample::area(seed);
    area.job.budget = BUDGET_LIMIT;
    while let Some(place) = calls::first_wanted(&area) {
        let size = grid::block_size(&area.records[place].levels);
        assert_eq!(calls::deliver(&mut area, &vec![0; size], 1), Ok(()));
    }
    area
}

/// Promotions of each active place: what they admit and how it is linked.
#[test]
fn promotions_in_areas_tell_what_they_can() {
    let mut told = Seeds::default();
    let mut promotions = 0;
    for seed in 0..200 {
        let area = all_delivered(seed);
        let active = Places::of_area(&area).active.into_iter();
        let due: Vec<(usize, Vec<Appended>)> = active
            .filter_map(|place| Some((place as usize, by_the_calls(&area, place)?)))
            .collect();
        promotions += due.len();
        note(&mut told, seed, |slip| {
            due.iter().any(|(place, due)| promotion(slip, &area, *place) != *due)
        });
    }
    println!("{promotions} promotions");
    assert_told_in_areas(&told);
}

/// Altered areas have levels of any size and equal records; a right program doesn't
/// mind.
#[test]
fn without_a_slip_nothing_differs_in_altered_areas() {
    let mut rng = Rng::new(67);
    let mut told = Seeds::default();
    for seed in 0..600 {
        let mut area = sample::area(seed);
        alter::alter(&mut area, &mut rng);
        let mut held = search::held_in(&area);
        held.truncate(HELD_LIMIT);
        let sought = search::sought_in(&area);
        let due = right(&held, &sought);
        note(&mut told, seed, |slip| in_a_promotion(slip, &held, seed).all(&sought) != due);
    }
    print(&told);
}
