//! `stack`: how deep the stack of each exported call goes, at most, over jobs that
//! reach both ceilings, 512 held and the largest blocks. The stack below a call is
//! painted, the call is made, and the lowest byte that lost its paint is looked
//! for; the figure has the frame of the function that makes the call in it.

use harness::check_cases::near_ceiling;
use harness::initial_areas::InitialAreas;
use harness::lent::Lent;
use reference::area::Area;
use reference::calls;
use reference::grid;
use reference::places::Places;
use reference::rng::Rng;
use reference::sample;
use std::collections::BTreeMap;
use std::hint::black_box;
use wihupya_sys as exported;

const DEPTH: usize = 1 << 18;
const PAINT: u8 = 0xa5;

/// Paints the stack below its caller.
#[inline(never)]
fn paint() {
    let mut room = [0u8; DEPTH];
    for byte in room.iter_mut() {
        unsafe { std::ptr::write_volatile(byte, PAINT) };
    }
    black_box(&room);
}

/// How far below a place of its caller's frame the paint is gone.
#[inline(never)]
fn used(place: *const u8) -> usize {
    // The lowest bytes that were painted lie less than DEPTH below the place.
    let lowest = DEPTH - 4096;
    let lost = |below: &usize| unsafe { std::ptr::read_volatile(place.sub(*below)) } != PAINT;
    (1..lowest).rev().find(lost).unwrap_or(0)
}

/// The stack that a call takes.
#[inline(never)]
fn measured(call: &mut dyn FnMut()) -> usize {
    let place = 0u8;
    paint();
    call();
    used(black_box(&place))
}

/// The deepest so far, by the call's name.
#[derive(Default)]
struct Deepest(BTreeMap<&'static str, usize>);

impl Deepest {
    fn note(&mut self, name: &'static str, mut call: impl FnMut()) {
        let bytes = measured(&mut call);
        let deepest = self.0.entry(name).or_default();
        *deepest = bytes.max(*deepest);
    }

    /// Each call on an area; those that write get a copy.
    fn calls_on(&mut self, area: &Area) {
        self.looks_at(&Lent::of(area));
        if let Some(place) = calls::first_wanted(area) {
            let readings = vec![1; grid::block_size(&area.records[place].levels)];
            let Lent { mut job, mut cells, mut store } = Lent::of(area);
            self.note("deliver", || {
                black_box(exported::deliver(&mut job, &readings, 1, &mut cells, &mut store));
            });
        }
        // An active place where there is one: the chosen one, and the last of them.
        let places = Places::of_area(area);
        let last = places.active.last().copied();
        for place in [places.largest, last].map(|place| place.unwrap_or(0) as usize) {
            let (Lent { mut job, mut cells, store }, mut outcome) = (Lent::of(area), [0]);
            self.note("promote", || {
                black_box(exported::promote(&mut job, place, &mut outcome, &mut cells, &store));
            });
        }
        let Lent { mut job, mut cells, store } = Lent::of(area);
        self.note("start", || {
            black_box(exported::start(&mut job, area.job.axes, 0, 8192, &mut cells, &store));
        });
    }

    /// The calls that write no part of the area.
    fn looks_at(&mut self, Lent { job, cells, store }: &Lent) {
        self.note("check", || {
            black_box(exported::check(job, cells, store));
        });
        let (mut counts, mut total, mut report) = ([0; 11], [0; 2], [0.0; 3]);
        self.note("result", || {
            black_box(exported::result(job, &mut counts, cells, store));
        });
        self.note("cross total", || {
            black_box(exported::cross_total(job, &mut total, cells, store));
        });
        self.note("doubles", || {
            black_box(exported::doubles(job, &mut report, cells, store));
        });
        // Room for the largest block whole.
        let (mut buffer, mut positions, mut written) = ([0; 8], vec![0; 16_384], [0; 2]);
        self.note("point", || {
            black_box(exported::point(job, 0, cells, store, &mut buffer));
        });
        self.note("points", || {
            black_box(exported::points(job, 0, &mut written, cells, store, &mut positions));
        });
        let mut choice = [0; 2];
        self.note("choose", || {
            black_box(exported::choose(job, &mut choice, cells, store));
        });
    }
}

fn main() {
    let (mut deepest, mut initial_areas) = (Deepest::default(), InitialAreas::default());
    let mut rng = Rng::new(1);
    for _ in 0..400 {
        deepest.calls_on(&near_ceiling(&mut rng));
        deepest.calls_on(&initial_areas.nearly_full(&mut rng));
        deepest.calls_on(&sample::area(rng.number()));
    }
    for (name, bytes) in &deepest.0 {
        println!("{name}: {bytes} bytes");
    }
}
