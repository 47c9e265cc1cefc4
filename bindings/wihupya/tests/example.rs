//! The scope document's job of 100 bytes, run by calls.

use wihupya::{Choice, Counts, Doubles, Integrator, JobRecord, Promotion, Refusal, CELLS, SCALE};

/// Indicators in the order in which the job wants the blocks.
const INDICATORS: [u32; 4] = [100, 50, 0, 10];
/// The readings that the document's file has for them.
const READINGS: [&[i32]; 4] = [&[4_160], &[64, 16_448], &[4_096, 4_224], &[1_088, 9_280]];

/// These are x squared plus y at the points that the job asks for.
fn measured(job: &Integrator) -> Vec<i32> {
    let mut readings = Vec::new();
    let mut point = [0xa5; 3];
    loop {
        match job.point(readings.len(), &mut point) {
            Ok(()) => readings.push(i32::from(point[0]).pow(2) + i32::from(point[1])),
            Err(Refusal::NoSuchPoint | Refusal::NoBlockWanted) => break,
            Err(refusal) => panic!("{refusal}"),
        }
        assert_eq!(point[2], 0xa5, "point writes one byte for each axis");
    }
    readings
}

#[test]
fn the_documents_job_comes_to_the_documents_figures() {
    let (mut cells, mut store) = (vec![0xa5a5_a5a5; CELLS], vec![-1; 64]);
    let mut job = Integrator::new(&mut cells, &mut store);
    assert_eq!(job.start(2, 40, 64), Ok(()));
    let mut delivered = 0;
    let end = loop {
        assert!(job.check());
        let readings = measured(&job);
        if !readings.is_empty() {
            assert_eq!(readings, READINGS[delivered]);
            assert_eq!(job.deliver(&readings, INDICATORS[delivered]), Ok(()));
            delivered += 1;
            continue;
        }
        match job.choose() {
            Ok(Choice::Place(place)) => assert_eq!(job.promote(place), Ok(Promotion::Promoted)),
            end => break end,
        }
    };
    assert_eq!(end, Ok(Choice::Met));
    assert_eq!(delivered, 4, "no entry is left over");
    let scaled_mean = 5_972_688_896;
    let expected = Counts {
        pending_error: 10,
        carried_error: 0,
        scaled_mean,
        old: 2,
        active: 2,
        wanted: 0,
        reserved: 7,
        ceiling: 0,
    };
    assert_eq!(job.result(), Ok(expected));
    let doubles = Doubles { mean: 5_696.0, pending_error: 10.0, largest_difference: 4_160.0 };
    assert_eq!(job.doubles(), Ok(doubles));
    assert_eq!(job.cross_total(), Ok(scaled_mean));
    assert_eq!((scaled_mean / SCALE, scaled_mean % SCALE), (5_696, 0));
    let record = JobRecord {
        threshold: 40,
        pending_error: 10,
        carried_error: 0,
        scaled_mean,
        axes: 2,
        budget: 64,
        held: 4,
        reserved: 7,
    };
    assert_eq!(job.job(), record);
    assert_eq!(job.store()[..8], [4_160, 64, 16_448, 4_096, 4_224, 1_088, 9_280, -1]);
}

#[test]
fn a_copied_work_area_goes_on_as_the_first_one_does() {
    let (mut cells, mut store) = (vec![0; CELLS], vec![0; 64]);
    let mut job = Integrator::new(&mut cells, &mut store);
    assert_eq!(job.start(2, 40, 64), Ok(()));
    assert_eq!(job.deliver(&[4_160], 100), Ok(()));
    let (mut cells, mut store) = (job.cells().to_vec(), job.store().to_vec());
    let mut copy = Integrator::resume(job.job(), &mut cells, &mut store);
    assert_eq!(copy.promote(0), Ok(Promotion::Promoted));
    assert_eq!(copy.result().map(|counts| (counts.old, counts.wanted)), Ok((1, 2)));
    assert_eq!(job.result().map(|counts| (counts.old, counts.wanted)), Ok((0, 0)));
}
