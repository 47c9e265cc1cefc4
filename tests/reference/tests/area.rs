//! Records as words and areas as bytes.

use reference::area::{Area, IndexRecord, NONE};
use reference::sample;

#[test]
fn a_record_is_27_words_in_order() {
    let words: [u32; 27] = std::array::from_fn(|word| word as u32 + 100);
    let record = IndexRecord::from_words(&words);
    assert_eq!(record.levels, [100, 101, 102, 103, 104, 105, 106, 107]);
    assert_eq!((record.state, record.indicator, record.first_reading), (108, 109, 110));
    assert_eq!(record.forward, [111, 112, 113, 114, 115, 116, 117, 118]);
    assert_eq!(record.backward, [119, 120, 121, 122, 123, 124, 125, 126]);
    assert_eq!(record.to_words(), words);
    assert_eq!(NONE, 4_294_967_295);
}

#[test]
fn an_area_as_bytes_and_back() {
    let mut area = sample::area(5);
    area.job.threshold = 0x0102_0304_0506_0708;
    area.job.mean = -2;
    area.job.carried = 0x1112_1314_1516_1718;
    let bytes = area.to_bytes();
    assert_eq!(bytes.len(), 48 + 8 + 108 * area.records.len() + 4 * area.store.len());
    assert_eq!(bytes[4..12], [8, 7, 6, 5, 4, 3, 2, 1], "the threshold, little-endian");
    assert_eq!(bytes[32..40], [0xfe, 0xff, 0xff, 0xff, 0xff, 0xff, 0xff, 0xff], "the mean");
    assert_eq!(
        bytes[40..48],
        [0x18, 0x17, 0x16, 0x15, 0x14, 0x13, 0x12, 0x11],
        "the carried error"
    );
    assert_eq!(Area::from_bytes(&bytes), Ok(area));
}

#[test]
fn wrong_lengths_are_refused() {
    let bytes = sample::area(5).to_bytes();
    for length in [0, 47, 48, 55, 56, bytes.len() - 1] {
        assert!(Area::from_bytes(&bytes[..length]).is_err(), "{length}");
    }
    let mut longer = bytes.clone();
    longer.push(0);
    assert!(Area::from_bytes(&longer).is_err());
    let mut claimed = bytes;
    claimed[48..56].fill(0xff);
    assert!(Area::from_bytes(&claimed).is_err());
}
