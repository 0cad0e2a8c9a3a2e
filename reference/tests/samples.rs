//! Our own loglist on the images that are written word by word.

use reference::loglist::loglist;
use reference::samples::samples;

#[test]
fn every_sample_is_listed_as_written() {
    for sample in samples() {
        assert_eq!(loglist(&sample.bytes), sample.text, "{}", sample.name);
    }
}
