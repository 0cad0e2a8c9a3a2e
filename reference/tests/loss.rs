//! Disciplined runs lose at most F records, and F of them now and then; each rule of slip 10 broken on purpose is found out.

use reference::loss::{measure_loss, Report, Variant};
use std::time::Duration;

#[test]
fn at_most_f_are_lost_and_f_is_reached() {
    let report = measure_loss(None, 77, Duration::from_secs(6));
    assert!(report.failure.is_none(), "{:?}", report.failure);
    assert_eq!(report.unreached(), None);
    for (frequency, measured) in (1..).zip(report.measured) {
        assert!(measured.most_lost <= frequency, "F = {frequency}: {measured:?}");
        assert!(measured.images > 1_000, "F = {frequency}: {measured:?}");
    }
    // What has to happen for the bound to mean something.
    for (what, count) in [
        ("power failures", report.power_failures),
        ("recoveries", report.recoveries),
        ("refused calls", report.refused),
    ] {
        assert!(count > 0, "no {what}");
    }
}

#[test]
fn each_variant_is_caught() {
    for (name, variant) in Variant::ALL {
        assert_eq!(Variant::named(name), Some(variant));
        let report = measure_loss(Some(variant), 1, Duration::from_secs(60));
        let failure = report.failure.unwrap_or_else(|| panic!("variant {name} passes"));
        // Its seed alone meets it again, in the same way, and the story says how.
        let again = measure_loss(Some(variant), failure.seed, Duration::from_secs(60));
        assert_eq!(again.histories, 1);
        let again = again.failure.unwrap();
        assert_eq!((again.what, &again.story), (failure.what, &failure.story));
        assert!(again.story[0].starts_with("format"), "{:?}", again.story);
    }
}

#[test]
fn what_is_never_reached_is_named() {
    let mut report = Report::default();
    assert_eq!(report.unreached(), None);
    report.measured[2].images = 1_000_000;
    assert_eq!(report.unreached(), Some(3));
    report.measured[2].reached = 1;
    assert_eq!(report.unreached(), None);
}
