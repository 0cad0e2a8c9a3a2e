//! The crash bench for three modules catches each variant that breaks a rule of slip 9, and nothing without one.

use reference::crash_three::crash_three;
use reference::three_system::Variant;
use std::time::Duration;

/// The seed of a history that breaks the promise, for each variant in its turn, so that debug builds meet it soon.
const CAUGHT_BY: [u64; 14] = [73, 21, 21, 2, 1_556, 183, 5, 8, 88, 7, 7_137, 19, 1_771, 660];

#[test]
fn no_failure_without_a_variant() {
    let report = crash_three(None, 77, Duration::from_secs(4));
    assert!(report.failure.is_none(), "{:?}", report.failure);
    assert!(report.recoveries > 10_000, "{}", report.recoveries);
    // What has to happen for the promise to mean something.
    for (what, count) in [
        ("power failures", report.power_failures),
        ("granted recoveries", report.taken_up),
        ("repairs", report.repairs),
        ("cut repairs", report.cut_repairs),
        ("refusal 19", report.too_few),
        ("refusal 15", report.short),
        ("raised epochs on one module", report.lone),
    ] {
        assert!(count > 0, "no {what}");
    }
}

#[test]
fn each_variant_is_caught() {
    for ((name, variant), seed) in Variant::ALL.into_iter().zip(CAUGHT_BY) {
        assert_eq!(Variant::named(name), Some(variant));
        let report = crash_three(Some(variant), seed, Duration::from_secs(60));
        let failure = report.failure.unwrap_or_else(|| panic!("variant {name} passes"));
        // Its seed alone meets it again, in the same way, and the story says how.
        let again = crash_three(Some(variant), failure.seed, Duration::from_secs(60));
        assert_eq!(again.histories, 1);
        let again = again.failure.unwrap();
        assert_eq!((again.what, &again.story), (failure.what, &failure.story));
        assert!(again.story[0].starts_with("format"), "{:?}", again.story);
    }
}
