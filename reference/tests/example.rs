//! The proved program example owes the listing of the reference's image: the file `stdout` of its crate.

use reference::example::{example, listing};

#[test]
fn the_expected_output_of_example_is_the_reference_s_listing() {
    let expected = include_str!("../../crates/example/stdout");
    assert_eq!(listing(&example().expect("no call is refused")), expected);
}
