//! What stolen nodes tell (request 2026-07): lists of changes and repairs after two
//! messages, and counts of the second's slacks.

use library::Library;
use reference::stolen;

#[test]
fn each_slack_has_one() {
    stolen::test(&Library, 801);
}

#[test]
fn slacks_of_two_bytes() {
    stolen::test_two_bytes(&Library, 802);
}

#[test]
fn large_shapes() {
    stolen::test_large(&Library, 803);
}
