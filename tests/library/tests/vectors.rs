//! The calls of tests/vectors, made by a third implementation.

use library::Library;
use reference::vectors::try_all;

#[test]
fn every_line() {
    let calls = include_str!("../../vectors/calls.txt");
    assert_eq!(try_all(calls, &Library), Ok(699));
    let loose = include_str!("../../vectors/2026-01-calls.txt");
    assert_eq!(try_all(loose, &Library), Ok(400));
    let serials = include_str!("../../vectors/2026-03-calls.txt");
    assert!(serials.lines().all(|line| line.contains(" serials=")));
    assert_eq!(try_all(serials, &Library), Ok(400));
    let columns = include_str!("../../vectors/2026-05-calls.txt");
    assert!(columns.lines().all(|line| line.contains(" column=")));
    assert_eq!(try_all(columns, &Library), Ok(400));
    let blames = include_str!("../../vectors/2026-06-calls.txt");
    assert!(blames.lines().all(|line| line.contains(" budget=")));
    assert_eq!(try_all(blames, &Library), Ok(400));
}
