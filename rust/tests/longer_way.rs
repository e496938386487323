//! Runs the example: a longer way, a pause and lost feedback cost a path at most some seconds.

#[path = "../examples/longer_way.rs"]
mod longer_way;

#[test]
fn the_estimate_comes_back() {
    longer_way::main();
}
