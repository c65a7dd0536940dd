//! The example prints what `examples/five_lines.out` has.

#[allow(dead_code)]
#[path = "../examples/five_lines.rs"]
mod five_lines;

#[test]
fn the_example_prints_its_table() {
    let want = include_str!("../examples/five_lines.out");
    assert_eq!(five_lines::run().unwrap(), want);
}
