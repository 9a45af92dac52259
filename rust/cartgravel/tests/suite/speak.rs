//! The example, and what it says: the same as the C program.
#[allow(dead_code)]
#[path = "../../examples/speak.rs"]
mod example;

const EXPECTED: &str = include_str!("../../../../examples/c/speak.expected");

#[test]
fn the_example_says_what_the_c_program_says() {
    assert_eq!(example::spoken().unwrap(), EXPECTED);
}
