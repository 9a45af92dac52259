//! The numbers and their words.
use cartgravel::{NoSuchNumber, Number};

/// Each value from 1 to 22 is the number of that value, and no other value is one.
#[test]
fn values() {
    for value in 1..=22 {
        let number = Number::try_from(value).unwrap();
        assert_eq!((u32::from(number), u32::from(u8::from(number))), (value, value));
    }
    for value in (23..=1000).chain([0, u32::MAX]) {
        assert_eq!(Number::try_from(value), Err(NoSuchNumber(value)));
    }
}

#[test]
fn all_are_in_the_order_of_the_table() {
    assert!(Number::ALL.iter().map(|n| *n as u8).eq(1..=22));
}

#[test]
fn a_value_that_is_no_number() {
    let error: Box<dyn std::error::Error> = Number::try_from(23).unwrap_err().into();
    assert_eq!(error.to_string(), "no call refuses with 23");
}
