//! Calls that no careful program makes: each has an answer, and a refusal changes nothing.
use crate::{LENT, batch, plain, record, refused, s, s_with_t};
use cartgravel::{Batch, CHANGES, Number, STATE_BYTES, State, TreeId};

/// Numbers from a fixed seed (splitmix64).
pub struct Random(pub u64);

impl Random {
    pub fn next(&mut self) -> u64 {
        self.0 = self.0.wrapping_add(0x9e37_79b9_7f4a_7c15);
        let z = (self.0 ^ (self.0 >> 30)).wrapping_mul(0xbf58_476d_1ce4_e5b9);
        let z = (z ^ (z >> 27)).wrapping_mul(0x94d0_49bb_1331_11eb);
        z ^ (z >> 31)
    }

    pub fn below(&mut self, n: usize) -> usize {
        (self.next() % n as u64) as usize
    }
}

/// Case 3, whose two ids take four elements.
fn case_3() -> Vec<u8> {
    record(&batch().nodes(&[plain(1).children(&[2])]))
}

#[test]
fn a_slice_too_short_for_the_lists() {
    for room in 0..4 {
        refused(&s(), &case_3(), room, Number::ListTooShort);
    }
    let mut changes = [LENT; 5];
    s().update(&case_3(), &mut changes[..4]).unwrap();
    assert_eq!(changes, [0, 1, 0, 3, LENT]);
}

/// A slice with an element over takes the lists too, and keeps that element.
#[test]
fn a_slice_of_odd_length() {
    let mut changes = [LENT; 5];
    let mut state = s();
    let report = state.update(&case_3(), &mut changes).unwrap();
    assert_eq!((report.updated().len(), report.removed().len()), (1, 1));
    assert_eq!(changes, [0, 1, 0, 3, LENT]);
}

#[test]
fn a_batch_that_changes_nothing_needs_no_slice() {
    let mut state = s();
    state.update(&record(&batch()), &mut []).unwrap();
    assert_eq!(state, s());
}

/// A record that uses every part.
pub fn whole() -> Vec<u8> {
    let named = plain(2).label("Pay").bounds([0.0, 0.0, 9.0, 9.0]);
    record(&batch().root(1).nodes(&[plain(1).children(&[2, 3]), named, plain(3).transform([1.0; 6])]))
}

/// Every prefix of a record, the empty one too, breaks the layout; the whole is accepted.
#[test]
fn every_prefix_of_a_record() {
    let (record, state) = (whole(), s());
    for length in 0..record.len() {
        assert_eq!(State::start(&record[..length], true).unwrap_err(), Number::NotARecord, "{length} bytes");
        refused(&state, &record[..length], CHANGES, Number::NotARecord);
    }
    assert!(State::start(&record, true).is_ok());
}

#[test]
fn a_byte_past_a_record() {
    let mut longer = whole();
    longer.push(0);
    assert_eq!(State::start(&longer, true).unwrap_err(), Number::NotARecord);
    refused(&s(), &longer, CHANGES, Number::NotARecord);
}

/// A state is sound if a host focus change is accepted.
fn is_sound(state: &State) -> bool {
    state.clone().host_focus(true).is_ok()
}

/// Makes a call and checks what every call promises: a refusal changes nothing, an accepted outcome is sound. The
/// number, 0 if it was accepted.
fn outcome(state: &State, record: &[u8]) -> u8 {
    let mut after = state.clone();
    let mut changes = [LENT; CHANGES];
    match after.update(record, &mut changes) {
        Ok(_) => {
            assert!(is_sound(&after));
            0
        }
        Err(number) => {
            assert_eq!(&after, state);
            assert_eq!(changes, [LENT; CHANGES]);
            number.into()
        }
    }
}

/// Each byte of a record changed, one at a time. Some are refused by the layout, some later, some are accepted.
#[test]
fn damaged_records() {
    let (record, state) = (whole(), s());
    let mut random = Random(1);
    let mut counts = [0; 23];
    for at in 0..record.len() {
        let mut damaged = record.clone();
        damaged[at] ^= 1 << random.below(8);
        counts[usize::from(outcome(&state, &damaged))] += 1;
    }
    assert!(counts[0] > 0 && counts[2] > 0 && counts[13] > 0, "{counts:?}");
    assert_eq!(counts[1], 0);
}

/// What the calls answer on any state: 1 from each if it is not sound, and else not 1. Whether it is sound.
fn judged(state: &State) -> bool {
    let sound = is_sound(state);
    for record in [&case_3()[..], &[]] {
        assert_eq!(outcome(state, record) != 1, sound);
    }
    sound
}

#[test]
fn blank_and_random_states() {
    let mut random = Random(2);
    let mut bytes = [0; STATE_BYTES];
    for _ in 0..200 {
        let state = State::from_bytes(&bytes);
        assert!(!judged(&state));
        assert_eq!(state.to_bytes(), bytes);
        bytes.fill_with(|| random.next() as u8);
    }
}

/// A sound state with one bit changed, among the bytes that say something and among all of them. Some are sound still.
#[test]
fn damaged_states() {
    let bytes = s_with_t().to_bytes();
    let used: Vec<usize> = (0..STATE_BYTES).filter(|at| bytes[*at] != 0).collect();
    let mut random = Random(3);
    let mut sound = [0, 0];
    for i in 0..1000 {
        let at = if i % 4 == 0 { random.below(STATE_BYTES) } else { used[random.below(used.len())] };
        let mut damaged = bytes;
        damaged[at] ^= 1 << random.below(8);
        sound[usize::from(judged(&State::from_bytes(&damaged)))] += 1;
    }
    assert!(sound.iter().all(|count| *count > 0), "{sound:?}");
}

/// A refused start has no state, whatever it was refused for.
#[test]
fn refused_starts() {
    let refused = |batch: Batch| State::start(&record(&batch), true).unwrap_err();
    let other = TreeId { high: 0, low: 1 };
    assert_eq!(refused(batch().nodes(&[plain(2)])), Number::StartWithoutData);
    assert_eq!(refused(Batch::new(other, 2).root(2).nodes(&[plain(2)])), Number::StartNotRoot);
    assert_eq!(refused(batch().root(2).nodes(&[plain(2), plain(2)])), Number::ListedTwice);
    assert_eq!(refused(batch().root(1)), Number::RootAbsent);
}
