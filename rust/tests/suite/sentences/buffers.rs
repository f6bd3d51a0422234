//! The lent buffer: how long it may be, what is written of it, what is left.

use reference::calls;
use ruonfidd::{say_into, Answer, Refusal, SENTENCE_BYTES};

use crate::ffi;

use super::{bare_forms, moved_short, reply, Bare, Choice};

/// Bytes on each side of the lent ones.
const AROUND: usize = 64;

/// A short sentence, the longest without and with a shortage, one of a commit
/// that failed, and one that no hall gives.
fn some_sentences() -> [(Choice, Answer); 5] {
    [
        ([1, 0, 0], Answer::moved(1)),
        ([255, 255, 255], Answer::Refused(15)),
        ([255, 255, 255], moved_short(3, [255, 255])),
        ([1, 63, 0], moved_short(6, [15, 16])),
        ([0, 10, 99], Answer::moved(0)),
    ]
}

/// What a call answered: its number, 0 where it wrote, and the length, or one
/// that no sentence has where none was set.
type Answered = (u8, usize);

const UNSET: usize = usize::MAX;

fn answered(result: Result<usize, (u8, usize)>) -> Answered {
    match result {
        Ok(length) => (0, length),
        Err((number, place)) => {
            assert_eq!(place, 0);
            (number, UNSET)
        }
    }
}

/// Calls with so many bytes lent, in the midst of others that are not: the
/// answer, and all bytes afterwards.
fn among_others(
    length: usize,
    before: u8,
    call: impl FnOnce(&mut [u8]) -> Answered,
) -> (Answered, Vec<u8>) {
    let mut bytes = vec![before; AROUND + length + AROUND];
    let answer = call(&mut bytes[AROUND..AROUND + length]);
    (answer, bytes)
}

fn by_second(choice: Choice, answer: Answer, buffer: &mut [u8]) -> Answered {
    let [kind, position, node] = choice;
    let said = calls::say(kind, position, node, reply(answer), buffer);
    answered(said.map_err(|refusal| (refusal.number, refusal.place)))
}

fn by_safe_call(choice: Choice, answer: Answer, buffer: &mut [u8]) -> Answered {
    let said = say_into(choice, answer, buffer);
    answered(said.map_err(|refusal| (refusal.number, refusal.place)))
}

/// The length stands between two guards.
fn by_bare_call(choice: Choice, (moved, number, short): Bare, buffer: &mut [u8]) -> Answered {
    let mut lengths = [UNSET; 3];
    let refused = ffi::sentence(choice, moved, number, short, buffer, &mut lengths[1]);
    assert_eq!((lengths[0], lengths[2]), (UNSET, UNSET));
    (refused, lengths[1])
}

/// The number that is answered to a buffer of this length. All calls agree with
/// the second implementation on it, on the length and on every byte, lent or
/// not.
#[track_caller]
fn lent(length: usize) -> u8 {
    let mut numbers = Vec::new();
    for (choice, answer) in some_sentences() {
        for before in [0, 170] {
            let expected = among_others(length, before, |it| by_second(choice, answer, it));
            let safe = among_others(length, before, |it| by_safe_call(choice, answer, it));
            assert_eq!(safe, expected, "{length} bytes lent");
            for form in bare_forms(answer) {
                let bare = among_others(length, before, |it| by_bare_call(choice, form, it));
                assert_eq!(bare, expected, "{length} bytes lent");
            }
            let ((number, _), _) = expected;
            numbers.push(number);
        }
    }
    numbers.dedup();
    assert_eq!(numbers.len(), 1, "{numbers:?} to {length} bytes lent");
    numbers[0]
}

#[test]
fn of_no_bytes() {
    assert_eq!(lent(0), Refusal::BUFFER_TOO_SHORT);
}

/// Every sentence would fit; the buffer is refused all the same.
#[test]
fn one_byte_too_short() {
    assert_eq!(lent(95), Refusal::BUFFER_TOO_SHORT);
}

#[test]
fn just_long_enough() {
    assert_eq!(SENTENCE_BYTES, 96);
    assert_eq!(lent(96), 0);
}

#[test]
fn one_byte_more() {
    assert_eq!(lent(97), 0);
}

#[test]
fn over_twice_as_long() {
    assert_eq!(lent(200), 0);
}

/// A length that a byte would cut to 0, and one far beyond.
#[test]
fn beyond_a_byte() {
    assert_eq!(lent(256), 0);
    assert_eq!(lent(65_536), 0);
}

#[test]
fn of_every_length_up_to_300() {
    for length in 0..300 {
        let number = if length < 96 { 21 } else { 0 };
        assert_eq!(lent(length), number, "{length} bytes lent");
    }
}

/// The sentence that follows writes over the one before it, and what was longer
/// stays behind it: nothing is cleared.
#[test]
fn one_sentence_over_another() {
    let mut buffer = [0; SENTENCE_BYTES];
    let failed = moved_short(9, [15, 16]);
    let long = say_into([2, 255, 255], failed, &mut buffer).expect("room");
    let before = buffer;
    let short = say_into([1, 0, 0], Answer::moved(1), &mut buffer).expect("room");
    assert!(short < long);
    assert_eq!(
        buffer[..short],
        *b"Kind 1 at station 0 moved by rule 1, token put."
    );
    assert_eq!(buffer[short..], before[short..]);
}
