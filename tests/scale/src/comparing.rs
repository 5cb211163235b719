//! A call that compares two trees, and what document 02, §9, says it gives.

use crate::form::house_form;
use crate::rules::{self, Refusal};
use crate::view::needed;

/// `forms` are the buffers' lengths in bytes.
#[derive(Clone, Debug, PartialEq, Eq)]
pub struct CompareCall {
    pub outlines: [Vec<u8>; 2],
    /// At which byte of the first outline's memory the second one begins, if it is a part of it.
    pub within: Option<usize>,
    pub forms: [usize; 2],
}

/// The answer, the order and what is written to the forms; nothing on a refusal.
#[derive(Clone, Debug, PartialEq, Eq)]
pub struct CompareExpected {
    /// Number, place.
    pub answer: [u32; 2],
    /// -1 before, 0 same, 1 after; 0 on a refusal.
    pub order: i32,
    pub forms: [Vec<u8>; 2],
}

impl CompareExpected {
    pub fn compared(order: i32, forms: [&[u8]; 2]) -> Self {
        CompareExpected {
            answer: [0, 0],
            order,
            forms: forms.map(<[u8]>::to_vec),
        }
    }

    pub fn refused(refusal: Refusal) -> Self {
        CompareExpected {
            answer: [refusal.number, refusal.place],
            order: 0,
            forms: [Vec::new(), Vec::new()],
        }
    }
}

pub fn expected(call: &CompareCall) -> CompareExpected {
    if let Some(refusal) = refusal(call) {
        return CompareExpected::refused(refusal);
    }
    let [one, other] = call.outlines.each_ref().map(|outline| house_form(outline));
    CompareExpected::compared(order(&one, &other), [&one, &other])
}

/// The first outline's refusal by the check, else the second's, else 9 if either form is short.
fn refusal(call: &CompareCall) -> Option<Refusal> {
    let [one, other] = &call.outlines;
    let [form, other_form] = call.forms;
    let short = form < needed(one) || other_form < needed(other);
    rules::check(one)
        .or_else(|| rules::check(other))
        .or_else(|| rules::without_place(9, short))
}

/// By the first byte that differs. Where there is none, the shorter comes first. No house form is the beginning of another one: a
/// record past the shorter one would be named by no link.
pub fn order(one: &[u8], other: &[u8]) -> i32 {
    let mut pairs = one.iter().zip(other);
    let differing = pairs.find(|(byte, other)| byte != other);
    let before = differing.map_or(one.len() < other.len(), |(byte, other)| byte < other);
    if one == other {
        0
    } else if before {
        -1
    } else {
        1
    }
}

#[cfg(test)]
mod tests {
    use super::*;
    use crate::comparing_cases;
    use crate::random::Random;
    use crate::wrong_orders::{Order, OF_BEGINNINGS};

    #[test]
    fn stated_orders_are_given() {
        for case in comparing_cases::all() {
            assert_eq!(expected(&case.call), case.expected, "{}", case.name);
        }
    }

    /// Bytes of which the first come before the second.
    const BEFORE: [(&[u8], &[u8]); 12] = [
        (&[], &[0]),
        (&[], &[255]),
        (&[0], &[1]),
        (&[127], &[128]),
        (&[0], &[0, 0]),
        (&[1], &[1, 0]),
        (&[1, 255], &[1, 255, 0]),
        (&[0, 255], &[1, 0]),
        (&[0, 255, 255], &[1]),
        (&[1, 2, 3], &[1, 2, 4]),
        (&[1, 2, 255], &[1, 3]),
        (&[255], &[255, 0, 0]),
    ];

    #[test]
    fn the_first_byte_that_differs_decides_or_the_shorter_is_first() {
        for (one, other) in BEFORE {
            assert_eq!(order(one, other), -1, "{one:?}, {other:?}");
            assert_eq!(order(other, one), 1, "{one:?}, {other:?}");
            assert_eq!([order(one, one), order(other, other)], [0, 0]);
        }
    }

    #[test]
    fn bytes_stand_in_the_order_of_the_dictionary() {
        let rng = &mut Random::new(1);
        let mut times = [0; 3];
        for _ in 0..2_000 {
            let [one, other] = [(); 2].map(|()| -> Vec<u8> {
                let len = rng.index(4);
                (0..len).map(|_| rng.pick(&[0, 1, 255])).collect()
            });
            let order = order(&one, &other);
            assert_eq!(order, one.cmp(&other) as i32, "{one:?}, {other:?}");
            times[(order + 1) as usize] += 1;
        }
        assert!(times.iter().all(|&times| times > 100), "{times:?}");
    }

    /// Of forms they cannot be told from a right one.
    #[test]
    fn wrong_orders_of_beginnings_are_noticed_of_bytes() {
        let differs = |wrong: Order| {
            let mut pairs = BEFORE.iter();
            pairs.any(|(one, other)| wrong(one, other) != -1 || wrong(other, one) != 1)
        };
        assert!(!differs(|one, other| one.cmp(other) as i32));
        for (name, wrong) in OF_BEGINNINGS {
            assert!(differs(wrong), "{name}");
        }
    }
}
