//! Trees compared by hand. They are ours: document 02, §9, states the rule and no case.

use crate::cases::{group, taxon, tree_a};
use crate::comparing::{CompareCall, CompareExpected};
use crate::form_cases::{self, FormCase, SHUFFLED};
use crate::lock_cases::{locking, with_field};
use crate::outline::{bytes, Record, LOCK, MOST_PLATE};
use crate::rules::Refusal;
use crate::shapes;
use crate::view::MOST_BYTES;
use crate::view_cases::{dressed, TREE_A};
use crate::write_cases::faulty_outlines;

/// A call and what is stated for it.
pub struct CompareCase {
    pub name: &'static str,
    pub call: CompareCall,
    pub expected: CompareExpected,
}

impl CompareCase {
    /// The same outlines with a form that is too short, or two.
    fn short(mut self, forms: [usize; 2]) -> Self {
        self.call.forms = forms;
        self.expected = CompareExpected::refused(Refusal {
            number: 9,
            place: 0,
        });
        self
    }

    /// The same outlines with forms that are long enough.
    fn roomy(mut self, forms: [usize; 2]) -> Self {
        self.call.forms = forms;
        self
    }

    /// The second outline is handed over as a part of the first one's memory.
    fn within(mut self, at: usize) -> Self {
        self.call.within = Some(at);
        self
    }

    /// The second outline first.
    fn turned(mut self) -> Self {
        self.call.outlines.reverse();
        self.call.forms.reverse();
        self.expected.forms.reverse();
        self.expected.order = -self.expected.order;
        self
    }
}

/// Two outlines with their house forms and their order, with just enough room.
fn compared(
    name: &'static str,
    outlines: [&[u8]; 2],
    forms: [&[u8]; 2],
    order: i32,
) -> CompareCase {
    CompareCase {
        name,
        call: CompareCall {
            outlines: outlines.map(<[u8]>::to_vec),
            within: None,
            forms: forms.map(<[u8]>::len),
        },
        expected: CompareExpected::compared(order, forms),
    }
}

/// Two outlines in house form of which the first comes before the second, either way round.
fn before(name: &'static str, one: &[Record], other: &[Record]) -> [CompareCase; 2] {
    let (one, other) = (bytes(one), bytes(other));
    let case = || compared(name, [&one, &other], [&one, &other], -1);
    [case(), case().turned()]
}

/// A refusal that does not depend on the forms' lengths: with room for any outline, with none, and with room in one alone.
fn refused(
    name: &'static str,
    [one, other]: [&[u8]; 2],
    (number, place): (u32, u32),
) -> [CompareCase; 4] {
    let lengths = [[4_096, 4_096], [0, 0], [4_096, 0], [0, 4_096]];
    lengths.map(|forms| CompareCase {
        name,
        call: CompareCall {
            outlines: [one.to_vec(), other.to_vec()],
            within: None,
            forms,
        },
        expected: CompareExpected::refused(Refusal { number, place }),
    })
}

pub fn all() -> Vec<CompareCase> {
    let mut all = same();
    all.extend(beside_the_form());
    all.extend(one_difference());
    all.extend(bytes_and_not_numbers());
    all.extend(links());
    all.extend(first_difference());
    all.extend(otherwise_than_the_outlines());
    all.extend(one_memory());
    all.extend(largest());
    all.extend(room());
    all.extend(one_refused());
    all.extend(both_refused());
    all
}

/// Tree A beside each of its outlines, and each beside the next.
fn same() -> Vec<CompareCase> {
    let form = TREE_A.concat();
    let outlines: Vec<Vec<u8>> = SHUFFLED.iter().map(|rows| rows.concat()).collect();
    let beside =
        |one: &Vec<u8>, other: &Vec<u8>| compared("the same tree", [one, other], [&form, &form], 0);
    let of_tree_a = outlines.iter().map(|outline| beside(&form, outline));
    let of_each = outlines.windows(2).map(|pair| beside(&pair[0], &pair[1]));
    let itself = compared("the same outline", [&form, &form], [&form, &form], 0);
    of_tree_a.chain(of_each).chain([itself]).collect()
}

/// Each outline whose house form is stated, beside that form.
fn beside_the_form() -> Vec<CompareCase> {
    let mut cases = form_cases::all();
    cases.retain(|case| case.expected.answer[0] == 0);
    let beside = |case: FormCase| {
        let (outline, form) = (&case.call.outline, &case.expected.form);
        compared(case.name, [outline, form], [form, form], 0)
    };
    cases.into_iter().map(beside).collect()
}

/// Tree A beside itself with one field another: at each record, the lower first.
fn one_difference() -> Vec<CompareCase> {
    let with = |at: usize, alter: fn(&mut Record)| {
        let mut records = tree_a();
        alter(&mut records[at]);
        records
    };
    let of = |name, lower: Vec<Record>, higher: Vec<Record>| before(name, &lower, &higher);
    let lengths = (0..5).map(|at| {
        of(
            "one length",
            tree_a(),
            with(at, |record| record.length += 1),
        )
    });
    let prices = (0..5).map(|at| of("one price", tree_a(), with(at, |record| record.price += 1)));
    let locks = (3..6).map(|number| of("one lock", tree_a(), locking(&[number], tree_a())));
    let plates = [
        of("one plate", with_field(3, 10), tree_a()),
        of("one plate", tree_a(), with_field(5, 14)),
        of("one plate", with_field(3, 1), with_field(3, 2)),
        of(
            "one plate",
            locking(&[5], tree_a()),
            with_field(5, LOCK + 14),
        ),
    ];
    lengths
        .chain(prices)
        .chain(locks)
        .chain(plates)
        .flatten()
        .collect()
}

/// The first byte decides, and bytes have no sign.
fn bytes_and_not_numbers() -> Vec<CompareCase> {
    let alone = |length, price, field| [taxon(0, length, price, field)];
    let of = |one: [Record; 1], other: [Record; 1]| before("bytes", &one, &other);
    [
        of(alone(256, 0, 1), alone(1, 0, 1)),
        of(alone(65_536, 0, 1), alone(256, 0, 1)),
        of(alone(127, 0, 1), alone(128, 0, 1)),
        of(alone(0, 65_280, 1), alone(0, 255, 1)),
        of(alone(0, 127, 1), alone(0, 128, 1)),
        of(alone(0, 0, 1_073_741_824), alone(0, 0, 16_777_217)),
        of(alone(0, 0, LOCK + 256), alone(0, 0, 1)),
        of(alone(0, 0, MOST_PLATE), alone(0, 0, u32::MAX)),
        // a length before a price, and a price before a plate
        of(alone(1, 65_535, MOST_PLATE), alone(2, 0, 1)),
        of(alone(0, 1, MOST_PLATE), alone(0, 2, 1)),
    ]
    .into_iter()
    .flatten()
    .collect()
}

/// A lone taxon comes before a group, and the last member of a group before one that is not the last, whatever else there is.
fn links() -> Vec<CompareCase> {
    let pair = [group(0, 2, 0), taxon(3, 0, 0, 1), taxon(0, 0, 0, 2)];
    let three = [
        group(0, 2, 0),
        taxon(3, 0, 0, 1),
        taxon(4, 0, 0, 2),
        taxon(0, 0, 0, 3),
    ];
    let below = [group(0, 2, 0), group(0, 3, 0), taxon(0, 0, 0, 1)];
    let below_first = [
        group(0, 2, 0),
        group(4, 3, 0),
        taxon(0, 0, 0, 1),
        taxon(0, 0, 0, 2),
    ];
    let alone = [taxon(0, 1_000_000, 65_535, u32::MAX)];
    let of = |one: &[Record], other: &[Record]| before("links", one, other);
    [
        of(&alone, &pair),
        of(&alone, &[group(0, 2, 0), taxon(0, 0, 0, 1)]),
        of(&[group(0, 2, 0), taxon(0, 0, 0, 1)], &pair),
        // a first of 0 and of 3 at record 2, whose next is 0
        of(&[group(0, 2, 0), taxon(0, 9, 9, 9)], &below),
        of(&below, &pair),
        of(&pair, &below_first),
        // a next of 0 and of 4 at record 3
        of(&pair, &three),
        of(&three, &below_first),
        // the root decides, though the other one is shorter
        of(&three, &[group(0, 2, 1), taxon(0, 0, 0, 1)]),
    ]
    .into_iter()
    .flatten()
    .collect()
}

/// What comes later decides nothing: tree A with 1 more for one length and 9 more for each length and price after it. Of two such
/// the one with the later record comes first.
fn first_difference() -> Vec<CompareCase> {
    let with = |number: usize| {
        let mut records = tree_a();
        for record in &mut records[number..] {
            (record.length, record.price) = (record.length + 9, record.price + 9);
        }
        records[number - 1].length += 1;
        records
    };
    let cases =
        (1..5).flat_map(|number| before("the first difference", &with(number + 1), &with(number)));
    cases.collect()
}

/// The outline of tree A with a greater length comes first by its own bytes and last by its form's.
fn otherwise_than_the_outlines() -> [CompareCase; 2] {
    let (mut longer, mut form) = (SHUFFLED[6], TREE_A);
    (longer[4][4], form[2][4]) = (5, 5);
    let [longer, form, tree_a] = [longer, form, TREE_A].map(|rows| rows.concat());
    assert!(longer < tree_a);
    let case = || {
        compared(
            "otherwise than the outlines",
            [&longer, &tree_a],
            [&form, &tree_a],
            1,
        )
    };
    [case(), case().turned()]
}

/// An outline beside itself where it stands, and beside its last record, which is an outline too: plate 13 in tree A, and plate
/// 11 where it is shuffled. Other parts of it are refused.
fn one_memory() -> Vec<CompareCase> {
    let (tree_a, shuffled) = (TREE_A.concat(), SHUFFLED[6].concat());
    let beside = |outline: &[u8], part: &[u8], order| {
        compared("one memory", [outline, part], [&tree_a, part], order)
    };
    let mut cases = vec![
        beside(&tree_a, &tree_a, 0).within(0),
        compared("one memory", [&shuffled; 2], [&tree_a; 2], 0).within(0),
        beside(&tree_a, &tree_a[64..], 1).within(64),
        beside(&shuffled, &shuffled[64..], 1).within(64),
    ];
    let part = |from: usize, to: usize, refusal| {
        let part = &tree_a[from..to];
        refused("a part of it", [&tree_a, part], refusal).map(|case| case.within(from))
    };
    let parts = [
        part(0, 79, (2, 0)),
        part(80, 80, (2, 0)),
        part(1, 80, (2, 0)),
        part(0, 64, (6, 2)),
        part(16, 80, (6, 1)),
        part(48, 80, (6, 2)),
    ];
    cases.extend(parts.into_iter().flatten());
    let locked_group = bytes(&with_field(2, LOCK));
    let twice = refused("one memory", [&locked_group; 2], (5, 2));
    cases.extend(twice.map(|case| case.within(0)));
    let short = [[80, 79], [79, 80], [0, 0]].map(|forms| beside(&tree_a, &tree_a, 0).short(forms));
    cases.extend(short.map(|case| case.within(0)));
    cases.push(beside(&tree_a, &tree_a[64..], 1).short([80, 15]).within(64));
    cases
}

/// Trees of 127 records and of 64 taxa beside themselves and beside those with a lock or a price more at the last record.
fn largest() -> Vec<CompareCase> {
    let mut groups: Vec<Record> = (2..=127).map(|first| group(0, first, 1)).collect();
    groups.push(taxon(0, 1, 0, 1));
    let shapes = [shapes::star(64), shapes::balanced(6), groups];
    shapes
        .into_iter()
        .flat_map(|records| beside_more(&records))
        .collect()
}

fn beside_more(records: &[Record]) -> Vec<CompareCase> {
    let mut dearer = records.to_vec();
    dearer[records.len() - 1].price = 65_535;
    let locked = locking(&[records.len()], records.to_vec());
    let dressed = dressed(records.to_vec());
    let same = |records: &[Record]| {
        let outline = bytes(records);
        compared("a large tree", [&outline; 2], [&outline; 2], 0)
    };
    let mut cases = vec![same(records), same(&dressed)];
    cases.extend(before("a price at the end", records, &dearer));
    cases.extend(before("a lock at the end", records, &locked));
    cases.extend(before("a lock before a price", &locked, &dearer));
    cases.extend(before("everything", records, &dressed));
    cases
}

/// Tree A needs 80 bytes and an outline of one record 16.
fn room() -> Vec<CompareCase> {
    let (shuffled, tree_a) = (SHUFFLED[6].concat(), TREE_A.concat());
    let alone = bytes(&[taxon(0, 5, 1, LOCK + 1)]);
    let case = || compared("room", [&shuffled, &alone], [&tree_a, &alone], 1);
    let short = [
        [79, 16],
        [80, 15],
        [79, 15],
        [64, 16],
        [0, 16],
        [80, 0],
        [0, 0],
        [16, 80],
        [48, 48],
        [79, MOST_BYTES],
        [MOST_BYTES, 15],
    ];
    let roomy = [
        [80, 16],
        [81, 16],
        [80, 17],
        [81, 17],
        [96, 32],
        [80, MOST_BYTES],
        [MOST_BYTES, 16],
        [4_096, 4_096],
    ];
    let short = short.map(|forms| {
        [
            case().short(forms),
            case().turned().short([forms[1], forms[0]]),
        ]
    });
    let roomy = roomy.map(|forms| [case().roomy(forms), case().roomy(forms).turned()]);
    short.into_iter().chain(roomy).flatten().collect()
}

/// A faulty outline first, and second.
fn one_refused() -> Vec<CompareCase> {
    let sound = SHUFFLED[0].concat();
    let either = |(name, outline, number, place): (&'static str, Vec<u8>, u32, u32)| {
        let pairs = [[&outline, &sound], [&sound, &outline]];
        pairs.map(|[one, other]| refused(name, [one, other], (number, place)))
    };
    let cases = faulty_outlines().into_iter().flat_map(either);
    cases.flatten().collect()
}

/// The first one's refusal is given, whichever the second's is: 2, 3, 5, 6, 7 and 8 beside each other, and 5 beside 5.
fn both_refused() -> Vec<CompareCase> {
    let mut cases = Vec::new();
    for (name, outline, number, place) in faulty_outlines() {
        let others = faulty_outlines()
            .into_iter()
            .flat_map(|(_, other, ..)| refused(name, [&outline, &other], (number, place)));
        cases.extend(others);
    }
    let [lower, higher] = [2, 3].map(|number| bytes(&with_field(number, LOCK)));
    cases.extend(refused("5 and 5", [&lower, &higher], (5, 2)));
    cases.extend(refused("5 and 5", [&higher, &lower], (5, 3)));
    cases
}

#[cfg(test)]
mod tests {
    use super::*;
    use crate::comparing;
    use crate::outline::records;
    use crate::same_tree::are_same;

    #[test]
    fn every_answer_and_order_is_stated() {
        let stated =
            |holds: &dyn Fn(&CompareCase) -> bool| all().iter().filter(|case| holds(case)).count();
        for number in [0, 2, 3, 5, 6, 7, 8, 9] {
            assert!(
                stated(&|case| case.expected.answer[0] == number) > 1,
                "{number}"
            );
        }
        for order in [-1, 0, 1] {
            let times =
                stated(&|case| case.expected.answer[0] == 0 && case.expected.order == order);
            assert!(times > 10, "{order}: {times}");
        }
    }

    #[test]
    fn stated_orders_are_those_of_the_stated_forms_and_of_the_trees() {
        for case in all() {
            if case.expected.answer[0] == 0 {
                let [one, other] = &case.expected.forms;
                assert_eq!(
                    comparing::order(one, other),
                    case.expected.order,
                    "{}",
                    case.name
                );
                let [one, other] = case
                    .call
                    .outlines
                    .each_ref()
                    .map(|outline| records(outline));
                assert_eq!(
                    are_same(&one, &other),
                    case.expected.order == 0,
                    "{}",
                    case.name
                );
            }
        }
    }
}
