//! The comparison of what was expected of a call with what was observed.

use crate::comparing::CompareExpected;
use crate::expect::Expected;
use crate::form::{ascends, least_plates, FormExpected};
use crate::frame::difference;
use crate::library::{
    CheckObserved, ChooseObserved, CompareObserved, FindObserved, FormObserved, QuickObserved,
    RangeObserved, ReadObserved, ReviseObserved, SheetObserved, ViewObserved, WriteObserved,
};
use crate::outline::{self, is_preorder, Record, LOCK};
use crate::quick::QuickExpected;
use crate::range::RangeExpected;
use crate::reading::ReadExpected;
use crate::revise::{ReviseCall, ReviseExpected};
use crate::rules::{self, Refusal};
use crate::same_tree::are_same;
use crate::sheet::{self, SheetExpected};
use crate::spanning::Branch;
use crate::view::ViewExpected;
use crate::writing::WriteExpected;

/// The differences found, and how many numbers and bytes were compared.
#[derive(Debug, PartialEq, Eq)]
pub struct Comparison {
    pub differences: Vec<String>,
    pub values: usize,
}

fn returned(expected: u32, got: u32) -> Option<String> {
    (expected != got).then(|| format!("returned: expected {expected}, got {got}"))
}

pub fn choose(expected: &Expected, observed: &ChooseObserved) -> Comparison {
    let (before, after) = (&observed.before, &observed.after);
    let cleared = vec![0; expected.work];
    let mut differences: Vec<String> = [
        returned(expected.answer[0], observed.returned),
        difference("answer", &before.answer, &after.answer, &expected.answer),
        difference("outline", &before.outline, &after.outline, &[]),
        difference("marks", &before.marks, &after.marks, &expected.marks),
        difference("curve", &before.curve, &after.curve, &expected.curve),
        difference("work", &before.work, &after.work, &cleared),
    ]
    .into_iter()
    .flatten()
    .collect();
    if after.answer.content() != expected.answer {
        differences.push(format!(
            "number, place, diversity, cost, taxa, spare: expected {:?}, got {:?}",
            expected.answer,
            after.answer.content()
        ));
    }
    let values = 1
        + after.answer.cells.len()
        + after.outline.cells.len()
        + after.marks.cells.len()
        + after.curve.cells.len()
        + after.work.cells.len();
    Comparison {
        differences,
        values,
    }
}

pub fn check(expected: Option<Refusal>, observed: &CheckObserved) -> Comparison {
    let (number, place) = expected.map_or((0, 0), |refusal| (refusal.number, refusal.place));
    let outline = (&observed.outline_before, &observed.outline_after);
    let differences = [
        returned(number, observed.returned),
        difference(
            "place",
            &observed.place_before,
            &observed.place_after,
            &[place],
        ),
        difference("outline", outline.0, outline.1, &[]),
    ];
    Comparison {
        differences: differences.into_iter().flatten().collect(),
        values: 1 + observed.place_after.cells.len() + outline.1.cells.len(),
    }
}

pub fn find(expected: u32, observed: &FindObserved) -> Comparison {
    let outline = (&observed.outline_before, &observed.outline_after);
    let differences = [
        returned(expected, observed.returned),
        difference("outline", outline.0, outline.1, &[]),
    ];
    Comparison {
        differences: differences.into_iter().flatten().collect(),
        values: 1 + outline.1.cells.len(),
    }
}

pub fn read(expected: &ReadExpected, observed: &ReadObserved) -> Comparison {
    let (before, after) = (&observed.before, &observed.after);
    let outline = &expected.outline;
    let differences = [
        returned(expected.answer[0], observed.returned),
        difference("answer", &before.answer, &after.answer, &expected.answer),
        difference("text", &before.text, &after.text, &[]),
        difference("pairs", &before.pairs, &after.pairs, &[]),
        difference("outline", &before.outline, &after.outline, outline),
    ];
    let values = 1
        + after.answer.cells.len()
        + after.text.cells.len()
        + after.pairs.cells.len()
        + after.outline.cells.len();
    Comparison {
        differences: differences.into_iter().flatten().collect(),
        values,
    }
}

pub fn write(expected: &WriteExpected, observed: &WriteObserved) -> Comparison {
    let (before, after) = (&observed.before, &observed.after);
    let differences = [
        returned(expected.answer[0], observed.returned),
        difference("answer", &before.answer, &after.answer, &expected.answer),
        difference("outline", &before.outline, &after.outline, &[]),
        difference("text", &before.text, &after.text, &expected.text),
        difference("pairs", &before.pairs, &after.pairs, &expected.pairs),
    ];
    let values = 1
        + after.answer.cells.len()
        + after.outline.cells.len()
        + after.text.cells.len()
        + after.pairs.cells.len();
    Comparison {
        differences: differences.into_iter().flatten().collect(),
        values,
    }
}

pub fn sheet(expected: &SheetExpected, observed: &SheetObserved) -> Comparison {
    let (before, after) = (&observed.before, &observed.after);
    let differences = [
        returned(expected.answer[0], observed.returned),
        difference("answer", &before.answer, &after.answer, &expected.answer),
        difference("outline", &before.outline, &after.outline, &[]),
        difference("marks", &before.marks, &after.marks, &[]),
        difference("sheet", &before.sheet, &after.sheet, &expected.sheet),
    ];
    let values = 1
        + after.answer.cells.len()
        + after.outline.cells.len()
        + after.marks.cells.len()
        + after.sheet.cells.len();
    Comparison {
        differences: differences.into_iter().flatten().collect(),
        values,
    }
}

pub fn view(expected: &ViewExpected, observed: &ViewObserved) -> Comparison {
    let (before, after) = (&observed.before, &observed.after);
    let differences = [
        returned(expected.answer[0], observed.returned),
        difference("answer", &before.answer, &after.answer, &expected.answer),
        difference("outline", &before.outline, &after.outline, &[]),
        difference("view", &before.view, &after.view, &expected.view),
    ];
    let values = 1 + after.answer.cells.len() + after.outline.cells.len() + after.view.cells.len();
    Comparison {
        differences: differences.into_iter().flatten().collect(),
        values,
    }
}

/// What of a buyer's view, read record by record, is not to be seen or is not the outline's.
pub fn seen_by_buyer(records: &[Record], view: &[u8]) -> Vec<String> {
    let seen = outline::records(view);
    let mut differences = Vec::new();
    if seen.len() != records.len() {
        differences.push(format!(
            "view: {} records for {}",
            seen.len(),
            records.len()
        ));
    }
    for (number, (seen, record)) in seen.iter().zip(records).enumerate() {
        let same = (seen.next, seen.first) == (record.next, record.first)
            && seen.length == record.length
            && seen.plate_number() == record.plate_number();
        let wrong = [
            (!same, "has another link, length or plate"),
            (seen.price != 0, "has a price"),
            (seen.plate & LOCK != 0, "has bit 31"),
        ];
        let wrong = wrong.into_iter().filter(|(holds, _)| *holds);
        differences.extend(wrong.map(|(_, what)| format!("view: record {} {what}", number + 1)));
    }
    differences
}

/// Where the house's views of two outlines of one size differ otherwise than the outlines do.
pub fn shown_to_house(outlines: [&[u8]; 2], views: [&[u8]; 2]) -> Option<String> {
    let [outlines, views] = [outlines, views].map(differing);
    (outlines != views)
        .then(|| format!("house views differ at {views:?}, the outlines at {outlines:?}"))
}

/// The places at which the bytes differ.
pub fn differing([one, other]: [&[u8]; 2]) -> Vec<usize> {
    let pairs = one.iter().zip(other).enumerate();
    pairs
        .filter(|(_, (one, other))| one != other)
        .map(|(at, _)| at)
        .collect()
}

pub fn quick(expected: &QuickExpected, observed: &QuickObserved) -> Comparison {
    let (before, after) = (&observed.before, &observed.after);
    let ceiling = [expected.ceiling];
    let differences = [
        returned(expected.answer[0], observed.returned),
        difference("answer", &before.answer, &after.answer, &expected.answer),
        difference("ceiling", &before.ceiling, &after.ceiling, &ceiling),
        difference("outline", &before.outline, &after.outline, &[]),
        difference("marks", &before.marks, &after.marks, &expected.marks),
    ];
    let values = 1
        + after.answer.cells.len()
        + after.ceiling.cells.len()
        + after.outline.cells.len()
        + after.marks.cells.len();
    Comparison {
        differences: differences.into_iter().flatten().collect(),
        values,
    }
}

/// The diversity of the best set, or the number of the refusal.
pub type Best = Result<u32, u32>;

/// Where a quick choice does not go with the best set of the same outline and page count. The best diversity is not below the
/// choice's, nor above its ceiling, and where there is no best set both are refused alike.
pub fn beside_best(by: &str, observed: &QuickObserved, best: Best) -> Option<String> {
    let (quick, ceiling) = (observed.diversity(), observed.ceiling());
    let holds = match best {
        Ok(best) => observed.returned == 0 && quick <= best && u64::from(best) <= ceiling,
        Err(number) => observed.returned == number,
    };
    (!holds).then(|| {
        let number = observed.returned;
        format!(
            "{by} gives {best:?}, the quick choice {number}, diversity {quick}, ceiling {ceiling}"
        )
    })
}

/// Where more picks of the same outline and page count have less diversity or leave a record out.
pub fn more_picks(fewer: &QuickObserved, more: &QuickObserved, records: usize) -> Vec<String> {
    let mut differences = Vec::new();
    let [diversity, with_more] = [fewer, more].map(QuickObserved::diversity);
    if diversity > with_more {
        differences.push(format!(
            "diversity: {with_more} with more picks, {diversity} with fewer"
        ));
    }
    let [marks, with_more] = [fewer, more].map(|observed| observed.after.marks.content());
    let left_out = (0..records).filter(|&at| marks[at] == 1 && with_more[at] != 1);
    differences.extend(left_out.map(|at| format!("marks[{at}]: left out with more picks")));
    differences
}

pub fn form(expected: &FormExpected, observed: &FormObserved) -> Comparison {
    let (before, after) = (&observed.before, &observed.after);
    let differences = [
        returned(expected.answer[0], observed.returned),
        difference("answer", &before.answer, &after.answer, &expected.answer),
        difference("outline", &before.outline, &after.outline, &[]),
        difference("form", &before.form, &after.form, &expected.form),
    ];
    let values = 1 + after.answer.cells.len() + after.outline.cells.len() + after.form.cells.len();
    Comparison {
        differences: differences.into_iter().flatten().collect(),
        values,
    }
}

/// What of a form, read record by record, is not as it is to be in a house form of an accepted outline.
pub fn in_house_form(records: &[Record], form: &[u8]) -> Vec<String> {
    if let Some(refusal) = rules::check(form) {
        return vec![format!("form: refused, {refusal:?}")];
    }
    let written = outline::records(form);
    let wrong = [
        (!is_preorder(&written), "not in text order"),
        (
            !ascends(&written, &least_plates(&written)),
            "a chain does not ascend",
        ),
        (!are_same(records, &written), "not the same tree"),
    ];
    let wrong = wrong.into_iter().filter(|(holds, _)| *holds);
    wrong.map(|(_, what)| format!("form: {what}")).collect()
}

pub fn trees(expected: &CompareExpected, observed: &CompareObserved) -> Comparison {
    let (before, after) = (&observed.before, &observed.after);
    let ([one, other], [one_after, other_after]) = (&before.outlines, &after.outlines);
    let ([form, other_form], [form_after, other_form_after]) = (&before.forms, &after.forms);
    let differences = [
        returned(expected.answer[0], observed.returned),
        difference("answer", &before.answer, &after.answer, &expected.answer),
        difference("order", &before.order, &after.order, &[expected.order]),
        difference("outline", one, one_after, &[]),
        difference("other outline", other, other_after, &[]),
        difference("form", form, form_after, &expected.forms[0]),
        difference(
            "other form",
            other_form,
            other_form_after,
            &expected.forms[1],
        ),
    ];
    let bytes = after.outlines.iter().chain(&after.forms);
    let bytes: usize = bytes.map(|frame| frame.cells.len()).sum();
    Comparison {
        differences: differences.into_iter().flatten().collect(),
        values: 1 + after.answer.cells.len() + after.order.cells.len() + bytes,
    }
}

pub fn revise(expected: &ReviseExpected, observed: &ReviseObserved) -> Comparison {
    let mut comparison = choose(&expected.choice, &observed.chosen);
    let (before, after) = (&observed.moved_before, &observed.moved_after);
    let moved = difference("moved", before, after, &expected.moved);
    comparison.differences.extend(moved);
    comparison.values += after.cells.len();
    comparison
}

/// Where a revision does not go with what the library itself chooses: from the outline before, and from the revised one in buffers
/// that were the same.
pub fn beside_choices(
    observed: &ReviseObserved,
    old: &ChooseObserved,
    new: &ChooseObserved,
) -> Vec<String> {
    let (after, chosen) = (&observed.chosen.after, &new.after);
    let best = [old, new].map(|choice| i64::from(choice.after.answer.content()[2]));
    let moved = observed.moved()[0];
    let differences = [
        returned(new.returned, observed.chosen.returned),
        difference("answer", &chosen.answer, &after.answer, &[]),
        difference("marks", &chosen.marks, &after.marks, &[]),
        difference("curve", &chosen.curve, &after.curve, &[]),
        difference("work", &chosen.work, &after.work, &[]),
        (moved != best[1] - best[0]).then(|| format!("the best moved from {best:?} by {moved}")),
    ];
    beside_plates_choose(differences)
}

fn beside_plates_choose<const N: usize>(differences: [Option<String>; N]) -> Vec<String> {
    let differences = differences.into_iter().flatten();
    differences
        .map(|text| format!("beside plates_choose: {text}"))
        .collect()
}

/// Where the best moved by more than the length or the other way.
pub fn beyond_length(observed: &ReviseObserved) -> Option<String> {
    let [best, length] = observed.moved();
    let holds = best.unsigned_abs() <= length.unsigned_abs()
        && (best == 0 || best.signum() == length.signum());
    (!holds).then(|| format!("moved: the best by {best}, the length by {length}"))
}

/// Where the set chosen before, by its marks, is promised to stay and a revision does otherwise (document 02, §11): where the best
/// does not move as that set's diversity does, another set is marked, or the answer is not that set's. Nothing is said of a refusal.
pub fn beside_old_set(call: &ReviseCall, old: &[u8], observed: &ReviseObserved) -> Vec<String> {
    let branch = Branch::of(call, old);
    if !branch.stays() || observed.chosen.returned != 0 {
        return Vec::new();
    }
    let after = &observed.chosen.after;
    let (best, marks) = (observed.moved()[0], after.marks.content().get(..old.len()));
    let records = outline::records(&call.revised().outline);
    let [cost, diversity] = sheet::sums(&records, call.given.way, old);
    let taxa = sheet::chosen(&records, old).len() as u32;
    let answer = [diversity, cost, taxa, call.given.count - cost];
    let told = &after.answer.content()[2..6];
    let differences = [
        (best != branch.own()).then(|| format!("the best moved by {best}")),
        (marks != Some(old)).then(|| format!("{marks:?} is chosen")),
        (told != answer)
            .then(|| format!("diversity, cost, taxa, spare: expected {answer:?}, got {told:?}")),
    ];
    let spans = if branch.is_spanned {
        "spans"
    } else {
        "does not span"
    };
    let before = format!(
        "the set before, {old:?}, {spans} a branch moved by {}",
        branch.difference
    );
    let differences = differences.into_iter().flatten();
    differences
        .map(|text| format!("{before}: {text}"))
        .collect()
}

/// Where a revision in the buffers that a choice from the outline before has left does not go with one in the buffers as they were
/// before that choice, or, where the set is promised to stay, with what the choice has left: every byte of the marks, and the answer
/// but for the diversity.
pub fn beside_used_buffers(
    call: &ReviseCall,
    old: &ChooseObserved,
    fresh: &ReviseObserved,
    observed: &ReviseObserved,
) -> Vec<String> {
    let (after, apart) = (&observed.chosen.after, &fresh.chosen.after);
    let differences = [
        returned(fresh.chosen.returned, observed.chosen.returned),
        difference("answer", &apart.answer, &after.answer, &[]),
        difference("marks", &apart.marks, &after.marks, &[]),
        difference("curve", &apart.curve, &after.curve, &[]),
        difference("work", &apart.work, &after.work, &[]),
        difference("moved", &fresh.moved_after, &observed.moved_after, &[]),
    ];
    let differences = differences.into_iter().flatten();
    differences
        .chain(not_left(call, old, observed))
        .map(|text| format!("after plates_choose: {text}"))
        .collect()
}

/// Where the set is promised to stay and the marks, or the answer but for the diversity, are not what the choice has left.
fn not_left(call: &ReviseCall, old: &ChooseObserved, observed: &ReviseObserved) -> Vec<String> {
    let after = &observed.chosen.after;
    let branch = Branch::of(call, old.marks(call.records()));
    if !branch.stays() {
        return Vec::new();
    }
    let mut answer = old.after.answer.clone();
    let best = &mut answer.cells[answer.start + 2];
    *best = (i64::from(*best) + branch.own()) as u32;
    let differences = [
        difference("answer that stays", &answer, &after.answer, &[]),
        difference("marks that stay", &old.after.marks, &after.marks, &[]),
    ];
    differences.into_iter().flatten().collect()
}

pub fn range(expected: &RangeExpected, observed: &RangeObserved) -> Comparison {
    let mut comparison = choose(&expected.choice, &observed.chosen);
    let (low, low_after) = (&observed.low_before, &observed.low_after);
    let (roof, roof_after) = (&observed.roof_before, &observed.roof_after);
    let differences = [
        difference("outline at low prices", low, low_after, &[]),
        difference("roof", roof, roof_after, &[expected.roof]),
    ];
    comparison
        .differences
        .extend(differences.into_iter().flatten());
    comparison.values += low_after.cells.len() + roof_after.cells.len();
    comparison
}

/// Where a call for a range of prices does not go with what the library itself chooses: at high prices in buffers that were the same,
/// and at low prices.
pub fn beside_both_prices(
    observed: &RangeObserved,
    low: &ChooseObserved,
    high: &ChooseObserved,
) -> Vec<String> {
    let (after, chosen) = (&observed.chosen.after, &high.after);
    let best = match high.returned {
        0 => low.after.answer.content()[2],
        _ => 0,
    };
    let roof = observed.roof();
    beside_plates_choose([
        returned(high.returned, observed.chosen.returned),
        difference("answer", &chosen.answer, &after.answer, &[]),
        difference("marks", &chosen.marks, &after.marks, &[]),
        difference("curve", &chosen.curve, &after.curve, &[]),
        difference("work", &chosen.work, &after.work, &[]),
        (roof != best).then(|| format!("roof: the best at low prices is {best}, got {roof}")),
    ])
}

#[cfg(test)]
mod tests {
    use super::*;
    use crate::call::Call;
    use crate::cases;
    use crate::comparing::{self, CompareCall};
    use crate::expect;
    use crate::form::{self, FormCall};
    use crate::form_cases::SHUFFLED;
    use crate::frame::Frame;
    use crate::heading_cases::tree_a_with;
    use crate::library::{
        self, Buffers, CompareBuffers, FormBuffers, QuickBuffers, RangeBuffers, ReadBuffers,
        ReviseBuffers, SheetBuffers, ViewBuffers, WriteBuffers,
    };
    use crate::lock_cases::locking;
    use crate::outline::bytes;
    use crate::quick::{self, QuickCall};
    use crate::random::Random;
    use crate::range::{self, RangeCall};
    use crate::reading::{self, ReadCall};
    use crate::revise::{self, ReviseCall};
    use crate::sheet::{self, SheetCall};
    use crate::view::{self, Reader, ViewCall, READERS};
    use crate::writing::{self, WriteCall};
    use crate::{
        wrong_forms, wrong_orders, wrong_picks, wrong_ranges, wrong_revisions, wrong_views,
    };

    /// What a right library does.
    fn right(expected: &Expected, call: &Call) -> ChooseObserved {
        let before = Buffers::random(call, &mut Random::new(9));
        let mut after = before.clone();
        after.answer.write(&expected.answer);
        after.marks.write(&expected.marks);
        after.curve.write(&expected.curve);
        after.work.write(&vec![0; expected.work]);
        ChooseObserved {
            returned: expected.answer[0],
            before,
            after,
        }
    }

    fn selection() -> (Expected, ChooseObserved) {
        selection_from(&cases::tree_a())
    }

    /// Page count 5, way 0: {3, 5} of tree A.
    fn selection_from(records: &[Record]) -> (Expected, ChooseObserved) {
        let rng = &mut Random::new(1);
        let mut call = Call::roomy(bytes(records), 5, 0, rng);
        (call.marks, call.curve, call.work) = (8, 15, 171);
        let expected = expect::by_exhaustive_search(&call, rng);
        assert_eq!(expected.answer, [0, 0, 12, 5, 2, 0]);
        let observed = right(&expected, &call);
        (expected, observed)
    }

    /// The same with columns that no set fits.
    fn selection_with_a_lock() -> (Expected, ChooseObserved) {
        let (expected, observed) = selection_from(&locking(&[3], cases::tree_a()));
        assert_eq!(expected.curve[..6], [0, u32::MAX, 0, u32::MAX, 0, u32::MAX]);
        (expected, observed)
    }

    fn refusal() -> (Expected, ChooseObserved) {
        let rng = &mut Random::new(1);
        let mut call = Call::roomy(bytes(&cases::tree_a()), 5, 0, rng);
        call.marks = 4;
        let expected = expect::by_exhaustive_search(&call, rng);
        assert_eq!(expected.answer, [9, 0, 0, 0, 0, 0]);
        let observed = right(&expected, &call);
        (expected, observed)
    }

    /// No set fits.
    fn refusal_by_a_lock() -> (Expected, ChooseObserved) {
        let rng = &mut Random::new(1);
        let outline = bytes(&locking(&[3], cases::tree_a()));
        let call = Call::roomy(outline, 2, 0, rng);
        let expected = expect::by_exhaustive_search(&call, rng);
        assert_eq!(expected.answer, [12, 0, 0, 0, 0, 0]);
        let observed = right(&expected, &call);
        (expected, observed)
    }

    /// Every altered element of the frame must be reported under its name.
    fn notices_every_cell<T: crate::frame::Cell>(
        name: &str,
        (expected, observed): &(Expected, ChooseObserved),
        frame: impl Fn(&mut ChooseObserved) -> &mut Frame<T>,
        alter: impl Fn(T) -> T,
    ) {
        let cells = frame(&mut observed.clone()).cells.len();
        for at in 0..cells {
            let mut altered = observed.clone();
            let cell = &mut frame(&mut altered).cells[at];
            *cell = alter(*cell);
            let found = choose(expected, &altered).differences;
            assert!(!found.is_empty(), "{name} cell {at}");
            assert!(found[0].starts_with(name), "{found:?}");
        }
    }

    fn notices_everything(pair: &(Expected, ChooseObserved)) {
        notices_every_cell("answer", pair, |o| &mut o.after.answer, |v| v ^ 1);
        notices_every_cell("outline", pair, |o| &mut o.after.outline, |v| v ^ 1);
        notices_every_cell("marks", pair, |o| &mut o.after.marks, |v| v ^ 1);
        notices_every_cell("curve", pair, |o| &mut o.after.curve, |v| v ^ (1 << 31));
        notices_every_cell("work", pair, |o| &mut o.after.work, |v| v ^ (1 << 63));
    }

    #[test]
    fn right_results_have_no_difference() {
        for (expected, observed) in [
            selection(),
            selection_with_a_lock(),
            refusal(),
            refusal_by_a_lock(),
        ] {
            assert_eq!(choose(&expected, &observed).differences, [""; 0]);
        }
    }

    #[test]
    fn any_altered_number_or_byte_of_a_selection_is_noticed() {
        notices_everything(&selection());
        notices_everything(&selection_with_a_lock());
    }

    #[test]
    fn any_touched_number_or_byte_of_a_refusal_is_noticed() {
        notices_everything(&refusal());
        notices_everything(&refusal_by_a_lock());
    }

    #[test]
    fn the_empty_set_in_a_column_that_no_set_fits_is_noticed() {
        for column in 0..3 {
            let (expected, mut observed) = selection_with_a_lock();
            let at = observed.after.curve.start + 2 * column + 1;
            observed.after.curve.cells[at] = 0;
            let found = choose(&expected, &observed).differences;
            let text = format!(
                "curve[{}] (length 15): expected 4294967295, got 0",
                2 * column + 1
            );
            assert_eq!(found, [text]);
        }
    }

    #[test]
    fn a_column_off_by_one_is_noticed() {
        let pair = selection();
        notices_every_cell(
            "curve",
            &pair,
            |o| &mut o.after.curve,
            |v| v.wrapping_add(1),
        );
        let (expected, mut observed) = pair;
        let start = observed.after.curve.start;
        observed.after.curve.cells[start..start + 12].rotate_right(2);
        assert_ne!(choose(&expected, &observed).differences, [""; 0]);
    }

    #[test]
    fn untouched_buffers_of_a_selection_are_noticed() {
        let (expected, mut observed) = selection();
        let answer = observed.after.answer.clone();
        observed.after = observed.before.clone();
        observed.after.answer = answer;
        let found = choose(&expected, &observed).differences;
        let names: Vec<&str> = found.iter().map(|text| &text[..4]).collect();
        assert_eq!(names, ["mark", "curv", "work"]);
    }

    #[test]
    fn a_refusal_for_a_selection_and_the_reverse_are_noticed() {
        for ((expected, observed), other) in [
            (selection(), 9),
            (refusal(), 0),
            (selection_with_a_lock(), 12),
            (refusal_by_a_lock(), 0),
            (refusal_by_a_lock(), 9),
        ] {
            let mut altered = observed;
            altered.returned = other;
            let found = choose(&expected, &altered).differences;
            assert_eq!(found.len(), 1);
            assert!(found[0].starts_with("returned"));
        }
    }

    #[test]
    fn values_are_counted_with_their_guards() {
        let (expected, observed) = selection();
        let after = &observed.after;
        let guards = |start: usize, len: usize, cells: usize| {
            assert!(start >= 1 && cells >= start + len + 8);
            cells
        };
        let cells = guards(after.answer.start, 6, after.answer.cells.len())
            + guards(after.outline.start, 80, after.outline.cells.len())
            + guards(after.marks.start, 8, after.marks.cells.len())
            + guards(after.curve.start, 15, after.curve.cells.len())
            + guards(after.work.start, 171, after.work.cells.len());
        assert_eq!(choose(&expected, &observed).values, 1 + cells);
    }

    #[test]
    fn wrong_checks_are_noticed() {
        let rng = &mut Random::new(2);
        let outline = Frame::holding(&[1_u8, 2, 3], rng);
        let place = Frame::<u32>::random(1, rng);
        let mut right = CheckObserved {
            returned: 5,
            outline_before: outline.clone(),
            outline_after: outline,
            place_before: place.clone(),
            place_after: place,
        };
        right.place_after.write(&[3]);
        let refusal = |number, place| Some(Refusal { number, place });
        assert_eq!(check(refusal(5, 3), &right).differences, [""; 0]);
        assert_eq!(check(refusal(5, 4), &right).differences.len(), 1);
        assert_eq!(check(refusal(6, 3), &right).differences.len(), 1);
        assert_eq!(check(None, &right).differences.len(), 2);
        for at in 0..right.place_after.cells.len() {
            let mut altered = right.clone();
            altered.place_after.cells[at] ^= 1;
            assert_eq!(check(refusal(5, 3), &altered).differences.len(), 1);
        }
        for at in 0..right.outline_after.cells.len() {
            let mut altered = right.clone();
            altered.outline_after.cells[at] ^= 1;
            assert_eq!(check(refusal(5, 3), &altered).differences.len(), 1);
        }
    }

    #[test]
    fn wrong_finds_are_noticed() {
        let outline = Frame::holding(&[1_u8, 2, 3], &mut Random::new(3));
        let right = FindObserved {
            returned: 7,
            outline_before: outline.clone(),
            outline_after: outline,
        };
        assert_eq!(find(7, &right).differences, [""; 0]);
        assert_eq!(find(0, &right).differences.len(), 1);
        for at in 0..right.outline_after.cells.len() {
            let mut altered = right.clone();
            altered.outline_after.cells[at] ^= 1;
            assert_eq!(find(7, &altered).differences.len(), 1);
        }
    }

    /// Tree A read by a right library to a buffer of this length.
    fn reading(outline: usize) -> (ReadExpected, ReadObserved) {
        let call = ReadCall {
            text: b"((11:4,12:2):3,13:5);".to_vec(),
            pairs: vec![11, 3, 12, 1, 13, 2],
            outline,
        };
        let expected = reading::expected(&call);
        let before = ReadBuffers::random(&call, &mut Random::new(4));
        let mut after = before.clone();
        after.answer.write(&expected.answer);
        after.outline.write(&expected.outline);
        let returned = expected.answer[0];
        let observed = ReadObserved {
            returned,
            before,
            after,
        };
        (expected, observed)
    }

    /// Every altered element of the frame must be the one difference.
    fn is_the_one_difference<E, O: Clone, T: crate::frame::Cell>(
        compare: impl Fn(&E, &O) -> Comparison,
        (expected, observed): &(E, O),
        frame: impl Fn(&mut O) -> &mut Frame<T>,
        alter: impl Fn(T) -> T,
    ) {
        let cells = frame(&mut observed.clone()).cells.len();
        for at in 0..cells {
            let mut altered = observed.clone();
            let cell = &mut frame(&mut altered).cells[at];
            *cell = alter(*cell);
            let found = compare(expected, &altered).differences;
            assert_eq!(found.len(), 1, "cell {at}");
        }
    }

    #[test]
    fn wrong_readings_are_noticed() {
        for (outline, number) in [(90, 0), (79, 9)] {
            let pair = reading(outline);
            assert_eq!(pair.0.answer[0], number);
            assert_eq!(read(&pair.0, &pair.1).differences, [""; 0]);
            is_the_one_difference(read, &pair, |o| &mut o.after.answer, |v| v ^ (1 << 31));
            is_the_one_difference(read, &pair, |o| &mut o.after.text, |v| v ^ 1);
            is_the_one_difference(read, &pair, |o| &mut o.after.pairs, |v| v ^ 1);
            is_the_one_difference(read, &pair, |o| &mut o.after.outline, |v| v ^ 128);
            let (expected, mut altered) = pair;
            altered.returned ^= 1;
            assert_eq!(read(&expected, &altered).differences.len(), 1);
            altered.after.outline = altered.before.outline.clone();
            let untouched = read(&expected, &altered).differences.len();
            assert_eq!(untouched, if number == 0 { 2 } else { 1 });
        }
    }

    /// Tree A written by a right library to a buffer of this length and one of 8 numbers.
    fn writing(text: usize) -> (WriteExpected, WriteObserved) {
        let call = WriteCall {
            outline: bytes(&cases::tree_a()),
            text,
            pairs: 8,
        };
        let expected = writing::expected(&call);
        let before = WriteBuffers::random(&call, &mut Random::new(5));
        let mut after = before.clone();
        after.answer.write(&expected.answer);
        after.text.write(&expected.text);
        after.pairs.write(&expected.pairs);
        let returned = expected.answer[0];
        let observed = WriteObserved {
            returned,
            before,
            after,
        };
        (expected, observed)
    }

    #[test]
    fn wrong_writings_are_noticed() {
        for (text, number) in [(30, 0), (22, 9)] {
            let pair = writing(text);
            assert_eq!(pair.0.answer[0], number);
            assert_eq!(write(&pair.0, &pair.1).differences, [""; 0]);
            is_the_one_difference(write, &pair, |o| &mut o.after.answer, |v| v ^ (1 << 31));
            is_the_one_difference(write, &pair, |o| &mut o.after.outline, |v| v ^ 1);
            is_the_one_difference(write, &pair, |o| &mut o.after.text, |v| v ^ 1);
            is_the_one_difference(write, &pair, |o| &mut o.after.pairs, |v| v ^ (1 << 31));
            let (expected, mut altered) = pair;
            altered.returned ^= 1;
            assert_eq!(write(&expected, &altered).differences.len(), 1);
            altered.after.text = altered.before.text.clone();
            altered.after.pairs = altered.before.pairs.clone();
            let untouched = write(&expected, &altered).differences.len();
            assert_eq!(untouched, if number == 0 { 3 } else { 1 });
        }
    }

    /// {3, 5} of tree A listed by a right library, rooted, to a sheet of this length.
    fn listing(sheet: usize) -> (SheetExpected, SheetObserved) {
        let call = SheetCall {
            outline: bytes(&cases::tree_a()),
            way: 0,
            marks: vec![0, 0, 1, 0, 1, 255],
            within: None,
            sheet,
        };
        let expected = sheet::expected(&call);
        let before = SheetBuffers::random(&call, &mut Random::new(6));
        let mut after = before.clone();
        after.answer.write(&expected.answer);
        after.sheet.write(&expected.sheet);
        let returned = expected.answer[0];
        let observed = SheetObserved {
            returned,
            before,
            after,
        };
        (expected, observed)
    }

    #[test]
    fn wrong_sheets_are_noticed() {
        for (len, number) in [(10, 0), (6, 0), (5, 9)] {
            let pair = listing(len);
            assert_eq!(pair.0.answer[0], number);
            assert_eq!(sheet(&pair.0, &pair.1).differences, [""; 0]);
            is_the_one_difference(sheet, &pair, |o| &mut o.after.answer, |v| v ^ (1 << 31));
            is_the_one_difference(sheet, &pair, |o| &mut o.after.outline, |v| v ^ 1);
            is_the_one_difference(sheet, &pair, |o| &mut o.after.marks, |v| v ^ 1);
            is_the_one_difference(sheet, &pair, |o| &mut o.after.sheet, |v| v.wrapping_add(1));
            let (expected, mut altered) = pair;
            altered.returned ^= 1;
            assert_eq!(sheet(&expected, &altered).differences.len(), 1);
            altered.after.sheet = altered.before.sheet.clone();
            let untouched = sheet(&expected, &altered).differences.len();
            assert_eq!(untouched, if number == 0 { 2 } else { 1 });
        }
    }

    #[test]
    fn rows_that_change_places_are_noticed() {
        let (expected, mut observed) = listing(10);
        let start = observed.after.sheet.start;
        observed.after.sheet.cells[start..start + 6].rotate_left(3);
        let found = sheet(&expected, &observed).differences;
        assert_eq!(found, ["sheet[0] (length 10): expected 11, got 13"]);
    }

    /// Tree A with headings and locks, shown by a right program in a view of this length.
    fn showing(reader: Reader, view: usize) -> (ViewExpected, ViewObserved) {
        let call = ViewCall {
            outline: bytes(&locking(&[3, 5], tree_a_with(1, 2))),
            reader,
            view,
        };
        let before = ViewBuffers::random(&call, &mut Random::new(7));
        (view::expected(&call), wrong_views::right(reader, before))
    }

    #[test]
    fn wrong_views_are_noticed() {
        for (len, number) in [(90, 0), (80, 0), (79, 9), (0, 9)] {
            for pair in READERS.map(|reader| showing(reader, len)) {
                assert_eq!(pair.0.answer, [number, 0]);
                assert_eq!(view(&pair.0, &pair.1).differences, [""; 0]);
                is_the_one_difference(view, &pair, |o| &mut o.after.answer, |v| v ^ (1 << 31));
                is_the_one_difference(view, &pair, |o| &mut o.after.outline, |v| v ^ 1);
                is_the_one_difference(view, &pair, |o| &mut o.after.view, |v| v ^ 128);
                let (expected, mut altered) = pair;
                altered.returned ^= 1;
                assert_eq!(view(&expected, &altered).differences.len(), 1);
                altered.after.view = altered.before.view.clone();
                let untouched = view(&expected, &altered).differences.len();
                assert_eq!(untouched, if number == 0 { 2 } else { 1 });
            }
        }
    }

    #[test]
    fn what_a_buyer_is_not_to_see_is_noticed_at_its_record() {
        let records = locking(&[3, 5], tree_a_with(1, 2));
        let (right, _) = showing(Reader::Buyer, 80);
        assert_eq!(seen_by_buyer(&records, &right.view), [""; 0]);
        for (byte, record, what) in [
            (0, 1, "has another link, length or plate"),
            (18, 2, "has another link, length or plate"),
            (36, 3, "has another link, length or plate"),
            (62, 4, "has another link, length or plate"),
            (8, 1, "has a price"),
            (25, 2, "has a price"),
            (74, 5, "has a price"),
            (31, 2, "has bit 31"),
            (79, 5, "has bit 31"),
        ] {
            let mut view = right.view.clone();
            view[byte] |= 128;
            let text = format!("view: record {record} {what}");
            assert_eq!(seen_by_buyer(&records, &view), [text]);
        }
        assert_eq!(seen_by_buyer(&records, &bytes(&records)).len(), 7);
        assert_eq!(seen_by_buyer(&records, &right.view[..64]).len(), 1);
    }

    #[test]
    fn house_views_that_hide_or_add_a_difference_are_noticed() {
        let outlines: [&[u8]; 2] = [&[1, 2, 3, 4], &[1, 7, 3, 8]];
        assert_eq!(differing(outlines), [1, 3]);
        assert_eq!(shown_to_house(outlines, outlines), None);
        let wrong: [&[u8]; 4] = [&[1, 2, 3, 8], &[1, 7, 3, 4], &[0, 7, 3, 8], &[1, 2, 3, 4]];
        for other in wrong {
            assert_ne!(shown_to_house(outlines, [outlines[0], other]), None);
        }
    }

    /// {3} of tree A with a lock, and with one pick more {3, 5}, chosen by a right program for 5 quarters and for so many marks.
    fn choosing_quickly(picks: u32, marks: usize) -> (QuickExpected, QuickObserved) {
        let call = QuickCall {
            outline: bytes(&locking(&[3], cases::tree_a())),
            count: 5,
            picks,
            marks,
        };
        let before = QuickBuffers::random(&call, &mut Random::new(8));
        let observed = wrong_picks::RIGHT.run()(call.count, picks, before);
        (quick::expected(&call), observed)
    }

    #[test]
    fn wrong_quick_choices_are_noticed() {
        for (picks, marks, number) in [(0, 9, 0), (1, 5, 0), (1, 4, 9), (65, 5, 15)] {
            let pair = choosing_quickly(picks, marks);
            assert_eq!(pair.0.answer[0], number);
            assert_eq!(quick(&pair.0, &pair.1).differences, [""; 0]);
            is_the_one_difference(quick, &pair, |o| &mut o.after.answer, |v| v ^ (1 << 31));
            is_the_one_difference(quick, &pair, |o| &mut o.after.ceiling, |v| v ^ (1 << 63));
            is_the_one_difference(quick, &pair, |o| &mut o.after.outline, |v| v ^ 1);
            is_the_one_difference(quick, &pair, |o| &mut o.after.marks, |v| v ^ 1);
            let (expected, mut altered) = pair;
            altered.returned ^= 1;
            assert_eq!(quick(&expected, &altered).differences.len(), 1);
            altered.after.marks = altered.before.marks.clone();
            altered.after.ceiling = altered.before.ceiling.clone();
            let untouched = quick(&expected, &altered).differences.len();
            assert_eq!(untouched, if number == 0 { 3 } else { 2 });
        }
    }

    /// The best is 12 at 5 quarters. With no pick the diversity is 7, the ceiling 14.
    #[test]
    fn the_best_is_between_diversity_and_ceiling_or_there_is_the_same_refusal() {
        let (_, observed) = choosing_quickly(0, 5);
        for (best, holds) in [
            (Ok(12), true),
            (Ok(7), true),
            (Ok(6), false),
            (Ok(14), true),
            (Ok(15), false),
            (Ok(0), false),
            (Err(12), false),
        ] {
            let difference = beside_best("the best", &observed, best);
            assert_eq!(difference.is_none(), holds, "{best:?}");
        }
        let mut refused = observed;
        refused.returned = 12;
        assert_eq!(beside_best("the best", &refused, Err(12)), None);
        assert!(beside_best("the best", &refused, Err(9)).is_some());
        assert!(beside_best("the best", &refused, Ok(7)).is_some());
    }

    #[test]
    fn more_picks_that_have_less_are_noticed() {
        let [fewer, more] = [0, 1].map(|picks| choosing_quickly(picks, 5).1);
        assert_eq!(more_picks(&fewer, &more, 5), [""; 0]);
        assert_eq!(more_picks(&fewer, &fewer, 5), [""; 0]);
        let lost = [
            "diversity: 7 with more picks, 12 with fewer",
            "marks[4]: left out with more picks",
        ];
        assert_eq!(more_picks(&more, &fewer, 5), lost);
        assert_eq!(more_picks(&more, &fewer, 4), lost[..1]);
    }

    /// Tree A, shuffled, in house form by a right program, in a form of this length.
    fn forming(len: usize) -> (FormExpected, FormObserved) {
        let call = FormCall {
            outline: SHUFFLED[6].concat(),
            form: len,
        };
        let before = FormBuffers::random(&call, &mut Random::new(10));
        (form::expected(&call), wrong_forms::RIGHT.run()(before))
    }

    #[test]
    fn wrong_forms_are_noticed() {
        for (len, number) in [(90, 0), (80, 0), (79, 9), (0, 9)] {
            let pair = forming(len);
            assert_eq!(pair.0.answer, [number, 0]);
            assert_eq!(form(&pair.0, &pair.1).differences, [""; 0]);
            is_the_one_difference(form, &pair, |o| &mut o.after.answer, |v| v ^ (1 << 31));
            is_the_one_difference(form, &pair, |o| &mut o.after.outline, |v| v ^ 1);
            is_the_one_difference(form, &pair, |o| &mut o.after.form, |v| v ^ 128);
            let (expected, mut altered) = pair;
            altered.returned ^= 1;
            assert_eq!(form(&expected, &altered).differences.len(), 1);
            altered.after.form = altered.before.form.clone();
            let untouched = form(&expected, &altered).differences.len();
            assert_eq!(untouched, if number == 0 { 2 } else { 1 });
        }
    }

    #[test]
    fn what_is_no_house_form_is_noticed_by_itself() {
        let tree_a = bytes(&cases::tree_a());
        let found = |form: &[u8]| in_house_form(&cases::tree_a(), form);
        assert_eq!(found(&tree_a), [""; 0]);
        assert_eq!(found(&SHUFFLED[0].concat()), ["form: not in text order"]);
        let turned = [2, 5].map(|shuffled| SHUFFLED[shuffled].concat());
        for outline in turned {
            assert_eq!(found(&outline), ["form: a chain does not ascend"]);
        }
        for byte in [8, 20, 40, 47, 76] {
            let mut other = tree_a.clone();
            other[byte] ^= 128;
            assert_eq!(found(&other), ["form: not the same tree"], "{byte}");
        }
        let refused = ["form: refused, Refusal { number: 2, place: 0 }"];
        assert_eq!(found(&tree_a[..79]), refused);
        assert_eq!(found(&[]), refused);
        assert_eq!(found(&tree_a[64..]), ["form: not the same tree"]);
        assert_eq!(found(&SHUFFLED[4].concat()).len(), 2);
    }

    /// Tree A, shuffled, beside a greater length by a right program, in forms of these lengths.
    fn comparing_trees(forms: [usize; 2]) -> (CompareExpected, CompareObserved) {
        let mut longer = SHUFFLED[6];
        longer[4][4] = 5;
        let call = CompareCall {
            outlines: [longer, SHUFFLED[3]].map(|rows| rows.concat()),
            within: None,
            forms,
        };
        let before = CompareBuffers::random(&call, &mut Random::new(11));
        let observed = wrong_orders::RIGHT.run()(before);
        (comparing::expected(&call), observed)
    }

    #[test]
    fn wrong_orders_are_noticed() {
        for (forms, number) in [
            ([90, 85], 0),
            ([80, 80], 0),
            ([79, 80], 9),
            ([80, 79], 9),
            ([0, 0], 9),
        ] {
            let pair = comparing_trees(forms);
            assert_eq!(pair.0.answer, [number, 0]);
            assert_eq!(pair.0.order, i32::from(number == 0));
            assert_eq!(trees(&pair.0, &pair.1).differences, [""; 0]);
            is_the_one_difference(trees, &pair, |o| &mut o.after.answer, |v| v ^ (1 << 31));
            is_the_one_difference(trees, &pair, |o| &mut o.after.order, |v| v ^ (1 << 30));
            for at in [0, 1] {
                is_the_one_difference(trees, &pair, |o| &mut o.after.outlines[at], |v| v ^ 1);
                is_the_one_difference(trees, &pair, |o| &mut o.after.forms[at], |v| v ^ 128);
            }
            let (expected, mut altered) = pair;
            altered.returned ^= 1;
            assert_eq!(trees(&expected, &altered).differences.len(), 1);
            altered.after.forms = altered.before.forms.clone();
            altered.after.order = altered.before.order.clone();
            let untouched = trees(&expected, &altered).differences.len();
            assert_eq!(untouched, if number == 0 { 4 } else { 2 });
        }
    }

    /// A record of tree A with this length, by a right program, in buffers of these lengths.
    fn revised(record: u32, length: u32, buffers: [usize; 3]) -> (ReviseCall, ReviseObserved) {
        let [marks, curve, work] = buffers;
        let given = Call {
            outline: bytes(&cases::tree_a()),
            count: 5,
            way: 0,
            marks,
            curve,
            work,
        };
        let call = ReviseCall {
            given,
            record,
            length,
        };
        let before = ReviseBuffers::random(&call, &mut Random::new(12));
        let observed = wrong_revisions::RIGHT.run()(&call, before);
        (call, observed)
    }

    /// Record 3 without length.
    fn revising(marks: usize, curve: usize, work: usize) -> (ReviseExpected, ReviseObserved) {
        let (call, observed) = revised(3, 0, [marks, curve, work]);
        (revise::expected(&call, expect::by_table).0, observed)
    }

    #[test]
    fn wrong_revisions_are_noticed() {
        for (lengths, number) in [([9, 20, 200], 0), ([5, 12, 168], 0), ([5, 12, 167], 9)] {
            let [marks, curve, work] = lengths;
            let pair = revising(marks, curve, work);
            assert_eq!(pair.0.number(), number);
            assert_eq!(revise(&pair.0, &pair.1).differences, [""; 0]);
            is_the_one_difference(revise, &pair, |o| &mut o.chosen.after.outline, |v| v ^ 1);
            is_the_one_difference(revise, &pair, |o| &mut o.chosen.after.marks, |v| v ^ 1);
            is_the_one_difference(
                revise,
                &pair,
                |o| &mut o.chosen.after.curve,
                |v| v ^ (1 << 31),
            );
            is_the_one_difference(
                revise,
                &pair,
                |o| &mut o.chosen.after.work,
                |v| v ^ (1 << 63),
            );
            is_the_one_difference(revise, &pair, |o| &mut o.moved_after, |v| v ^ (1 << 62));
            let (expected, mut altered) = pair;
            altered.chosen.returned ^= 1;
            assert_eq!(revise(&expected, &altered).differences.len(), 1);
            altered.moved_after.write(&[2, 4]);
            assert_eq!(revise(&expected, &altered).differences.len(), 2);
        }
    }

    /// The best was 12 and is 10.
    #[test]
    fn a_revision_that_does_not_go_with_two_choices_is_noticed() {
        let (_, observed) = revising(9, 20, 200);
        let mut before = observed.chosen.before.clone();
        let old = library::choose_in(5, 0, before.clone());
        before.outline.write(&bytes(&with_length(0)));
        let new = library::choose_in(5, 0, before);
        let found = |observed: &ReviseObserved| beside_choices(observed, &old, &new);
        assert_eq!(found(&observed), [""; 0]);
        assert_eq!(beside_choices(&observed, &new, &old).len(), 4);
        let mut altered = observed.clone();
        altered.moved_after.write(&[2]);
        let text = "beside plates_choose: the best moved from [12, 10] by 2";
        assert_eq!(found(&altered), [text]);
        let alter: [fn(&mut ReviseObserved); 5] = [
            |o| o.chosen.returned = 9,
            |o| o.chosen.after.answer.cells[o.chosen.after.answer.start + 5] ^= 1,
            |o| o.chosen.after.marks.cells[0] ^= 1,
            |o| o.chosen.after.curve.cells[o.chosen.after.curve.start] ^= 1,
            |o| o.chosen.after.work.cells[o.chosen.after.work.start] ^= 1,
        ];
        for alter in alter {
            let mut altered = observed.clone();
            alter(&mut altered);
            assert_eq!(found(&altered).len(), 1);
        }
    }

    /// Tree A with this length at record 3.
    fn with_length(length: u32) -> Vec<Record> {
        let mut records = cases::tree_a();
        records[2].length = length;
        records
    }

    #[test]
    fn a_best_that_moves_by_more_than_the_length_or_the_other_way_is_noticed() {
        let (_, mut observed) = revising(9, 20, 200);
        for (moved, holds) in [
            ([0, 0], true),
            ([0, 5], true),
            ([0, -5], true),
            ([5, 5], true),
            ([-5, -5], true),
            ([1, 5], true),
            ([-1, -5], true),
            ([1, 0], false),
            ([-1, 0], false),
            ([6, 5], false),
            ([-6, -5], false),
            ([1, -5], false),
            ([-1, 5], false),
            ([i64::MIN, i64::MAX], false),
        ] {
            observed.moved_after.write(&moved);
            assert_eq!(beyond_length(&observed).is_none(), holds, "{moved:?}");
        }
    }

    /// Of {3, 5}, which is the best of tree A before.
    const OLD: [u8; 5] = [0, 0, 1, 0, 1];
    /// Records and lengths with which {3, 5} is promised to stay: it spans record 3 and the root, and not record 4.
    const KEPT: [[u32; 2]; 5] = [[3, 9], [3, 4], [1, 7], [4, 0], [4, 2]];
    /// And with which nothing is promised.
    const NOT_KEPT: [[u32; 2]; 4] = [[3, 3], [3, 0], [4, 3], [4, 9]];

    /// Each of these, and whether it is promised.
    fn kept_or_not() -> Vec<(bool, [u32; 2])> {
        let kept = KEPT.map(|of| (true, of));
        kept.into_iter()
            .chain(NOT_KEPT.map(|of| (false, of)))
            .collect()
    }

    type Alter = fn(&mut ReviseObserved);

    fn alter_answer(observed: &mut ReviseObserved, at: usize) {
        let answer = &mut observed.chosen.after.answer;
        answer.cells[answer.start + at] ^= 1;
    }

    /// The record's mark is the other one.
    fn alter_mark(observed: &mut ReviseObserved, record: usize) {
        let marks = &mut observed.chosen.after.marks;
        marks.cells[marks.start + record - 1] ^= 1;
    }

    #[test]
    fn a_revision_that_does_not_keep_the_old_set_is_noticed_where_that_is_promised() {
        let alter: [Alter; 8] = [
            |o| o.moved_after.cells[o.moved_after.start] ^= 1,
            |o| alter_mark(o, 1),
            |o| alter_mark(o, 3),
            |o| alter_mark(o, 4),
            |o| alter_answer(o, 2),
            |o| alter_answer(o, 3),
            |o| alter_answer(o, 4),
            |o| alter_answer(o, 5),
        ];
        let altered = |observed: &ReviseObserved, alter: Alter| {
            let mut altered = observed.clone();
            alter(&mut altered);
            altered
        };
        for (promised, [record, length]) in kept_or_not() {
            let (call, observed) = revised(record, length, [9, 20, 200]);
            let found = |observed: &ReviseObserved| beside_old_set(&call, &OLD, observed);
            assert_eq!(found(&observed), [""; 0]);
            for alter in alter {
                let mut other = altered(&observed, alter);
                assert_eq!(found(&other).len(), usize::from(promised));
                other.chosen.returned = 9;
                assert_eq!(found(&other), [""; 0]);
            }
            // a mark that stands for no record
            assert_eq!(found(&altered(&observed, |o| alter_mark(o, 6))), [""; 0]);
        }
    }

    #[test]
    fn what_does_not_keep_the_old_set_is_said() {
        let (call, mut observed) = revised(3, 9, [9, 20, 200]);
        observed.moved_after.write(&[4]);
        let before = "the set before, [0, 0, 1, 0, 1], spans a branch moved by 5";
        let text = format!("{before}: the best moved by 4");
        assert_eq!(beside_old_set(&call, &OLD, &observed), [text]);
        observed.moved_after.write(&[5]);
        alter_answer(&mut observed, 2);
        let numbers = "expected [17, 5, 2, 0], got [16, 5, 2, 0]";
        let text = format!("{before}: diversity, cost, taxa, spare: {numbers}");
        assert_eq!(beside_old_set(&call, &OLD, &observed), [text]);
    }

    /// A choice from tree A, and a right program's revision in the buffers as that leaves them.
    fn after_choosing(
        call: &ReviseCall,
        fresh: &ReviseObserved,
    ) -> (ChooseObserved, ReviseObserved) {
        let old = library::choose_in(5, 0, fresh.chosen.before.clone());
        let before = ReviseBuffers {
            choice: old.after.clone(),
            moved: fresh.moved_before.clone(),
        };
        let again = wrong_revisions::RIGHT.run()(call, before);
        (old, again)
    }

    #[test]
    fn a_revision_after_a_choice_that_does_not_go_with_one_in_fresh_buffers_is_noticed() {
        let alter: [Alter; 6] = [
            |o| o.chosen.returned = 9,
            |o| alter_answer(o, 1),
            |o| alter_mark(o, 1),
            |o| o.chosen.after.curve.cells[o.chosen.after.curve.start] ^= 1,
            |o| o.chosen.after.work.cells[o.chosen.after.work.start] ^= 1,
            |o| o.moved_after.write(&[0, 0]),
        ];
        for [record, length] in NOT_KEPT {
            let (call, fresh) = revised(record, length, [9, 20, 200]);
            let (old, again) = after_choosing(&call, &fresh);
            assert_eq!(beside_used_buffers(&call, &old, &fresh, &again), [""; 0]);
            for alter in alter {
                let mut altered = again.clone();
                alter(&mut altered);
                assert_eq!(beside_used_buffers(&call, &old, &fresh, &altered).len(), 1);
                // where nothing is promised, what is wrong in fresh buffers too is not noticed here
                let mut both = fresh.clone();
                alter(&mut both);
                assert_eq!(beside_used_buffers(&call, &old, &both, &altered), [""; 0]);
            }
        }
    }

    #[test]
    fn a_revision_after_a_choice_that_does_not_leave_what_is_to_stay_is_noticed() {
        let alter: [Alter; 7] = [
            |o| alter_mark(o, 1),
            // the last mark, which stands for no record
            |o| alter_mark(o, 9),
            |o| alter_answer(o, 0),
            |o| alter_answer(o, 2),
            |o| alter_answer(o, 3),
            |o| alter_answer(o, 4),
            |o| alter_answer(o, 5),
        ];
        for [record, length] in KEPT {
            let (call, fresh) = revised(record, length, [9, 20, 200]);
            let (old, again) = after_choosing(&call, &fresh);
            assert_eq!(beside_used_buffers(&call, &old, &fresh, &again), [""; 0]);
            for alter in alter {
                let [mut both, mut altered] = [fresh.clone(), again.clone()];
                alter(&mut both);
                alter(&mut altered);
                assert_eq!(beside_used_buffers(&call, &old, &both, &altered).len(), 1);
            }
        }
    }

    /// Tree A, where plate 11 costs 2 to 4 quarters, by a right program, in buffers of these lengths: {4, 5} is sure, and all are the
    /// best at low prices.
    fn ranging(buffers: [usize; 3]) -> (RangeExpected, RangeObserved) {
        let [marks, curve, work] = buffers;
        let [low, outline] = [2, 4].map(|price| {
            let mut records = cases::tree_a();
            records[2].price = price;
            bytes(&records)
        });
        let call = RangeCall {
            high: Call {
                outline,
                count: 5,
                way: 0,
                marks,
                curve,
                work,
            },
            low,
            within: None,
        };
        let before = RangeBuffers::random(&call, &mut Random::new(13));
        let observed = wrong_ranges::RIGHT.run()(&call, before);
        (range::expected(&call, expect::by_table).0, observed)
    }

    #[test]
    fn wrong_ranges_are_noticed() {
        for (lengths, number) in [([9, 20, 200], 0), ([5, 12, 168], 0), ([5, 12, 167], 9)] {
            let pair = ranging(lengths);
            assert_eq!(pair.0.number(), number);
            assert_eq!(pair.0.roof, if number == 0 { 14 } else { 0 });
            assert_eq!(range(&pair.0, &pair.1).differences, [""; 0]);
            is_the_one_difference(range, &pair, |o| &mut o.chosen.after.outline, |v| v ^ 1);
            is_the_one_difference(range, &pair, |o| &mut o.low_after, |v| v ^ 128);
            is_the_one_difference(range, &pair, |o| &mut o.chosen.after.marks, |v| v ^ 1);
            is_the_one_difference(
                range,
                &pair,
                |o| &mut o.chosen.after.curve,
                |v| v ^ (1 << 31),
            );
            is_the_one_difference(
                range,
                &pair,
                |o| &mut o.chosen.after.work,
                |v| v ^ (1 << 63),
            );
            is_the_one_difference(range, &pair, |o| &mut o.roof_after, |v| v ^ (1 << 30));
            let (expected, mut altered) = pair;
            altered.chosen.returned ^= 1;
            assert_eq!(range(&expected, &altered).differences.len(), 1);
            altered.roof_after = altered.roof_before.clone();
            assert_eq!(range(&expected, &altered).differences.len(), 2);
        }
    }

    #[test]
    fn the_values_of_a_range_are_counted_with_their_guards() {
        let (expected, observed) = ranging([9, 20, 200]);
        let of_choice = choose(&expected.choice, &observed.chosen).values;
        let more = observed.low_after.cells.len() + observed.roof_after.cells.len();
        assert!(more > 80 + 1 + 16);
        assert_eq!(range(&expected, &observed).values, of_choice + more);
    }

    #[test]
    fn a_range_that_does_not_go_with_the_choices_at_both_prices_is_noticed() {
        let (_, observed) = ranging([9, 20, 200]);
        let mut before = observed.chosen.before.clone();
        let high = library::choose_in(5, 0, before.clone());
        before.outline.write(observed.low_before.content());
        let low = library::choose_in(5, 0, before);
        let found = |observed: &RangeObserved| beside_both_prices(observed, &low, &high);
        assert_eq!(found(&observed), [""; 0]);
        // answer, marks, curve and roof
        assert_eq!(beside_both_prices(&observed, &high, &low).len(), 4);
        let mut altered = observed.clone();
        altered.roof_after.write(&[10]);
        let text = "beside plates_choose: roof: the best at low prices is 14, got 10";
        assert_eq!(found(&altered), [text]);
        let alter: [fn(&mut RangeObserved); 5] = [
            |o| o.chosen.returned = 9,
            |o| o.chosen.after.answer.cells[o.chosen.after.answer.start + 5] ^= 1,
            |o| o.chosen.after.marks.cells[0] ^= 1,
            |o| o.chosen.after.curve.cells[o.chosen.after.curve.start] ^= 1,
            |o| o.chosen.after.work.cells[o.chosen.after.work.start] ^= 1,
        ];
        for alter in alter {
            let mut altered = observed.clone();
            alter(&mut altered);
            assert_eq!(found(&altered).len(), 1);
        }
    }

    /// What fits at low prices alone is refused, and has no roof.
    #[test]
    fn a_refused_range_beside_a_refusal_at_high_prices_has_no_roof() {
        let (_, mut observed) = ranging([5, 12, 167]);
        let high = library::choose_in(5, 0, observed.chosen.before.clone());
        let (_, at_low) = ranging([9, 20, 200]);
        let low = at_low.chosen;
        assert_eq!((high.returned, low.returned), (9, 0));
        assert_eq!(beside_both_prices(&observed, &low, &high), [""; 0]);
        observed.roof_after.write(&[10]);
        assert_eq!(beside_both_prices(&observed, &low, &high).len(), 1);
    }
}
