//! Prices not yet agreed: the sure set, floor and roof, what is promised of prices between, the
//! refusals, and the buffers.

use crate::support::{bytes, chain, changed, diversity, faulty, fields_of, headed_a};
use crate::support::{locked_a, outline, outlines, plates, room, samples, sound, star};
use crate::support::{star_records, tree_a, Buffers, Draw, INTERLEAVED, LOCK, TREE_A, WAYS};
use plates::{choose_in, sys, Outline, Record, Refusal, SureChoice, Tree, Way, Work};
use plates::{MOST_COUNT, MOST_RECORDS};
use std::thread;

const MOST_PRICE: u32 = 65_535;

fn sure(low: &Outline, high: &Outline, count: u32, way: Way) -> SureChoice {
    let sure = low.range(high, count, way);
    sure.expect("the outlines differ in prices only, and the locked taxa fit")
}

/// Plates, cost, spare, and from where to where the best lies.
type Told = (Vec<u32>, u32, u32, [u32; 2]);

fn told(low: &Outline, high: &Outline, count: u32, way: Way) -> Told {
    let sure = sure(low, high, count, way);
    let choice = sure.choice();
    assert_eq!(choice.diversity(), sure.floor());
    let between = [sure.floor(), sure.roof()];
    (plates(choice), choice.cost(), choice.spare(), between)
}

/// The outline with other prices.
fn priced(tree: &Outline, mut price: impl FnMut(Record) -> u32) -> Outline {
    let mut records = fields_of(tree);
    for (fields, record) in records.iter_mut().zip(tree.records()) {
        fields[3] = price(record);
    }
    outline(&records)
}

/// The outline with another price of the taxon that has a plate.
fn with_price(tree: &Outline, plate: u32, price: u32) -> Outline {
    assert!(tree.find(plate).is_some());
    priced(tree, |record| match record.plate == plate {
        true => price,
        false => record.price,
    })
}

/// The outline with prices as they are and somewhat higher, those of headings too.
fn dearer(tree: &Outline, draw: &mut Draw) -> Outline {
    priced(tree, |record| {
        record.price + [0, 0, 1, 2][draw.below(4) as usize]
    })
}

/// The outline with prices between, both ends included.
fn between(low: &Outline, high: &Outline, draw: &mut Draw) -> Outline {
    let mut records = high.records();
    priced(low, |record| {
        let most = records.next().expect("as many records").price;
        record.price + draw.below(most - record.price + 1)
    })
}

/// Low and high prices for each sample.
fn pairs(draw: &mut Draw) -> Vec<[Outline; 2]> {
    let samples = samples(draw);
    let pairs = samples.into_iter().map(|low| [dearer(&low, draw), low]);
    pairs.map(|[high, low]| [low, high]).collect()
}

/// Calls for each pair: low, high, count and way, where the locked taxa fit at high prices.
fn for_each_call(seed: u64, mut call: impl FnMut(&Outline, &Outline, u32, Way)) {
    for [low, high] in pairs(&mut Draw(seed)) {
        for count in [0, 3, 5, 12] {
            for way in WAYS {
                if high.choose(count, way).is_ok() {
                    call(&low, &high, count, way);
                }
            }
        }
    }
}

fn best(tree: &Outline, count: u32, way: Way) -> u32 {
    let choice = tree.choose(count, way);
    choice.expect("the locked taxa fit").diversity()
}

#[test]
fn tree_a_count_by_count() {
    // plate 11 costs 3 to 4
    let high = with_price(&tree_a(), 11, 4);
    let cases: [(u32, Told); 8] = [
        (0, (vec![], 0, 0, [0, 0])),
        (1, (vec![12], 1, 0, [5, 5])),
        (2, (vec![12], 1, 1, [5, 5])),
        (3, (vec![12, 13], 3, 0, [10, 10])),
        (4, (vec![12, 13], 3, 1, [10, 10])),
        (5, (vec![12, 13], 3, 2, [10, 12])),
        (6, (vec![11, 13], 6, 0, [12, 14])),
        (7, (vec![11, 12, 13], 7, 0, [14, 14])),
    ];
    for (count, expected) in cases {
        assert_eq!(told(&tree_a(), &high, count, Way::Rooted), expected);
    }
}

#[test]
fn tree_a_unrooted() {
    let high = with_price(&with_price(&tree_a(), 11, 4), 13, 4);
    let cases: [(u32, Told); 6] = [
        // a single plate has nothing
        (2, (vec![], 0, 2, [0, 0])),
        (3, (vec![], 0, 3, [0, 10])),
        (4, (vec![], 0, 4, [0, 10])),
        (5, (vec![12, 13], 5, 0, [10, 12])),
        (8, (vec![11, 13], 8, 0, [12, 14])),
        (9, (vec![11, 12, 13], 9, 0, [14, 14])),
    ];
    for (count, expected) in cases {
        assert_eq!(told(&tree_a(), &high, count, Way::Unrooted), expected);
    }
}

#[test]
fn agreed_prices_give_the_choice() {
    for tree in outlines() {
        for way in WAYS {
            for count in [9, 40] {
                let sure = sure(&tree, &tree.clone(), count, way);
                assert_eq!(Ok(sure.choice()), tree.choose(count, way).as_ref());
                assert_eq!(sure.floor(), sure.roof());
            }
        }
    }
}

#[test]
fn headings_have_prices_too() {
    let [low, high] = [sound(headed_a(0, 0)), sound(headed_a(0, 2))];
    let expected = (vec![12, 13], 5, 0, [10, 12]);
    assert_eq!(told(&low, &high, 5, Way::Rooted), expected);
    // the root's is paid once
    let [low, high] = [sound(headed_a(1, 2)), sound(headed_a(3, 2))];
    let expected = (vec![13], 5, 1, [5, 10]);
    assert_eq!(told(&low, &high, 6, Way::Rooted), expected);
}

#[test]
fn locked_plates_are_sure() {
    let low = sound(locked_a(0, 0, &[13]));
    let high = with_price(&low, 13, 4);
    let expected = (vec![13], 4, 0, [5, 10]);
    assert_eq!(told(&low, &high, 4, Way::Rooted), expected);
    // at low prices it would fit
    assert!(low.choose(3, Way::Rooted).is_ok());
    for way in WAYS {
        assert_eq!(low.range(&high, 3, way), Err(Refusal::LockedTooDear));
    }
}

#[test]
fn the_widest_prices() {
    for tree in outlines() {
        let free = tree.taxa().all(|taxon| !taxon.locked);
        let [low, high] = [0, MOST_PRICE].map(|price| priced(&tree, |_| price));
        for way in WAYS.into_iter().filter(|_| free) {
            let all: Vec<Record> = low.taxa().collect();
            let roof = diversity(&low, &all, way);
            let expected = (vec![], 0, MOST_COUNT, [0, roof]);
            assert_eq!(told(&low, &high, MOST_COUNT, way), expected);
        }
    }
}

#[test]
fn the_largest_diversities() {
    let taxa = (1..=64).map(|plate| Tree::taxon(plate, 1_000_000, 64));
    let innermost = Tree::group(1_000_000, taxa);
    let groups = (0..62).fold(innermost, |below, _| Tree::group(1_000_000, [below]));
    let low = sound(groups);
    let high = priced(&low, |record| record.price + u32::from(record.plate == 64));
    let sure = sure(&low, &high, MOST_COUNT, Way::Rooted);
    assert_eq!((sure.floor(), sure.roof()), (126_000_000, 127_000_000));
}

#[test]
fn chosen_taxa_have_their_high_prices() {
    let high = with_price(&tree_a(), 13, 4);
    let sure = sure(&tree_a(), &high, 5, Way::Rooted);
    let taxa = sure.choice().taxa().iter();
    let prices: Vec<(u32, u32)> = taxa.map(|taxon| (taxon.plate, taxon.price)).collect();
    assert_eq!(prices, [(12, 1), (13, 4)]);
}

#[test]
fn the_curve_is_that_at_high_prices() {
    let high = with_price(&tree_a(), 11, 4);
    let sure = sure(&tree_a(), &high, 6, Way::Rooted);
    let columns = sure.choice().curve().iter().flatten();
    let columns = columns.map(|column| (column.count, column.diversity, column.cost));
    let expected = [
        (0, 0, 0),
        (1, 5, 1),
        (2, 5, 1),
        (3, 10, 3),
        (4, 10, 3),
        (5, 10, 3),
        (6, 12, 6),
    ];
    assert!(columns.eq(expected));
}

#[test]
fn the_choice_is_that_at_high_prices() {
    for_each_call(1, |low, high, count, way| {
        let sure = sure(low, high, count, way);
        assert_eq!(Ok(sure.choice()), high.choose(count, way).as_ref());
        assert_eq!(sure.floor(), best(high, count, way));
    });
}

#[test]
fn the_roof_is_the_best_at_low_prices() {
    let mut above = 0;
    for_each_call(2, |low, high, count, way| {
        let sure = sure(low, high, count, way);
        assert_eq!(sure.roof(), best(low, count, way));
        above += usize::from(sure.roof() > sure.floor());
    });
    assert!(above > 100, "{above}");
}

#[test]
fn for_all_prices_between_the_sure_set_fits_and_the_best_lies_from_floor_to_roof() {
    let draw = &mut Draw(3);
    // at the floor, between, and at the roof, where these differ; and where they do not
    let (mut met, mut equal) = ([0; 3], 0);
    for_each_call(4, |low, high, count, way| {
        let sure = sure(low, high, count, way);
        let marks = sure.choice().marks();
        let [one, two] = [0; 2].map(|_| between(low, high, draw));
        for agreed in [low, &one, &two, high] {
            let mut marked = agreed.records().zip(marks);
            assert!(marked.all(|(record, mark)| !record.locked || *mark == 1));
            let sheet = agreed.sheet(marks, way).unwrap();
            assert!(sheet.quarters() + sure.choice().spare() <= count);
            assert_eq!(sheet.diversity(), sure.floor());
            let best = best(agreed, count, way);
            assert!(sure.floor() <= best && best <= sure.roof());
            if sure.floor() < sure.roof() {
                met[usize::from(best > sure.floor()) + usize::from(best == sure.roof())] += 1;
            } else {
                equal += 1;
            }
        }
    });
    let least = met.iter().chain([&equal]).min();
    assert!(least >= Some(&100), "{met:?} {equal}");
}

#[test]
fn once_prices_are_agreed_another_set_may_be_better_and_lack_what_was_sure() {
    let (mut better, mut lacking) = (0, 0);
    for_each_call(5, |low, high, count, way| {
        let sure = sure(low, high, count, way);
        let then = low.choose(count, way).unwrap();
        better += usize::from(then.diversity() > sure.floor());
        let then = plates(&then);
        let lacks = plates(sure.choice())
            .iter()
            .any(|plate| !then.contains(plate));
        lacking += usize::from(lacks);
    });
    assert!(better > 100 && lacking > 50, "{better} {lacking}");
}

#[test]
fn memory_used_again_changes_nothing() {
    let draw = &mut Draw(6);
    let mut work = Work::new();
    for count in [30, 300, 20, 40] {
        for low in outlines() {
            let high = dearer(&low, draw);
            for way in WAYS {
                let again = low.range_in(&high, count, way, &mut work);
                assert_eq!(again, low.range(&high, count, way));
                let again = choose_in(&low, count, way, &mut work);
                assert_eq!(again, low.choose(count, way));
            }
        }
        let high = with_price(&tree_a(), 11, 4);
        let refused = tree_a().range_in(&high, MOST_COUNT + 1, Way::Rooted, &mut work);
        assert_eq!(refused, Err(Refusal::CountTooLarge));
        let refused = high.range_in(&tree_a(), count, Way::Rooted, &mut work);
        assert_eq!(refused, Err(Refusal::BadRange { record: Some(3) }));
    }
}

#[test]
fn threads_share_the_outlines() {
    let low = sound(star(&[(4, 1); 64]));
    let high = priced(&low, |record| 2 * record.price);
    let all = || (0..=64).map(|count| told(&low, &high, count, Way::Rooted));
    let expected: Vec<Told> = all().collect();
    assert_eq!(expected[7], (vec![1, 2, 3], 6, 1, [12, 28]));
    thread::scope(|scope| {
        for _ in 0..8 {
            scope.spawn(|| assert!(all().eq(expected.iter().cloned())));
        }
    });
}

#[test]
fn the_deepest_outline_needs_little_stack() {
    let low = sound(chain(MOST_RECORDS));
    let high = with_price(&low, 1, 9);
    let run = move || WAYS.map(|way| told(&low, &high, MOST_COUNT, way));
    let small = thread::Builder::new().stack_size(64 * 1024);
    let told = small.spawn(run).unwrap().join().unwrap();
    let rooted = (vec![1], 9, MOST_COUNT - 9, [127, 127]);
    assert_eq!(told, [rooted, (vec![], 0, MOST_COUNT, [0, 0])]);
}

fn bad_range(record: u32) -> Result<SureChoice, Refusal> {
    let record = Some(record);
    Err(Refusal::BadRange { record })
}

#[test]
fn outlines_of_other_sizes_are_refused() {
    let all = outlines();
    let mut refused = 0;
    for low in &all {
        for high in &all {
            if low.records().len() != high.records().len() {
                for way in WAYS {
                    let range = low.range(high, 40, way);
                    assert_eq!(range, Err(Refusal::BadRange { record: None }));
                    refused += 1;
                }
            }
        }
    }
    assert!(refused > 50, "{refused}");
}

#[test]
fn every_bit_outside_the_price_is_compared() {
    let given = fields_of(&sound(locked_a(1, 2, &[13])));
    let lengths = (0..19).map(|bit| (2, 1 << bit));
    let plates = (4..32).map(|bit| (4, 1 << bit));
    for (field, flipped) in lengths.chain(plates) {
        for record in 1..=5 {
            let is_group = record < 3;
            if field == 4 && is_group {
                continue;
            }
            let mut other = given.clone();
            other[record - 1][field] ^= flipped;
            for way in WAYS {
                let [low, high] = [&given, &other].map(|records| outline(records));
                assert_eq!(low.range(&high, 40, way), bad_range(record as u32));
                assert_eq!(high.range(&low, 40, way), bad_range(record as u32));
            }
        }
    }
}

#[test]
fn links_are_compared() {
    let mut other_next = INTERLEAVED;
    (other_next[3][0], other_next[4][0]) = (7, 6);
    let mut other_first = INTERLEAVED;
    (other_first[1][1], other_first[2][1]) = (5, 4);
    for (other, record) in [(other_next, 4), (other_first, 2)] {
        let [low, high] = [outline(&INTERLEAVED), outline(&other)];
        assert_eq!(low.range(&high, 40, Way::Rooted), bad_range(record));
        assert_eq!(high.range(&low, 40, Way::Rooted), bad_range(record));
    }
    // the same tree with its members in another order is refused too
    let [one, other] = ["((11:4,12:2):3,13:5);", "((12:2,11:4):3,13:5);"]
        .map(|text| Outline::from_newick(text, [(11, 3), (12, 1), (13, 2)]).unwrap());
    assert!(one.is_same_tree(&other));
    assert_eq!(one.range(&other, 5, Way::Rooted), bad_range(3));
    // and their house forms are not, whatever the prices
    let dearer = with_price(&other, 11, 4).house_form();
    let expected = (vec![12, 13], 3, 2, [10, 12]);
    assert_eq!(told(&one.house_form(), &dearer, 5, Way::Rooted), expected);
}

#[test]
fn low_prices_above_the_high_ones_are_refused() {
    for tree in outlines() {
        let records = tree.records().len();
        for number in (1..=records as u32).step_by(1 + records / 16) {
            let at =
                |price: u32| priced(&tree, |r| if r.number == number { price } else { r.price });
            let prices = [
                [1, 0],
                [256, 255],
                [65_535, 0],
                [65_535, 65_534],
                [512, 258],
            ];
            for [low, high] in prices.map(|prices| prices.map(at)) {
                assert_eq!(low.range(&high, 40, Way::Rooted), bad_range(number));
                let turned = high.range(&low, 40, Way::Rooted);
                assert!(!matches!(turned, Err(Refusal::BadRange { .. })));
            }
        }
    }
}

/// The first record in which two outlines differ as they may not.
fn fault(low: &Outline, high: &Outline) -> Option<u32> {
    let differs = |(low, high): &(Record, Record)| {
        let price = high.price;
        low.price > price || Record { price, ..*low } != *high
    };
    let mut records = low.records().zip(high.records());
    records.find(differs).map(|(record, _)| record.number)
}

#[test]
fn the_lowest_record_is_told() {
    let draw = &mut Draw(7);
    let (mut sound, mut refused) = (0, [0; 4]);
    for [low, high] in pairs(&mut Draw(8)).into_iter().cycle().take(2_000) {
        let mut records = fields_of(&high);
        let mut kinds = [false; 4];
        for _ in 0..draw.below(4) {
            let record = draw.below(records.len() as u32) as usize;
            let kind = draw.below(if records[record][1] == 0 { 4 } else { 2 }) as usize;
            match kind {
                0 => records[record][2] += 1,
                1 => records[record][3] = draw.below(4),
                2 => records[record][4] ^= LOCK,
                _ => records[record][4] += 1 << 20,
            }
            kinds[kind] = true;
        }
        let high = outline(&records);
        let range = low.range(&high, 40, WAYS[draw.below(2) as usize]);
        match fault(&low, &high) {
            None => sound += usize::from(range.is_ok()),
            Some(record) => {
                assert_eq!(range, bad_range(record));
                let met = refused.iter_mut().zip(kinds);
                met.for_each(|(times, kind)| *times += usize::from(kind));
            }
        }
    }
    assert!(sound > 300, "{sound}");
    assert!(refused.iter().all(|&times| times > 300), "{refused:?}");
}

#[test]
fn counts_are_refused_as_by_choosing_at_high_prices() {
    let mut dear = [0; 2];
    for [low, high] in pairs(&mut Draw(9)) {
        for count in (0..12).chain([MOST_COUNT + 1, 65_536, u32::MAX]) {
            for way in WAYS {
                let refused = high.choose(count, way).err();
                assert_eq!(low.range(&high, count, way).err(), refused);
                if refused == Some(Refusal::LockedTooDear) {
                    dear[usize::from(low.choose(count, way).is_ok())] += 1;
                }
            }
        }
    }
    assert!(dear.iter().all(|&times| times > 20), "{dear:?}");
}

#[test]
fn bad_ranges_come_before_counts() {
    let locked = sound(locked_a(0, 0, &[13]));
    let cheaper = with_price(&locked, 13, 1);
    for way in WAYS {
        for count in [0, MOST_COUNT + 1, u32::MAX] {
            assert_eq!(locked.range(&cheaper, count, way), bad_range(5));
            let sizes = locked.range(&sound(star(&[(1, 1)])), count, way);
            assert_eq!(sizes, Err(Refusal::BadRange { record: None }));
        }
    }
}

impl Buffers {
    /// The answer, and the roof.
    fn range(&mut self, low: &[u8], high: &[u8], count: u32, way: u32) -> ([u32; 6], u32) {
        let given = [low, high].map(<[u8]>::to_vec);
        let (mut answer, mut roof) = ([0xa5a5_a5a5; 6], 0x5a5a_5a5a);
        // SAFETY: each pointer and the length after it are those of one slice or vector, answer has
        // six numbers and roof is one, and no two overlap but low and high, which may.
        let number = unsafe {
            sys::plates_range(
                low.as_ptr(),
                low.len(),
                high.as_ptr(),
                high.len(),
                count,
                way,
                self.marks.as_mut_ptr(),
                self.marks.len(),
                self.curve.as_mut_ptr(),
                self.curve.len(),
                self.work.as_mut_ptr(),
                self.work.len(),
                answer.as_mut_ptr(),
                &mut roof,
            )
        };
        assert_eq!(number, answer[0]);
        assert_eq!([low, high], given);
        (answer, roof)
    }
}

/// Number and place of a call that is refused, which leaves its buffers as they were and gives no
/// other numbers.
fn refused([low, high]: [&[u8]; 2], count: u32, way: u32, mut buffers: Buffers) -> [u32; 2] {
    let ([number, place, rest @ ..], roof) = buffers.range(low, high, count, way);
    assert_ne!(number, 0);
    assert_eq!((rest, roof), ([0; 4], 0));
    assert!(buffers.is_untouched());
    [number, place]
}

/// Tree A, and with plate 11 for 4.
fn bytes_a() -> [Vec<u8>; 2] {
    [bytes(&TREE_A), bytes(&changed(3, 3, 4))]
}

#[test]
fn numbers_are_given_as_c_callers_get_them() {
    let [low, high] = bytes_a();
    let mut buffers = room(5, 5, 0);
    let told = buffers.range(&low, &high, 5, 0);
    assert_eq!(told, ([0, 0, 10, 3, 2, 2], 12));
    assert_eq!(buffers.marks, [0, 0, 0, 1, 1]);
    assert_eq!(buffers.curve, [0, 0, 5, 1, 5, 1, 10, 3, 10, 3, 10, 3]);
    assert_eq!(buffers.work, [0; 168]);

    let mut buffers = room(5, 6, 0);
    let told = buffers.range(&low, &high, 6, 1);
    assert_eq!(told, ([0, 0, 12, 6, 2, 0], 14));
    assert_eq!(buffers.marks, [0, 0, 1, 0, 1]);
    let columns = [0, 0, 0, 0, 0, 0, 10, 3, 10, 3, 10, 3, 12, 6];
    assert_eq!(buffers.curve, columns);
    assert_eq!(buffers.work, [0; 196]);
}

#[test]
fn both_outlines_may_be_the_same_memory() {
    for tree in outlines() {
        for way in [0, 1] {
            let mut buffers = room(tree.records().len(), 20, 0);
            let mut expected = buffers.clone();
            let (answer, roof) = buffers.range(tree.as_bytes(), tree.as_bytes(), 20, way);
            let chosen = expected.choose(tree.as_bytes(), 20, way);
            assert_eq!((answer, roof), (chosen, chosen[2]));
            assert_eq!(buffers, expected);
        }
    }
    // side by side in one vector
    let pair = bytes_a().concat();
    let (low, high) = pair.split_at(80);
    assert_eq!(room(5, 5, 0).range(low, high, 5, 0).1, 12);
}

#[test]
fn buffers_end_as_a_choice_at_high_prices_leaves_them() {
    for_each_call(10, |low, high, count, way| {
        let way = way as u32;
        for more in [0, 7] {
            let mut buffers = room(high.records().len(), count, more);
            let mut expected = buffers.clone();
            let (answer, _) = buffers.range(low.as_bytes(), high.as_bytes(), count, way);
            let chosen = expected.choose(high.as_bytes(), count, way);
            assert_eq!((answer, buffers), (chosen, expected));
        }
    });
}

#[test]
fn what_stands_in_the_buffers_makes_no_difference() {
    let [low, high] = bytes_a();
    for before in [0, 1, u64::MAX] {
        let mut buffers = room(5, 5, 0);
        buffers.marks.fill(before as u8);
        buffers.curve.fill(before as u32);
        buffers.work.fill(before);
        let told = buffers.range(&low, &high, 5, 0);
        assert_eq!(told, ([0, 0, 10, 3, 2, 2], 12));
        assert_eq!(buffers.marks, [0, 0, 0, 1, 1]);
        assert_eq!(buffers.curve, [0, 0, 5, 1, 5, 1, 10, 3, 10, 3, 10, 3]);
        assert_eq!(buffers.work, [0; 168]);
    }
}

#[test]
fn longer_buffers_keep_the_rest() {
    let [low, high] = bytes_a();
    for more in [1, 100] {
        let mut buffers = room(5, 5, more);
        let told = buffers.range(&low, &high, 5, 0);
        assert_eq!(told, ([0, 0, 10, 3, 2, 2], 12));
        let rest = Buffers {
            marks: buffers.marks.split_off(5),
            curve: buffers.curve.split_off(12),
            work: buffers.work.split_off(168),
        };
        assert_eq!(rest, Buffers::new(more, more, more));
        assert_eq!(buffers.marks, [0, 0, 0, 1, 1]);
    }
}

#[test]
fn buffers_too_short_are_refused_and_untouched() {
    let [low, high] = bytes_a();
    let pair = [&low[..], &high];
    let (marks, curve, work) = (sys::marks_len(5), sys::curve_len(5), sys::work_len(5, 5));
    let short = [
        (marks - 1, curve, work),
        (marks, curve - 1, work),
        (marks, curve, work - 1),
        (0, 0, 0),
    ];
    for (marks, curve, work) in short {
        for way in [0, 1] {
            let buffers = Buffers::new(marks, curve, work);
            assert_eq!(refused(pair, 5, way, buffers), [9, 0]);
        }
    }
    let mut buffers = Buffers::new(marks, curve, work);
    assert_eq!(buffers.range(&low, &high, 5, 0).0[0], 0);
}

#[test]
fn outlines_are_refused_as_by_the_check_and_the_low_one_first() {
    let given = bytes(&TREE_A);
    let all = faulty().map(|(outline, refusal)| {
        let expected = [refusal.number(), refusal.place().unwrap_or(0)];
        (outline, expected)
    });
    for (outline, expected) in &all {
        for count in [3, MOST_COUNT + 1] {
            for more in [0, 200] {
                let refused = |pair| refused(pair, count, 1, room(0, 3, more));
                assert_eq!(refused([outline, &given]), *expected);
                assert_eq!(refused([&given, outline]), *expected);
                for (other, _) in &all {
                    assert_eq!(refused([outline, other]), *expected);
                }
            }
        }
    }
}

/// Tree A with this price and plate field of its last taxon.
fn with_last(price: u32, plate_field: u32) -> Vec<u8> {
    let mut records = TREE_A;
    records[4][3..].copy_from_slice(&[price, plate_field]);
    bytes(&records)
}

#[test]
fn ways_come_first_and_then_the_check_of_each_outline() {
    // each has wrong what is judged later, too
    let mut records = star_records(65);
    records[65] = [1, 0, 1, 1, 1];
    let broken = bytes(&records);
    records[64][3] = 65_536;
    let out_of_range = bytes(&records);
    let mut twins = star_records(65);
    twins[65][4] = 1;
    let faults = [
        (out_of_range.repeat(2)[1..].to_vec(), [2, 0]),
        (out_of_range.repeat(2), [3, 0]),
        (out_of_range, [5, 65]),
        (broken, [6, 66]),
        (bytes(&twins), [7, 0]),
        (bytes(&changed(4, 4, LOCK | 11)), [8, 4]),
    ];
    let locked = with_last(2, LOCK | 13);
    for (fault, expected) in &faults {
        for pair in [[fault, &locked], [&locked, fault]] {
            let pair = pair.map(|outline| &outline[..]);
            let judged = |way| refused(pair, 4_097, way, Buffers::new(0, 0, 0));
            assert_eq!([judged(2), judged(1)], [[1, 0], *expected]);
        }
    }
}

#[test]
fn after_the_check_come_the_range_the_count_the_buffers_and_the_locks() {
    let buffers = || [Buffers::new(0, 0, 0), room(5, 3, 0)];
    let low = with_last(2, LOCK | 13);
    let judged = |high: &[u8], count| buffers().map(|lent| refused([&low, high], count, 1, lent));
    let [unlocked, cheaper] = [with_last(2, 13), with_last(1, LOCK | 13)];
    let one = bytes(&[[0, 0, 1, 1, 1]]);
    for (high, place) in [(unlocked, 5), (cheaper, 5), (one, 0)] {
        for count in [4_097, 0] {
            assert_eq!(judged(&high, count), [[17, place]; 2]);
        }
    }
    let high = with_last(4, LOCK | 13);
    assert_eq!(judged(&high, 4_097), [[4, 0]; 2]);
    assert_eq!(judged(&high, 3), [[9, 0], [12, 0]]);
    let told = room(5, 4, 0).range(&low, &high, 4, 0);
    assert_eq!(told, ([0, 0, 5, 4, 1, 0], 10));
}

#[test]
fn the_way_is_0_or_1() {
    let [low, high] = bytes_a();
    for way in [2, 3, 256, u32::MAX] {
        let given = refused([&low, &high], 5, way, room(5, 5, 0));
        assert_eq!(given, [1, 0]);
    }
}
