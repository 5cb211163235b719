//! Pairs of accepted outlines that agree except in prices and locks, and what the readers get of both: a buyer's the same bytes,
//! and the house's what differs (document 02, §7).

use crate::call::extra;
use crate::compare::{self, differing, Comparison};
use crate::frame::Frame;
use crate::library::{ViewBuffers, Viewer};
use crate::outline::{bytes, groups, is_preorder, taxa, Record, LOCK};
use crate::random::Random;
use crate::runs::{full_outline, larger_outline, small_outline};
use crate::shapes;
use crate::view::{self, Reader, ViewCall, ViewExpected};

#[derive(Clone, Debug, PartialEq, Eq)]
pub struct Pair {
    pub one: Vec<Record>,
    pub other: Vec<Record>,
}

/// A call and what its comparison came to.
pub type Compared = (ViewCall, Comparison);

impl Pair {
    pub fn random(rng: &mut Random) -> Self {
        let one = sound_outline(rng);
        let mut other = one.clone();
        let draw = rng.pick(&DRAWINGS);
        draw(&mut other, rng);
        Pair { one, other }
    }

    /// What a buyer's reader gets of the one is expected of the other, in a view of another length and filled otherwise. In a view
    /// that is filled alike the whole of it is.
    pub fn to_buyer(&self, viewer: Viewer, rng: &mut Random) -> [Compared; 3] {
        let [one, other] = self.calls(Reader::Buyer, rng);
        let mut alike = other.clone();
        alike.view = one.view;
        let first = viewer(one.reader, ViewBuffers::random(&one, rng));
        let second = viewer(other.reader, ViewBuffers::random(&other, rng));
        let filled_alike = ViewBuffers {
            outline: Frame::holding(&alike.outline, rng),
            ..first.before.clone()
        };
        let third = viewer(alike.reader, filled_alike);
        let whole = first.after.view.content();
        let given = ViewExpected::shown(&whole[..one.outline.len()]);
        let compared = [
            compare::view(&view::expected(&one), &first),
            compare::view(&given, &second),
            compare::view(&ViewExpected::shown(whole), &third),
        ];
        let [first, second, third] = compared;
        [(one, first), (other, second), (alike, third)]
    }

    /// A house reader gets both as they are, so the views differ where the outlines do.
    pub fn to_house(&self, viewer: Viewer, rng: &mut Random) -> [Compared; 2] {
        let [one, other] = self.calls(Reader::House, rng);
        let first = viewer(one.reader, ViewBuffers::random(&one, rng));
        let second = viewer(other.reader, ViewBuffers::random(&other, rng));
        let views = [&first, &second].map(|observed| observed.after.view.content());
        let views = views.map(|view| &view[..one.outline.len()]);
        let parted = compare::shown_to_house([&one.outline, &other.outline], views);
        let mut compared = [(&one, &first), (&other, &second)]
            .map(|(call, observed)| compare::view(&view::expected(call), observed));
        compared[1].differences.extend(parted);
        let [first, second] = compared;
        [(one, first), (other, second)]
    }

    /// Both outlines in views of different lengths that are enough.
    fn calls(&self, reader: Reader, rng: &mut Random) -> [ViewCall; 2] {
        let outlines = [bytes(&self.one), bytes(&self.other)];
        let enough = outlines[0].len() + extra(rng);
        let mut lengths = [enough, enough + 1 + rng.index(20)];
        rng.shuffle(&mut lengths);
        let mut lengths = lengths.into_iter();
        outlines.map(|outline| ViewCall {
            outline,
            reader,
            view: lengths.next().expect("a length for each"),
        })
    }

    /// How many prices of taxa, prices of headings and locks are different.
    fn changed(&self) -> (usize, usize, usize) {
        let count = |holds: fn(&Record, &Record) -> bool| {
            let pairs = self.one.iter().zip(&self.other);
            pairs.filter(|(one, other)| holds(one, other)).count()
        };
        (
            count(|one, other| one.is_taxon() && one.price != other.price),
            count(|one, other| !one.is_taxon() && one.price != other.price),
            count(|one, other| one.is_locked() != other.is_locked()),
        )
    }

    /// Whether the record at this position is different, and no other.
    fn changed_only_at(&self, at: usize) -> bool {
        let differs = |position: &usize| self.one[*position] != self.other[*position];
        (0..self.one.len()).filter(differs).eq([at])
    }

    fn last(&self) -> usize {
        self.one.len() - 1
    }
}

/// A name, and what holds where it is right.
pub type Kind<T> = (&'static str, fn(&T) -> bool);

/// What the pairs are to differ in now and then.
pub const CHANGES: [Kind<Pair>; 14] = [
    ("one taxon's price", |p| p.changed() == (1, 0, 0)),
    ("one heading's price", |p| p.changed() == (0, 1, 0)),
    ("one lock", |p| p.changed() == (0, 0, 1)),
    ("the root's price", |p| p.last() > 0 && p.changed_only_at(0)),
    ("the last record", |p| {
        p.last() > 0 && p.changed_only_at(p.last())
    }),
    ("one byte", |p| {
        differing([&bytes(&p.one), &bytes(&p.other)]).len() == 1
    }),
    ("prices of taxa", |p| matches!(p.changed(), (2.., 0, 0))),
    ("prices of headings", |p| matches!(p.changed(), (0, 2.., 0))),
    ("locks", |p| matches!(p.changed(), (0, 0, 2..))),
    ("prices of both and locks", |p| {
        matches!(p.changed(), (1.., 1.., 1..))
    }),
    ("every price", |p| {
        let (of_taxa, of_headings, _) = p.changed();
        of_taxa + of_headings == p.one.len()
    }),
    ("every lock", |p| p.changed().2 == taxa(&p.one).len()),
    ("a price by as much as can be", |p| {
        let mut pairs = p.one.iter().zip(&p.other);
        pairs.any(|(one, other)| one.price.abs_diff(other.price) == 65_535)
    }),
    ("nothing", |p| p.one == p.other),
];

/// What the outlines of a pair are to be now and then.
pub const KINDS: [Kind<Pair>; 5] = [
    ("one record", |p| p.last() == 0),
    ("127 records", |p| p.one.len() == 127),
    ("64 taxa", |p| taxa(&p.one).len() == 64),
    ("records in text order", |p| is_preorder(&p.one)),
    ("records in another order", |p| !is_preorder(&p.one)),
];

/// An outline that is accepted: mostly small, at times with headings and locks.
pub fn sound_outline(rng: &mut Random) -> Vec<Record> {
    match rng.below(8) {
        0 => larger_outline(rng).0,
        1 => {
            let turn = rng.below(840);
            full_outline(turn, rng).0
        }
        _ => small_outline(rng).0,
    }
}

/// What is drawn anew.
type Drawing = fn(&mut [Record], &mut Random);

const DRAWINGS: [Drawing; 10] = [
    |records, rng| {
        let taxon = rng.pick(&taxa(records));
        records[taxon].price = another_price(records[taxon].price, rng);
    },
    |records, rng| {
        let record = rng.pick(&[0, records.len() - 1]);
        records[record].price = another_price(records[record].price, rng);
    },
    |records, rng| {
        let groups = groups(records);
        if !groups.is_empty() {
            let group = rng.pick(&groups);
            records[group].price = another_price(records[group].price, rng);
        }
    },
    |records, rng| {
        let taxon = rng.pick(&taxa(records));
        records[taxon].plate ^= LOCK;
    },
    |records, rng| draw_prices(records, Record::is_taxon, rng),
    |records, rng| draw_prices(records, |record| !record.is_taxon(), rng),
    |records, rng| draw_prices(records, |_| true, rng),
    draw_locks,
    |records, rng| {
        draw_prices(records, |_| true, rng);
        draw_locks(records, rng);
    },
    |records, rng| {
        for record in records {
            record.price = another_price(record.price, rng);
            if record.is_taxon() {
                record.plate ^= LOCK;
            }
        }
    },
];

/// Any price but this one, at times with one bit changed.
pub(crate) fn another_price(price: u32, rng: &mut Random) -> u32 {
    match rng.below(4) {
        0 => price ^ 1 << rng.below(16),
        1 => 65_535 - price,
        2 if price > 0 => 0,
        _ => (price + 1 + rng.up_to(65_534)) % 65_536,
    }
}

fn draw_prices(records: &mut [Record], of: fn(&Record) -> bool, rng: &mut Random) {
    for record in records.iter_mut().filter(|record| of(record)) {
        let any = rng.up_to(65_535);
        record.price = rng.pick(&[0, 1, 255, 256, 65_535, any, any]);
    }
}

fn draw_locks(records: &mut [Record], rng: &mut Random) {
    for taxon in taxa(records) {
        records[taxon].plate ^= rng.pick(&[0, LOCK]);
    }
}

/// Every shape of up to so many records beside itself with prices at any of its records and locks at any of its taxa.
pub fn every_small(most: usize, rng: &mut Random) -> Vec<Pair> {
    let shapes = (1..=most).flat_map(shapes::every_outline);
    shapes
        .flat_map(|shape| beside_itself(&shape, rng))
        .collect()
}

fn beside_itself(shape: &[Record], rng: &mut Random) -> Vec<Pair> {
    let taxa = taxa(shape);
    let filled = |set: u32| {
        let mut other = shape.to_vec();
        for (at, record) in other.iter_mut().enumerate() {
            record.price = (1 + rng.up_to(65_534)) * (set >> at & 1);
        }
        for (at, &taxon) in taxa.iter().enumerate() {
            other[taxon].plate |= (set >> (shape.len() + at) & 1) << 31;
        }
        other
    };
    let others = (0..1 << (shape.len() + taxa.len())).map(filled);
    let pair = |other| Pair {
        one: shape.to_vec(),
        other,
    };
    others.map(pair).collect()
}

#[cfg(test)]
mod tests {
    use super::*;
    use crate::rules;
    use crate::wrong_views::{right, with, OTHERS, TELLING};

    /// Whether they are accepted and differ in nothing but prices and bit 31 of plates.
    fn agree(pair: &Pair) -> bool {
        let rest = |records: &[Record]| -> Vec<[u32; 4]> {
            let of = |record: &Record| {
                let plate = record.plate_number();
                [
                    record.next.into(),
                    record.first.into(),
                    record.length,
                    plate,
                ]
            };
            records.iter().map(of).collect()
        };
        let outlines = [&pair.one, &pair.other];
        let accepted = outlines.map(|records| rules::check(&bytes(records)).is_none());
        accepted == [true; 2] && rest(&pair.one) == rest(&pair.other)
    }

    fn random_pairs(pairs: usize, seed: u64) -> Vec<Pair> {
        let rng = &mut Random::new(seed);
        (0..pairs).map(|_| Pair::random(rng)).collect()
    }

    #[test]
    fn random_pairs_agree_and_are_of_every_kind() {
        let pairs = random_pairs(4_000, 1);
        assert!(pairs.iter().all(agree));
        for (name, holds) in CHANGES.iter().chain(&KINDS) {
            let times = pairs.iter().filter(|pair| holds(pair)).count();
            assert!((20..3_000).contains(&times), "{name}: {times}");
        }
    }

    #[test]
    fn small_shapes_stand_beside_every_filling() {
        let pairs = every_small(4, &mut Random::new(2));
        assert!(pairs.iter().all(agree));
        // One record with a price or not and locked or not; a group and its taxon; three records with one taxon and with two; and
        // of the six shapes of four records one has one taxon, four have two and one has three.
        let times = 4 + 8 + (16 + 32) + (32 + 4 * 64 + 128);
        assert_eq!(pairs.len(), times);
        let changed = |wanted| pairs.iter().filter(|pair| pair.changed() == wanted).count();
        assert_eq!((changed((0, 0, 0)), changed((3, 1, 3))), (10, 1));
    }

    #[test]
    fn another_price_is_in_range_and_another() {
        let rng = &mut Random::new(3);
        for _ in 0..1_000 {
            let price = rng.pick(&[0, 1, 32_768, 65_535]);
            let other = another_price(price, rng);
            assert!(other != price && other <= 65_535, "{price}, {other}");
        }
    }

    #[test]
    fn views_of_a_pair_are_different_in_length_and_enough() {
        let rng = &mut Random::new(4);
        let mut exact = 0;
        for pair in random_pairs(200, 5) {
            let [one, other] = pair.calls(Reader::Buyer, rng);
            let needed = one.outline.len();
            assert!(one.view != other.view && one.view.min(other.view) >= needed);
            exact += u32::from(one.view.min(other.view) == needed);
        }
        assert!((50..150).contains(&exact), "{exact}");
    }

    #[test]
    fn a_right_program_tells_a_buyer_nothing_and_the_house_all() {
        let rng = &mut Random::new(6);
        for pair in random_pairs(300, 7) {
            let to_buyer = pair.to_buyer(&right, rng).map(|(_, compared)| compared);
            let to_house = pair.to_house(&right, rng).map(|(_, compared)| compared);
            for compared in to_buyer.into_iter().chain(to_house) {
                assert_eq!(compared.differences, [""; 0]);
            }
        }
    }

    /// How many of the pairs show that what a buyer's reader gets is not the same: in views that are filled otherwise, and alike.
    fn noticed(viewer: Viewer, pairs: &[Pair]) -> [usize; 2] {
        let rng = &mut Random::new(8);
        let mut times = [0; 2];
        for pair in pairs {
            let [_, (_, otherwise), (_, alike)] = pair.to_buyer(viewer, rng);
            times[0] += usize::from(!otherwise.differences.is_empty());
            times[1] += usize::from(!alike.differences.is_empty());
        }
        times
    }

    #[test]
    fn a_program_that_tells_a_buyer_of_prices_or_locks_is_noticed_by_pairs_alone() {
        let [random, small] = [random_pairs(400, 9), every_small(3, &mut Random::new(9))];
        for (name, fault) in TELLING {
            for pairs in [&random, &small] {
                let [otherwise, alike] = noticed(&with(fault), pairs);
                assert!(otherwise > 2 && alike > 2, "{name}: {otherwise}, {alike}");
            }
        }
    }

    /// One taxon's price, one heading's, one lock, or the root's price is different.
    #[test]
    fn one_price_or_one_lock_is_enough_to_notice() {
        let pairs = random_pairs(4_000, 10);
        let faults: [&[&str]; 4] = [
            &["every price kept", "a taxon's price kept"],
            &["every price kept", "a heading's price kept"],
            &["the lock kept"],
            &["every price kept", "the root's price kept"],
        ];
        for ((change, holds), faults) in CHANGES.iter().zip(faults) {
            let of_kind: Vec<Pair> = pairs.iter().filter(|pair| holds(pair)).cloned().collect();
            let named = TELLING.iter().filter(|(name, _)| faults.contains(name));
            for (name, fault) in named {
                let times = noticed(&with(*fault), &of_kind);
                assert_eq!(times, [of_kind.len(); 2], "{name}, {change}");
            }
        }
    }

    #[test]
    fn a_program_that_hides_anything_from_the_house_is_noticed() {
        let rng = &mut Random::new(11);
        let hiding = ["no price for the house", "no lock for the house"];
        for (name, fault) in OTHERS.iter().filter(|(name, _)| hiding.contains(name)) {
            let mut times = 0;
            for pair in random_pairs(200, 12) {
                let [_, (_, compared)] = pair.to_house(&with(*fault), rng);
                let parted = |text: &String| text.starts_with("house views differ");
                times += usize::from(compared.differences.iter().any(parted));
            }
            assert!(times > 50, "{name}: {times}");
        }
    }
}
