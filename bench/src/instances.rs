//! The outlines that are measured: shapes with branch lengths and prices drawn from a fixed seed, and case G.

use plates_scale::headings;
use plates_scale::outline::{groups, members, Record};
use plates_scale::random::Random;
use plates_scale::shapes;

/// The largest count that document 01 allows.
pub const COUNT: u32 = 4_096;
/// Sums of 127 lengths keep within the six digits that IQ-TREE prints.
const LONGEST: u32 = 1_000;

pub const TAXA: usize = 64;
pub const LEVELS: u32 = 6;
/// 64 prices of 1 to 127 come to about 4,096.
const DEAREST: u32 = 127;
const DEAREST_HEADING: u32 = 31;

pub struct Instance {
    pub name: String,
    pub records: Vec<Record>,
    pub count: u32,
}

/// Every shape at 64 taxa, as the main table lists them.
pub fn shapes_at_full_size() -> Vec<Instance> {
    let mut list: Vec<Instance> = (1..=3)
        .map(|seed| drawn(&format!("random {seed}"), random(TAXA, seed), seed, DEAREST))
        .collect();
    list.push(drawn("random 1, dear", random(TAXA, 1), 4, 2 * DEAREST + 1));
    let headings = drawn("random 1, headings", random(TAXA, 1), 1, DEAREST);
    list.push(with_headings(headings, 9));
    list.push(drawn("balanced", shapes::balanced(LEVELS), 5, DEAREST));
    list.push(case_g());
    let caterpillar = shapes::caterpillar_taxon_first(TAXA);
    list.push(drawn("caterpillar, taxon first", caterpillar, 6, DEAREST));
    let caterpillar = shapes::caterpillar_group_first(TAXA);
    list.push(drawn("caterpillar, group first", caterpillar, 7, DEAREST));
    list.push(drawn("star", shapes::star(TAXA), 8, DEAREST));
    list
}

/// The same with a fourth of the prices: all taxa together fit the count.
pub fn shapes_that_fit() -> Vec<Instance> {
    let mut list = shapes_at_full_size();
    for instance in &mut list {
        instance.name += ", all fit";
        for record in &mut instance.records {
            record.price /= 4;
        }
    }
    list
}

/// Balanced and random trees of 8, 16, 32 and 64 taxa; fewer taxa are dearer, so that all of them cost about as much.
pub fn sizes() -> Vec<Instance> {
    let mut list = Vec::new();
    for levels in 3..=LEVELS {
        let taxa = 1 << levels;
        let dearest = (DEAREST + 1) * (TAXA / taxa) as u32 - 1;
        list.push(drawn("balanced", shapes::balanced(levels), 5, dearest));
        list.push(drawn("random", random(taxa, 1), 1, dearest));
    }
    list
}

pub fn random(taxa: usize, seed: u64) -> Vec<Record> {
    shapes::random_tree(taxa, &mut Random::new(seed))
}

/// Numbers are drawn until not every taxon fits the largest count: the budget then is tight at every count.
fn drawn(name: &str, mut records: Vec<Record>, seed: u64, dearest: u32) -> Instance {
    let random = &mut Random::new(seed);
    let total = |records: &[Record]| records.iter().map(|record| record.price).sum::<u32>();
    while total(&records) <= COUNT {
        let length = |random: &mut Random| random.up_to(LONGEST);
        let price = |random: &mut Random| 1 + random.up_to(dearest - 1);
        shapes::fill(&mut records, random, length, price);
    }
    Instance {
        name: name.to_string(),
        records,
        count: COUNT,
    }
}

/// Numbers for a text or a sheet, where no budget has to be tight: a taxon may be free.
pub fn filled(mut records: Vec<Record>, random: &mut Random) -> Vec<Record> {
    let length = |random: &mut Random| random.up_to(LONGEST);
    shapes::fill(&mut records, random, length, |random| random.up_to(DEAREST));
    records
}

/// Gives every group a price of 1 to the dearest.
pub fn fill_headings(records: &mut [Record], random: &mut Random) {
    let price = |random: &mut Random| 1 + random.up_to(DEAREST_HEADING - 1);
    headings::fill(records, random, price);
}

fn with_headings(mut instance: Instance, seed: u64) -> Instance {
    fill_headings(&mut instance.records, &mut Random::new(seed));
    instance
}

/// Document 01's case G: six levels of pairs, every length 1, every price 64, count 4,095.
fn case_g() -> Instance {
    let mut records = shapes::balanced(LEVELS);
    shapes::fill(&mut records, &mut Random::new(0), |_| 1, |_| 64);
    Instance {
        name: "balanced, case G".to_string(),
        records,
        count: COUNT - 1,
    }
}

/// The same tree with its members in another order, and with its records numbered in any order in which links go to later ones.
pub fn shuffled(records: &[Record], random: &mut Random) -> Vec<Record> {
    let mut linked = records.to_vec();
    for group in groups(records) {
        let mut chain = members(records, group);
        random.shuffle(&mut chain);
        link(&mut linked, group, &chain);
    }
    renumbered(&linked, random)
}

/// Makes a chain of the members, given by their positions.
fn link(records: &mut [Record], group: usize, chain: &[usize]) {
    let mut next = 0;
    for &member in chain.iter().rev() {
        records[member].next = next;
        next = member as u16 + 1;
    }
    records[group].first = next;
}

fn renumbered(records: &[Record], random: &mut Random) -> Vec<Record> {
    // The new numbers by the old ones; 0 is no record.
    let mut numbers = vec![0; records.len() + 1];
    let mut order = Vec::with_capacity(records.len());
    let mut ready = vec![1];
    while !ready.is_empty() {
        let number = usize::from(ready.swap_remove(random.index(ready.len())));
        let record = records[number - 1];
        order.push(record);
        numbers[number] = order.len() as u16;
        let links = [record.next, record.first];
        ready.extend(links.into_iter().filter(|&link| link != 0));
    }
    for record in &mut order {
        record.next = numbers[usize::from(record.next)];
        record.first = numbers[usize::from(record.first)];
    }
    order
}
