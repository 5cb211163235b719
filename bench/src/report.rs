//! The tables and lines that are printed, in Markdown.

use crate::beside::Pair;
use crate::case::Case;
use crate::glpk;
use crate::listing::{self, Listing};
use crate::one_choice::{self, Beside};
use crate::picking::{self, Picking};
use crate::ranging::{self, Ranging};
use crate::reading::{self, Reading};
use crate::revising::{self, Revising};
use crate::sorting::{self, Sorting};
use crate::times::{digits, microseconds, milliseconds, Times};
use crate::viewing::Viewing;
use crate::writing::{self, Writing};

/// What stands in the table for a peer that has no time.
pub struct Missing {
    pub iqtree: &'static str,
    pub glpk: &'static str,
    pub table: &'static str,
}

const WAYS: [&str; 2] = ["rooted", "unrooted"];

const SIDE_BY_SIDE: &str = "\
Milliseconds for 64 taxa: 127 records (star: 65), count 4,096 (case G: 4,095).

- plates gives the optimum of every count from 0 to the given one, and the set; IQ-TREE and GLPK solve one budget.
- Lengths are random up to 1,000 and prices up to 127 (dear: 255), all taxa together dearer than 4,096. In case G every
  length is 1 and every price 64. \"headings\" is random 1 with a price of 1 to 31 for every group; IQ-TREE has no such prices.
- plates and the clearing of `work` are wall time, called in turn; their ratio is that of the shortest times.
- IQ-TREE's median is of its own figure, to the microsecond: user time of the search alone. Linux may split
  the time of a process into user and system time by what runs at a clock tick, so the figure of a search of 7 ms can be
  anything from 0 to 8. The ratio therefore is that of the medians. As a check, its process: shortest wall time of the
  whole process, less the shortest with budget 0.
- GLPK is the median wall time of a few processes, less that of a program with nothing to decide.
- The two tables are Rust, and find the optimum of every count too. The plain table joins the members of each group over
  every split of every budget, O(N B²). The table of costs goes over the pairs of costs that occur instead: as many at worst,
  but few where prices are alike (case G), and one pass for a single taxon. Medians of a few runs.
- The ratios of GLPK and of the tables are to the median of plates.
";

const BY_COUNT: &str = "\
Shortest times of plates; a column is one count from 0 to the given one. The largest count of case G is 4,095. The last
four are the ratios of the medians of IQ-TREE's own figure and of plates, with a dash where IQ-TREE's is 0 or missing.
";

const READING: &str = "\
Microseconds. The plain reader is Rust and goes over the text once, with a stack of the lists that are open; it gives the same
refusals, and the check of the outline is that of plates. Both are called in turn; the ratio is that of the medians. The first
text has lengths and no blanks, the next two are as long as a text can be, and one list of taxa is given at four lengths. A text
of more than 127 records is refused with 3, after all of it is read.
";

const WRITING: &str = "\
Medians in microseconds. The plain writer is Rust, goes down the links once and drafts text and pairs, then copies them if they
fit; it gives the same refusals, and the check of the outline is that of plates. Both are called in turn; \"times\" says how many
times as long plates takes. The first outline is a random tree; the last is the same with its last record locked, and refused
with 13. The second has pairs of pairs, plates of 9 digits and lengths of 1,000,000: no text is longer. In the caterpillar each
group is a taxon and then the rest: no outline of 64 taxa is deeper.
";

const LISTING: &str = "\
Medians in microseconds. The plain lister is Rust. It goes up from each taxon of the set, in record order, to the first record that
an earlier one has opened, and unrooted also from where the earlier ones meet, so that it passes no record more than twice; it gives
the same refusals, and the check of the outline is that of plates. Both are called in turn; \"times\" says how many times as long
plates takes. All groups have prices. The first outline is a random tree; of its taxa all are marked, every fourth, or none. In the
last set the last mark is 2, and it is refused with 14.
";

const VIEWING: &str = "\
Medians in microseconds. The plain viewer is Rust. It copies the bytes and, for a buyer's reader, goes over them once to clear prices
and locks; it gives the same refusals, but the check of the outline is that of plates, whose time by itself is the last column. All
are called in turn, after their answers and views were compared; \"times\" says how many times as long plates takes. The outlines are
those of the first table. The last view is refused with 9.
";

const PICKING: &str = "\
Microseconds. plates is `plates_quick`. The plain picker is Rust. For each pick it goes over the records once, hands down from the
groups to their members what a choice would add, and takes the best of the taxa that fit; it gives the same refusals, but the check
of the outline is that of plates, whose median by itself is the last column. These are called in turn, after answers, ceilings and
marks were compared. `plates_choose`, rooted and with the same count, is called in rounds of its own, since it clears up to 17 MB.
Ratios are those of the medians. The outlines are those of the first table; with \"all fit\" the prices are a fourth, so that all taxa
together fit the count. \"taxa\" says how many are picked.
";

const SORTING: &str = "\
Medians in microseconds. The plain sorter is Rust and allocates nothing. It goes over the records once from the last to the first, for
the smallest plate at or below each and how many records that are, and once from the first to the last, sorts the members of each
group and writes each record where it comes to stand; it gives the same refusals, but the check of an outline is that of plates, whose
time by itself is the last column. All are called in turn, after their answers, house forms and orders were compared; \"times\" says
how many times as long plates takes. Each outline is compared with another one of its tree, with the members shuffled and the records
numbered anew: both are checked, and every byte of both forms is looked at. Plates are in random order, or in that of the records
(ascending: the outline is its own house form), or in the opposite one. The random trees, the balanced one, the caterpillars and the
star are shaped as in the first table. A star of groups has 64 members under the root too, 62 of them groups of one taxon. The last
calls are refused with 9.
";

const REVISING: &str = "\
Microseconds. revise is `plates_revise`, choose one call of `plates_choose` on the given outline. The plain reviser is what a caller
without `plates_revise` would write: `plates_choose`, a copy of the outline with the new length, `plates_choose` again. All are called
in turn on the same buffers, after answers, movements, marks, curves and work were compared. The outlines are those of the first table,
smaller ones and tree A. The record is by turns a taxon, a group and the root, and its branch by turns about twice and half as long;
at the end random 1 is revised in one of these ways at a time.
";

const RANGING: &str = "\
Microseconds. range is `plates_range`, choose one call of `plates_choose` at high prices. The plain ranger is what a caller without
`plates_range` would write: it compares the outlines and calls `plates_choose` at low prices and then at high ones. All are called in
turn on the same buffers, after answers, roofs, marks, curves and work were compared. The outlines are those of the first table,
smaller ones and tree A, at low prices; the high ones are up to half as much again, those of headings too. At the end random 1 has
other high prices: the same, one that is higher by 1, and twice as much.
";

const BUILDS: &str = "\
Microseconds for `plates_choose`. Both builds are called in turn on the same buffers. The ratios are of this build's times to the
other's. An outline with headings is left out where the other build refuses it.
";

const COUNTS: [&str; 4] = ["64", "256", "1,024", "4,096"];

fn print_table(head: &[String], rows: &[Vec<String>]) {
    println!("| {} |", head.join(" | "));
    println!("|{}", "---|".repeat(head.len()));
    for row in rows {
        println!("| {} |", row.join(" | "));
    }
    println!();
}

fn words<const N: usize>(words: [&str; N]) -> Vec<String> {
    words.map(str::to_string).to_vec()
}

fn way(way: u32) -> String {
    WAYS[way as usize].to_string()
}

fn in_milliseconds(seconds: Option<f64>) -> String {
    seconds.map_or(String::new(), milliseconds)
}

fn ratio(one: Option<f64>, other: Option<f64>) -> String {
    one.zip(other)
        .map_or(String::new(), |(one, other)| digits(one / other))
}

pub fn side_by_side(cases: &[&Case], missing: &Missing) {
    println!("### Times side by side\n\n{SIDE_BY_SIDE}");
    let head = words([
        "shape",
        "way",
        "plates shortest",
        "plates median",
        "clearing",
        "plates / clearing",
        "IQ-TREE median",
        "IQ-TREE / plates",
        "IQ-TREE process",
        "GLPK",
        "GLPK / plates",
        "plain table",
        "plain / plates",
        "table of costs",
        "costs / plates",
    ]);
    let rows: Vec<_> = cases.iter().map(|case| row(case, missing)).collect();
    print_table(&head, &rows);
}

fn row(case: &Case, missing: &Missing) -> Vec<String> {
    let median = case.plates.median();
    let search = &case.iqtree.search;
    let mut row = vec![
        case.name.clone(),
        way(case.way),
        in_milliseconds(case.plates.shortest()),
        in_milliseconds(median),
        in_milliseconds(case.clearing.shortest()),
        ratio(case.plates.shortest(), case.clearing.shortest()),
    ];
    row.push(iqtree_cell(case, missing));
    row.push(ratio(search.median(), median));
    row.push(in_milliseconds(case.iqtree.beyond_empty()));
    row.push(glpk_cell(case, missing));
    row.push(ratio(case.glpk.median(), median));
    for table in [&case.plain, &case.table] {
        row.push(or_missing(table.median(), missing.table));
        row.push(ratio(table.median(), median));
    }
    row
}

fn or_missing(seconds: Option<f64>, missing: &str) -> String {
    seconds.map_or(missing.to_string(), milliseconds)
}

fn iqtree_cell(case: &Case, missing: &Missing) -> String {
    if case.tree.has_headings() {
        return "no headings".to_string();
    }
    or_missing(case.iqtree.search.median(), missing.iqtree)
}

fn glpk_cell(case: &Case, missing: &Missing) -> String {
    if case.glpk_gave_up {
        return format!("> {} s", glpk::LIMIT);
    }
    or_missing(case.glpk.median(), missing.glpk)
}

/// Each group holds the cases of one outline and way by growing count.
pub fn growth_with_count(groups: &[Vec<Case>]) {
    println!("### How the time grows with the count\n\n{BY_COUNT}");
    let mut head = words(["shape", "way"]);
    head.extend(COUNTS.map(|count| format!("{count}: ms")));
    head.extend(COUNTS.map(|count| format!("{count}: µs per column")));
    head.extend(COUNTS.map(|count| format!("{count}: IQ-TREE / plates")));
    let rows: Vec<_> = groups.iter().map(|group| count_row(group)).collect();
    print_table(&head, &rows);
}

fn count_row(group: &[Case]) -> Vec<String> {
    let per_column = |case: &Case| {
        let seconds = case.plates.shortest();
        seconds.map_or(String::new(), |seconds| {
            microseconds(seconds / f64::from(case.count + 1))
        })
    };
    let cases = group.iter();
    let mut row = vec![group[0].name.clone(), way(group[0].way)];
    row.extend(
        cases
            .clone()
            .map(|case| in_milliseconds(case.plates.shortest())),
    );
    row.extend(cases.clone().map(per_column));
    row.extend(cases.map(|case| {
        let search = case.iqtree.search.median().filter(|&seconds| seconds > 0.0);
        search.map_or("-".to_string(), |_| ratio(search, case.plates.median()))
    }));
    row
}

pub fn growth_with_records(cases: &[Case]) {
    println!("### How the time grows with the records\n");
    println!("Shortest times of plates at count 4,096.\n");
    let head = words(["shape", "way", "records", "ms", "µs per record"]);
    let row = |case: &Case| {
        let records = case.tree.records.len();
        let seconds = case.plates.shortest();
        let per_record = seconds.map(|seconds| microseconds(seconds / records as f64));
        vec![
            case.name.clone(),
            way(case.way),
            records.to_string(),
            in_milliseconds(seconds),
            per_record.unwrap_or_default(),
        ]
    };
    let rows: Vec<_> = cases.iter().map(row).collect();
    print_table(&head, &rows);
}

/// How many answers agree, and the first that do not.
pub fn agreement<'a>(cases: impl Iterator<Item = &'a Case> + Clone) {
    let compared: usize = cases.clone().map(|case| case.compared).sum();
    let differences: Vec<&String> = cases.flat_map(|case| &case.differences).collect();
    for difference in differences.iter().take(20) {
        println!("WARNING: {difference}");
    }
    println!(
        "Answers compared with those of plates: {compared}, differing: {}.\n",
        differences.len()
    );
}

/// How plates stands beside IQ-TREE and beside clearing `work`, by the worst case of each way.
pub fn worst(cases: &[&Case]) {
    for (way, name) in WAYS.iter().enumerate() {
        let mut of_way = cases.to_vec();
        of_way.retain(|case| case.way as usize == way);
        let mut known_to_iqtree = of_way.clone();
        known_to_iqtree.retain(|case| !case.tree.has_headings());
        beside_iqtree(&known_to_iqtree, name);
        beside_clearing(&of_way, name);
    }
}

fn beside_iqtree(cases: &[&Case], way: &str) {
    let over = |iqtree: Option<f64>, plates: &Times| Some(iqtree? / plates.shortest()?);
    let medians = |case: &Case| Some(case.iqtree.search.median()? / case.plates.median()?);
    let shortest = |case: &Case| over(case.iqtree.search.shortest(), &case.plates);
    let process = |case: &Case| over(case.iqtree.beyond_empty(), &case.plates);
    let Some((least, shape)) = lowest(cases, medians) else {
        println!("Beside IQ-TREE, {way}: it did not run.");
        return;
    };
    println!(
        "Beside IQ-TREE, {way}, at the largest count: smallest ratio of medians {} ({shape}), by its process {}, by the \
         shortest of its own figures {}.",
        digits(least),
        lowest(cases, process).map_or(String::new(), |(least, _)| digits(least)),
        lowest(cases, shortest).map_or(String::new(), |(least, _)| digits(least))
    );
}

fn beside_clearing(cases: &[&Case], way: &str) {
    let share = |case: &Case| Some(case.clearing.shortest()? / case.plates.shortest()?);
    if let Some((share, shape)) = lowest(cases, share) {
        println!(
            "Beside clearing `work`, {way}: largest multiple {} ({shape}).\n",
            digits(1.0 / share)
        );
    }
}

/// The smallest figure and its shape; none if a case has none.
fn lowest(cases: &[&Case], figure: impl Fn(&Case) -> Option<f64>) -> Option<(f64, String)> {
    let figures: Option<Vec<f64>> = cases.iter().map(|case| figure(case)).collect();
    let named = figures?.into_iter().zip(cases);
    let (least, case) = named.min_by(|(one, _), (other, _)| one.total_cmp(other))?;
    Some((least, case.name.clone()))
}

pub fn readings(readings: &[Reading]) {
    println!("### Reading texts\n\n{READING}");
    let head = words([
        "text",
        "bytes",
        "records",
        "number given",
        "plates shortest",
        "plates median",
        "plain shortest",
        "plain median",
        "plates / plain",
    ]);
    let rows: Vec<_> = readings.iter().map(reading_row).collect();
    print_table(&head, &rows);
    print_agreement("plain reader", reading::agreement(readings));
}

fn print_agreement(peer: &str, [compared, differing]: [usize; 2]) {
    println!("Answers of the {peer} compared with those of plates: {compared}, differing: {differing}.\n");
}

fn reading_row(reading: &Reading) -> Vec<String> {
    let (plates, plain) = (&reading.plates, &reading.plain);
    let times = [
        plates.shortest(),
        plates.median(),
        plain.shortest(),
        plain.median(),
    ];
    let mut row = vec![
        reading.name.to_string(),
        reading.text.len().to_string(),
        reading.records.to_string(),
        reading.number.to_string(),
    ];
    row.extend(times.map(|time| time.map_or(String::new(), microseconds)));
    row.push(ratio(plates.median(), plain.median()));
    row
}

pub fn writings(writings: &[Writing]) {
    println!("### Writing texts\n\n{WRITING}");
    let head = words([
        "outline",
        "records",
        "bytes",
        "plates",
        "plain writer",
        "times",
    ]);
    let rows: Vec<_> = writings.iter().map(writing_row).collect();
    print_table(&head, &rows);
    print_agreement("plain writer", writing::agreement(writings));
}

fn writing_row(writing: &Writing) -> Vec<String> {
    let times = [writing.plates.median(), writing.plain.median()];
    let mut row = vec![
        writing.name.to_string(),
        writing.records.to_string(),
        writing.bytes.to_string(),
    ];
    row.extend(times.map(|time| time.map_or(String::new(), microseconds)));
    row.push(ratio(times[0], times[1]));
    row
}

pub fn listings(listings: &[Listing]) {
    println!("### Listing sheets\n\n{LISTING}");
    let head = words([
        "set",
        "way",
        "records",
        "rows",
        "plates",
        "plain lister",
        "times",
    ]);
    let rows: Vec<_> = listings.iter().map(listing_row).collect();
    print_table(&head, &rows);
    print_agreement("plain lister", listing::agreement(listings));
}

fn listing_row(listing: &Listing) -> Vec<String> {
    let times = [listing.plates.median(), listing.plain.median()];
    let mut row = vec![
        listing.name.to_string(),
        way(listing.way),
        listing.records.to_string(),
        listing.rows.to_string(),
    ];
    row.extend(times.map(|time| time.map_or(String::new(), microseconds)));
    row.push(ratio(times[0], times[1]));
    row
}

pub fn viewings(viewings: &[Viewing], agreement: [usize; 2]) {
    println!("### Views\n\n{VIEWING}");
    let head = words([
        "outline",
        "records",
        "house: plates",
        "plain viewer",
        "times",
        "buyer: plates",
        "plain viewer",
        "times",
        "check",
    ]);
    let rows: Vec<_> = viewings.iter().map(viewing_row).collect();
    print_table(&head, &rows);
    print_agreement("plain viewer", agreement);
}

fn viewing_row(viewing: &Viewing) -> Vec<String> {
    let mut row = vec![viewing.name.clone(), viewing.records.to_string()];
    row.extend(two_calls(&viewing.times, &viewing.check));
    row
}

/// For each of two calls the medians of plates and of the plain program and their ratio, then the check's median.
fn two_calls(times: &[[Times; 2]; 2], check: &Times) -> Vec<String> {
    let in_microseconds = |time: Option<f64>| time.map_or(String::new(), microseconds);
    let mut cells = Vec::new();
    for [plates, plain] in times {
        let times = [plates.median(), plain.median()];
        cells.extend(times.map(in_microseconds));
        cells.push(ratio(times[0], times[1]));
    }
    cells.push(in_microseconds(check.median()));
    cells
}

pub fn pickings(pickings: &[Picking], agreement: &picking::Agreement) {
    println!("### Quick choices\n\n{PICKING}");
    let head = words([
        "outline",
        "records",
        "count",
        "picks",
        "taxa",
        "plates shortest",
        "plates median",
        "plain shortest",
        "plain median",
        "plates / plain",
        "choose shortest",
        "choose median",
        "choose / plates",
        "check",
    ]);
    let rows: Vec<_> = pickings.iter().map(picking_row).collect();
    print_table(&head, &rows);
    print_agreement("plain picker", [agreement.answers, 0]);
    println!(
        "Best diversities from that of the picked set to the ceiling: {}, others: 0.\n",
        agreement.bests
    );
}

fn picking_row(picking: &Picking) -> Vec<String> {
    let in_microseconds = |time: Option<f64>| time.map_or(String::new(), microseconds);
    let (plates, plain, choosing) = (&picking.plates, &picking.plain, &picking.choosing);
    let times = [
        plates.shortest(),
        plates.median(),
        plain.shortest(),
        plain.median(),
    ];
    let mut row = vec![
        picking.name.clone(),
        picking.records.to_string(),
        picking.count.to_string(),
        picking.picks.to_string(),
        picking.taxa.to_string(),
    ];
    row.extend(times.map(in_microseconds));
    row.push(ratio(times[1], times[3]));
    row.extend([choosing.shortest(), choosing.median()].map(in_microseconds));
    row.push(ratio(choosing.median(), times[1]));
    row.push(in_microseconds(picking.check.median()));
    row
}

pub fn sortings(sortings: &[Sorting], agreement: &sorting::Agreement) {
    println!("### House forms\n\n{SORTING}");
    let head = words([
        "outline",
        "records",
        "house form: plates",
        "plain sorter",
        "times",
        "compare: plates",
        "plain sorter",
        "times",
        "check",
    ]);
    let rows: Vec<_> = sortings.iter().map(sorting_row).collect();
    print_table(&head, &rows);
    print_agreement("plain sorter", [agreement.answers, 0]);
    let [before, same, after] = agreement.orders;
    println!("Pairs whose first tree comes before the other: {before}, is the same: {same}, comes after it: {after}.\n");
}

fn sorting_row(sorting: &Sorting) -> Vec<String> {
    let name = sorting.name.to_string();
    let mut row = vec![name, sorting.records.to_string()];
    row.extend(two_calls(&sorting.times, &sorting.check));
    row
}

pub fn revisings(revisings: &[Revising], agreement: &revising::Agreement) {
    println!("### Revised lengths\n\n{REVISING}");
    let calls: Vec<&Beside> = revisings.iter().map(|revising| &revising.times).collect();
    beside_one_choice("revise", &calls);
    print_agreement("plain reviser", [agreement.answers, 0]);
    let [fell, stayed, rose] = agreement.movements;
    println!("Best diversities that fell: {fell}, stayed: {stayed}, rose: {rose}.\n");
    greatest_beside("revise", &calls);
}

pub fn rangings(rangings: &[Ranging], agreement: &ranging::Agreement) {
    println!("### Prices not yet agreed\n\n{RANGING}");
    let calls: Vec<&Beside> = rangings.iter().map(|ranging| &ranging.times).collect();
    beside_one_choice("range", &calls);
    print_agreement("plain ranger", [agreement.answers, 0]);
    let [at_roof, below] = agreement.floors;
    println!("Floors that were the roof: {at_roof}, were below it: {below}.\n");
    greatest_beside("range", &calls);
}

type Ratio = fn(&Beside) -> Option<f64>;

/// How many times as long as one choice a call takes, by shortest times and by medians: that of plates, and the plain one.
const RATIOS: [Ratio; 4] = [
    |calls| Some(calls.plates.shortest()? / calls.choosing.shortest()?),
    |calls| Some(calls.plates.median()? / calls.choosing.median()?),
    |calls| Some(calls.plain.shortest()? / calls.choosing.shortest()?),
    |calls| Some(calls.plain.median()? / calls.choosing.median()?),
];

/// Their names, with that of the call of plates.
fn ratio_names(call: &str) -> [String; 4] {
    let names = [call, "plain"]
        .map(|name| ["shortest", "medians"].map(|which| format!("{name} / choose, {which}")));
    let [[one, two], [three, four]] = names;
    [one, two, three, four]
}

fn beside_one_choice(call: &str, calls: &[&Beside]) {
    let mut head = words(["outline", "records", "way", "count"]);
    for name in ["choose", call, "plain"] {
        head.extend(["shortest", "median"].map(|which| format!("{name} {which}")));
    }
    head.extend(ratio_names(call));
    let rows: Vec<_> = calls.iter().map(|calls| beside_row(calls)).collect();
    print_table(&head, &rows);
    ranges_of_ratios(call, calls);
}

fn beside_row(calls: &Beside) -> Vec<String> {
    let mut row = vec![
        calls.name.clone(),
        calls.records.to_string(),
        way(calls.way),
        calls.count.to_string(),
    ];
    for times in [&calls.choosing, &calls.plates, &calls.plain] {
        let times = [times.shortest(), times.median()];
        row.extend(times.map(|time| time.map_or(String::new(), microseconds)));
    }
    let ratios = RATIOS.map(|ratio| ratio(calls));
    row.extend(ratios.map(|ratio| ratio.map_or(String::new(), digits)));
    row
}

/// The least and the greatest ratios of each way, by growing count. A row has the counts above the one before.
fn ranges_of_ratios(call: &str, calls: &[&Beside]) {
    let mut head = words(["counts up to", "way"]);
    head.extend(ratio_names(call));
    let mut rows = Vec::new();
    let mut from = 0;
    for to in one_choice::COUNTS {
        for number in 0..2 {
            let mut of_row = calls.to_vec();
            of_row.retain(|it| it.way == number && (from..=to).contains(&it.count));
            let mut row = vec![to.to_string(), way(number)];
            row.extend(RATIOS.map(|ratio| least_to_greatest(&of_row, ratio)));
            rows.push(row);
        }
        from = to + 1;
    }
    print_table(&head, &rows);
}

fn least_to_greatest(calls: &[&Beside], ratio: Ratio) -> String {
    let ratios = || calls.iter().filter_map(|calls| ratio(calls));
    let ends = [f64::min, f64::max].map(|end| ratios().reduce(end));
    ends.map(|end| end.map_or(String::new(), digits))
        .join(" to ")
}

fn greatest_beside(call: &str, calls: &[&Beside]) {
    for (name, ratio) in ratio_names(call).iter().zip(RATIOS) {
        let ratios = calls.iter().filter_map(|it| Some((ratio(it)?, it)));
        if let Some((greatest, at)) = ratios.max_by(|(one, _), (other, _)| one.total_cmp(other)) {
            println!(
                "Greatest {name}: {} ({}, {}, count {}).",
                digits(greatest),
                at.name,
                WAYS[at.way as usize],
                at.count
            );
        }
    }
    println!();
}

/// A ratio near 1.
fn thousandths(one: Option<f64>, other: Option<f64>) -> String {
    one.zip(other)
        .map_or(String::new(), |(one, other)| format!("{:.3}", one / other))
}

pub fn builds(pairs: &[Pair]) {
    println!("### Beside another build\n\n{BUILDS}");
    let head = words([
        "shape",
        "way",
        "count",
        "other shortest",
        "other median",
        "this shortest",
        "this median",
        "this / other, shortest",
        "this / other, medians",
    ]);
    let measured = pairs.iter().filter(|pair| !pair.refused);
    let rows: Vec<_> = measured.map(pair_row).collect();
    print_table(&head, &rows);
    agreement(pairs.iter().map(|pair| &pair.case));
}

fn pair_row(pair: &Pair) -> Vec<String> {
    let (other, this) = (&pair.other, &pair.this);
    let times = [
        other.shortest(),
        other.median(),
        this.shortest(),
        this.median(),
    ];
    let mut row = vec![
        pair.case.name.clone(),
        way(pair.case.way),
        pair.case.count.to_string(),
    ];
    row.extend(times.map(|time| time.map_or(String::new(), microseconds)));
    row.push(thousandths(this.shortest(), other.shortest()));
    row.push(thousandths(this.median(), other.median()));
    row
}
