//! Texts whose answers document 02, §1, settles: at its limits, in its order of refusals, and as deep or long as texts can be.

use crate::outline::LOCK;
use crate::reading::ReadCall;

/// A call and the answer stated for it: number, place, records.
pub struct TextCase {
    pub name: &'static str,
    pub call: ReadCall,
    pub answer: [u32; 3],
}

const MOST: usize = 16_384;
/// Bytes for 127 records.
const ROOM: usize = 2_032;

/// Price 1 for each plate.
fn priced(plates: impl IntoIterator<Item = u32>) -> Vec<u32> {
    plates.into_iter().flat_map(|plate| [plate, 1]).collect()
}

fn case(
    name: &'static str,
    text: impl Into<Vec<u8>>,
    pairs: Vec<u32>,
    outline: usize,
    answer: [u32; 3],
) -> TextCase {
    let text = text.into();
    let call = ReadCall {
        text,
        pairs,
        outline,
    };
    TextCase { name, call, answer }
}

/// Taxon 7 is the only one, with price 1, and there is room.
fn seven(name: &'static str, text: impl Into<Vec<u8>>, answer: [u32; 3]) -> TextCase {
    case(name, text, vec![7, 1], ROOM, answer)
}

/// Taxon 7 inside so many lists.
fn nested(lists: usize) -> String {
    format!("{}7{};", "(".repeat(lists), ")".repeat(lists))
}

/// A list of taxa 1, 2, 3 and so on.
fn flat(taxa: u32) -> String {
    let members: Vec<String> = (1..=taxa).map(|plate| plate.to_string()).collect();
    format!("({});", members.join(","))
}

/// A list of so many taxa 7.
fn sevens(taxa: usize) -> String {
    format!("({});", vec!["7"; taxa].join(","))
}

/// As many blanks as there is room for behind each sign, and the rest at the end.
fn spread(text: &str, len: usize) -> String {
    let room = (len - text.len()) / text.len();
    let spread: String = text
        .chars()
        .map(|sign| format!("{sign}{}", " ".repeat(room)))
        .collect();
    format!("{spread:len$}")
}

pub fn all() -> Vec<TextCase> {
    let mut all = sizes();
    all.extend(numbers());
    all.extend(pairs());
    all.extend((0..=255).flat_map(every_byte));
    all.extend(order());
    all.extend(longest());
    all
}

/// Records, taxa, bytes and the buffer.
fn sizes() -> Vec<TextCase> {
    let tree_a = "((11:4,12:2):3,13:5);";
    let pairs = vec![11, 3, 12, 1, 13, 2];
    let to = |outline, answer| case("buffer", tree_a, pairs.clone(), outline, answer);
    let star = |name, taxa, answer| case(name, flat(taxa), priced(1..=taxa), ROOM, answer);
    vec![
        to(80, [0, 0, 5]),
        to(79, [9, 0, 0]),
        to(0, [9, 0, 0]),
        to(81, [0, 0, 5]),
        to(100_000, [0, 0, 5]),
        seven("127 records", nested(126), [0, 0, 127]),
        seven("128 records", nested(127), [3, 0, 0]),
        case("deep, short", nested(126), vec![7, 1], 2_031, [9, 0, 0]),
        star("64 taxa", 64, [0, 0, 65]),
        star("65 taxa", 65, [7, 0, 0]),
        star("126 taxa, 127 records", 126, [7, 0, 0]),
        star("127 taxa, 128 records", 127, [3, 0, 0]),
        seven("16,384 bytes", format!("{:MOST$}", "7;"), [0, 0, 1]),
        seven("16,385 bytes", format!("{:1$}", "7;", MOST + 1), [10, 0, 0]),
        seven("blanks before", format!("{:>MOST$}", "7;"), [0, 0, 1]),
        seven(
            "more blanks before",
            format!("{:>1$}", "7;", MOST + 1),
            [10, 0, 0],
        ),
        seven("empty", "", [10, 0, 0]),
    ]
}

/// Digits and ranges.
fn numbers() -> Vec<TextCase> {
    let one = |name, text, plate, price, answer| case(name, text, vec![plate, price], 16, answer);
    vec![
        one("9 digits", "999999999;", 999_999_999, 1, [0, 0, 1]),
        one("10 digits", "9999999990;", 999_999_999, 1, [10, 0, 0]),
        one("zeros", "000000007;", 7, 1, [0, 0, 1]),
        one("10 digits, zeros", "0000000007;", 7, 1, [10, 0, 0]),
        one("longest branch", "7:1000000;", 7, 1, [0, 0, 1]),
        one("longer branch", "7:1000001;", 7, 1, [5, 1, 0]),
        one("length of 9 digits", "7:999999999;", 7, 1, [5, 1, 0]),
        one("length of 10 digits", "7:0000000000;", 7, 1, [10, 0, 0]),
        one("highest price", "7;", 7, 65_535, [0, 0, 1]),
        one("higher price", "7;", 7, 65_536, [5, 1, 0]),
    ]
}

/// How plates go with pairs: by number alone, so that bit 31, which locks a taxon in an outline, makes another number.
fn pairs() -> Vec<TextCase> {
    let one = |name, text, plate, price, answer| case(name, text, vec![plate, price], 16, answer);
    vec![
        one("plate 0 with a pair", "0;", 0, 1, [5, 1, 0]),
        one("plate 0 without", "0;", 7, 1, [11, 0, 0]),
        one("bit 31 in a pair", "7;", LOCK + 7, 1, [11, 0, 0]),
        seven("twins with one pair", "(7,7);", [8, 3, 0]),
        case("two pairs", "(7,7);", vec![7, 1, 7, 1], 48, [11, 0, 0]),
        case("no pair", "7;", vec![], 16, [11, 0, 0]),
        case("one number", "7;", vec![7], 16, [11, 0, 0]),
        case("three numbers", "7;", vec![7, 1, 7], 16, [11, 0, 0]),
        case("unmatched", "7;", vec![7, 1, 8, 1], 16, [11, 0, 0]),
        case(
            "a plate that no text has",
            "7;",
            vec![7, 1, 1_000_000_000, 1],
            16,
            [11, 0, 0],
        ),
        case(
            "bit 31 in another pair",
            "7;",
            vec![7, 1, LOCK + 7, 1],
            16,
            [11, 0, 0],
        ),
        case(
            "a group has no plate 0",
            "(7);",
            vec![7, 1, 0, 0],
            32,
            [11, 0, 0],
        ),
    ]
}

/// A byte before, between and behind the two of `7;`. Only blanks may stand in any of the three places.
fn every_byte(byte: u8) -> [TextCase; 3] {
    let (before, between, behind) = match byte {
        b' ' | b'\t' | b'\n' | b'\r' => ([0, 0, 1], [0, 0, 1], [0, 0, 1]),
        // 07 is 7; the others are plates without a pair
        b'0' => ([0, 0, 1], [11, 0, 0], [10, 0, 0]),
        b'1'..=b'9' => ([11, 0, 0], [11, 0, 0], [10, 0, 0]),
        _ => ([10, 0, 0], [10, 0, 0], [10, 0, 0]),
    };
    [
        seven("a byte before", [byte, b'7', b';'], before),
        seven("a byte between", [b'7', byte, b';'], between),
        seven("a byte behind", [b'7', b';', byte], behind),
    ]
}

/// Each text has the faults of those after it: 10, 3, 11, 9, 5, 7, 8.
fn order() -> Vec<TextCase> {
    let large = flat(127).replace("127", "1:1000001");
    let many = flat(65).replace("65", "1:1000001");
    let twins = flat(65).replace("65", "1");
    let (one, all) = (vec![1], priced(1..=64));
    vec![
        case("10", large.replace(';', ""), one.clone(), 0, [10, 0, 0]),
        case("3", large, one.clone(), 0, [3, 0, 0]),
        case("11", many.clone(), one, 0, [11, 0, 0]),
        case("9", many.clone(), all.clone(), 0, [9, 0, 0]),
        case("5", many, all.clone(), ROOM, [5, 66, 0]),
        case("7", twins, all, ROOM, [7, 0, 0]),
        case("8", "(1,2,1);", priced(1..=2), ROOM, [8, 4, 0]),
    ]
}

/// Texts of 16,384 bytes.
fn longest() -> Vec<TextCase> {
    let same = |sign: u8| vec![sign; MOST];
    let lists = MOST / 2 - 1;
    vec![
        seven("opening brackets", same(b'('), [10, 0, 0]),
        seven("closing brackets", same(b')'), [10, 0, 0]),
        seven("commas", same(b','), [10, 0, 0]),
        seven("colons", same(b':'), [10, 0, 0]),
        seven("semicolons", same(b';'), [10, 0, 0]),
        seven("digits", same(b'7'), [10, 0, 0]),
        seven("blanks", same(b' '), [10, 0, 0]),
        seven("8,191 lists", nested(lists), [3, 0, 0]),
        seven(
            "8,191 lists, no end",
            nested(lists).replace(';', ")"),
            [10, 0, 0],
        ),
        seven("8,191 members", sevens(lists), [3, 0, 0]),
        seven(
            "8,191 members, no end",
            sevens(lists).replace(';', ")"),
            [10, 0, 0],
        ),
        seven("126 lists", spread(&nested(126), MOST), [0, 0, 127]),
        seven("127 lists", spread(&nested(127), MOST), [3, 0, 0]),
        seven("126 members", spread(&sevens(126), MOST), [7, 0, 0]),
        seven("64 members", spread(&sevens(64), MOST), [8, 3, 0]),
    ]
}

#[cfg(test)]
mod tests {
    use super::*;

    #[test]
    fn longest_texts_are_as_long_as_can_be() {
        for case in longest() {
            assert_eq!(case.call.text.len(), MOST, "{}", case.name);
        }
    }
}
