//! Written trees for other parsers of the Newick form: on each line the text that the library writes, a tab, and the tree that
//! it was written from.

use std::iter;

use crate::library;
use crate::mangle;
use crate::outline::{bytes, members, Record};
use crate::random::Random;
use crate::rules;
use crate::writing::{MOST_BYTES, MOST_NUMBERS};

const TEXTS: usize = 1_000;

pub fn lines(rng: &mut Random) -> String {
    // Plates that are cut to 9 digits may be 0 or meet.
    iter::repeat_with(|| mangle::sound_tree(rng))
        .filter(|records| rules::check(&bytes(records)).is_none())
        .take(TEXTS)
        .map(|records| format!("{}\t{}\n", written(&records), nodes(&records)))
        .collect()
}

fn written(records: &[Record]) -> String {
    let (mut text, mut pairs) = ([0; MOST_BYTES], [0; MOST_NUMBERS]);
    let [_, _, len, _] = library::write(&bytes(records), &mut text, &mut pairs);
    String::from_utf8_lossy(&text[..len as usize]).into_owned()
}

/// For each record in text order its depth, its plate (a group has `-`) and its length, with commas between records.
fn nodes(records: &[Record]) -> String {
    let mut nodes = Vec::new();
    let mut waiting = vec![(0, 0)];
    while let Some((position, depth)) = waiting.pop() {
        let record = records[position];
        let plate = if record.is_taxon() {
            record.plate.to_string()
        } else {
            "-".to_string()
        };
        nodes.push(format!("{depth} {plate} {}", record.length));
        let members = members(records, position).into_iter().rev();
        waiting.extend(members.map(|member| (member, depth + 1)));
    }
    nodes.join(",")
}

#[cfg(test)]
mod tests {
    use super::*;
    use crate::cases::tree_a;

    #[test]
    fn tree_a_is_written_and_described() {
        assert_eq!(written(&tree_a()), "((11:4,12:2):3,13:5):0;");
        assert_eq!(nodes(&tree_a()), "0 - 0,1 - 3,2 11 4,2 12 2,1 13 5");
    }

    #[test]
    fn there_is_a_line_for_each_text() {
        let lines = lines(&mut Random::new(1));
        assert_eq!(lines.lines().count(), TEXTS);
        for line in lines.lines() {
            let (text, nodes) = line.split_once('\t').expect("a tab");
            let colons = text.bytes().filter(|&byte| byte == b':').count();
            assert_eq!(nodes.split(',').count(), colons, "{line}");
        }
    }
}
