//! Asks of tree A what each length of a second edition changes by itself, for 5 quarters: how far
//! the best diversity moves, and which plates go and come; and then what they change together.

use plates::{Choice, Outline, Way};
use std::error::Error;

fn print_choice(edition: &str, choice: &Choice) {
    print!(
        "{edition} edition: diversity {}, plates",
        choice.diversity()
    );
    for taxon in choice.taxa() {
        print!(" {}", taxon.plate);
    }
    println!();
}

fn print_change(outline: &Outline, marks: &[u8], revised: &[u8]) {
    if marks == revised {
        print!(", the plates stay");
    }
    for (record, (old, new)) in outline.records().zip(marks.iter().zip(revised)) {
        if old != new {
            let change = if *new == 1 { "comes" } else { "goes" };
            print!(", {} {change}", record.plate);
        }
    }
    println!();
}

fn main() -> Result<(), Box<dyn Error>> {
    // plate, price
    let prices = [(11, 3), (12, 1), (13, 2)];
    // the same tree with other lengths
    let first = Outline::from_newick("((11:4,12:2):3,13:5);", prices)?;
    let second = Outline::from_newick("((11:1,12:3):2,13:7);", prices)?;
    let (count, way) = (5, Way::Rooted);

    let choice = first.choose(count, way)?;
    print_choice("first", &choice);

    for (one, two) in first.records().zip(second.records()) {
        let (record, old, new) = (one.number, one.length, two.length);
        if new != old {
            let revision = first.revise(record, new, count, way)?;
            let moved = revision.best_moved();
            print!("record {record}: length {old} to {new}, diversity {moved:+}");
            print_change(&first, choice.marks(), revision.choice().marks());
        }
    }
    print_choice("second", &second.choose(count, way)?);
    Ok(())
}
