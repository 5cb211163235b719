//! Reads tree A from text, chooses its plates for 5 quarters, and prints the choice, the curve and
//! the sheet.

use plates::{choose, Outline, Way};
use std::error::Error;

fn main() -> Result<(), Box<dyn Error>> {
    // plate, price
    let prices = [(11, 3), (12, 1), (13, 2)];
    let outline = Outline::from_newick("((11:4,12:2):3,13:5);", prices)?;
    let (count, way) = (5, Way::Rooted);
    let choice = choose(&outline, count, way)?;

    let (diversity, cost, taxa) = (choice.diversity(), choice.cost(), choice.taxa().len());
    println!("{count} {} {diversity} {cost} {taxa}", way as u32);
    for column in choice.curve().iter().flatten() {
        println!("{} {} {}", column.count, column.diversity, column.cost);
    }
    println!("{}", outline.sheet(choice.marks(), way)?);
    Ok(())
}
