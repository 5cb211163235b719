//! Reads tree A from a text with blanks, chooses its plates for 5 quarters, and writes the tree as
//! text again, with its prices.

use plates::{Outline, Way};
use std::error::Error;

fn main() -> Result<(), Box<dyn Error>> {
    // plate, price
    let prices = [(11, 3), (12, 1), (13, 2)];
    let outline = Outline::from_newick(" ( (11:4, 12:02) :3, 13:5 ) ;\n", prices)?;

    let choice = outline.choose(5, Way::Rooted)?;
    print!("chosen");
    for taxon in choice.taxa() {
        print!(" {}", taxon.plate);
    }
    println!();

    let newick = outline.to_newick()?;
    println!("{newick}");
    for (plate, price) in newick.prices {
        println!("{plate} {price}");
    }
    Ok(())
}
