//! Asks of tree A what can be promised while plate 11 is known to cost 3 to 4 quarters: for each
//! page count from 0 to 6 the plates that are sure, and between which numbers the best diversity
//! will lie.

use plates::{Outline, Way, Work};
use std::error::Error;

fn main() -> Result<(), Box<dyn Error>> {
    let tree = "((11:4,12:2):3,13:5);";
    // plate, price
    let low = Outline::from_newick(tree, [(11, 3), (12, 1), (13, 2)])?;
    let high = Outline::from_newick(tree, [(11, 4), (12, 1), (13, 2)])?;

    let mut work = Work::new();
    for count in 0..=6 {
        let sure = low.range_in(&high, count, Way::Rooted, &mut work)?;
        let (floor, roof) = (sure.floor(), sure.roof());
        print!("count {count}: best from {floor} to {roof}, sure:");
        for taxon in sure.choice().taxa() {
            print!(" {}", taxon.plate);
        }
        let none = sure.choice().taxa().is_empty();
        println!("{}", if none { " none" } else { "" });
    }
    Ok(())
}
