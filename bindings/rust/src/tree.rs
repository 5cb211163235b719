//! Building outlines by nesting.

use crate::outline::{Outline, LOCK, MOST_PLATE, MOST_RECORDS, RECORD_BYTES};
use crate::refusal::Refusal;
use std::error::Error;
use std::fmt;

/// A tree to make an [`Outline`] of, built from its taxa upwards.
///
/// The records of the outline are numbered as the tree is written down: a group, then its first
/// member with all below it, then its second, and so on; the root is record 1. So between sets that
/// are equal otherwise, the taxon that is written first decides.
///
/// Nothing is judged before [`outline`](Tree::outline) is called.
///
/// ```
/// use plates::Tree;
///
/// let tree = Tree::group(0, [
///     Tree::group(3, [Tree::taxon(11, 4, 3), Tree::taxon(12, 2, 1)]),
///     Tree::taxon(13, 5, 2),
/// ]);
/// let outline = tree.outline()?;
/// assert_eq!(outline.records().len(), 5);
/// assert_eq!(outline.find(13).map(|taxon| taxon.number), Some(5));
/// # Ok::<(), plates::TreeError>(())
/// ```
#[derive(Clone, Debug)]
#[must_use = "a tree is of use once it is a member of a group, or its outline is made"]
pub struct Tree {
    // In the order of the records, and flat, so that neither building nor dropping a deep tree
    // recurses.
    nodes: Vec<Node>,
}

#[derive(Clone, Copy, Debug)]
struct Node {
    kind: Kind,
    length: u32,
    price: u32,
    // how many nodes are below
    below: u32,
    // whether it is the last member of its group, or the root
    last: bool,
}

#[derive(Clone, Copy, Debug, PartialEq)]
enum Kind {
    Group,
    Taxon { plate: u32, locked: bool },
}

// A tree that is too large is cut down to one node more than an outline can have: enough to be
// refused.
const MOST_NODES: usize = MOST_RECORDS + 1;

impl Tree {
    /// A taxon with a plate (1 to [`MOST_PLATE`]), the length of the branch above it (at most
    /// 1,000,000), and its price in quarter pages (at most 65,535). One of price 0 is always chosen
    /// where all groups above it have price 0 too.
    pub fn taxon(plate: u32, length: u32, price: u32) -> Tree {
        Tree::leaf(plate, false, length, price)
    }

    /// A locked taxon, which must be in the guide, such as a species on its jacket: with a plate, a
    /// length and a price as [`taxon`](Tree::taxon) has them. Every choice has it, whatever it
    /// costs, and a page count that the locked taxa do not fit is refused.
    ///
    /// ```
    /// use plates::{Refusal, Tree, Way};
    ///
    /// let family = Tree::group(3, [Tree::taxon(11, 4, 3), Tree::taxon(12, 2, 1)]);
    /// let outline = Tree::group(0, [family, Tree::locked_taxon(13, 5, 2)]).outline()?;
    ///
    /// // without the lock it would be plate 12: as much diversity, for a quarter less
    /// let choice = outline.choose(2, Way::Rooted)?;
    /// assert_eq!(choice.taxa(), [outline.find(13).unwrap()]);
    /// assert_eq!(outline.choose(1, Way::Rooted), Err(Refusal::LockedTooDear));
    /// # Ok::<(), Box<dyn std::error::Error>>(())
    /// ```
    pub fn locked_taxon(plate: u32, length: u32, price: u32) -> Tree {
        Tree::leaf(plate, true, length, price)
    }

    fn leaf(plate: u32, locked: bool, length: u32, price: u32) -> Tree {
        let node = Node {
            kind: Kind::Taxon { plate, locked },
            length,
            price,
            below: 0,
            last: true,
        };
        Tree { nodes: vec![node] }
    }

    /// A group with the length of the branch above it (at most 1,000,000), and its members, one or
    /// more. Its heading takes no space: its price is 0.
    pub fn group(length: u32, members: impl IntoIterator<Item = Tree>) -> Tree {
        Tree::headed_group(length, 0, members)
    }

    /// A group whose heading takes space: with the length of the branch above it (at most
    /// 1,000,000), the price of its heading in quarter pages (at most 65,535), and its members, one
    /// or more. A set that has taxa below the group pays for the heading once.
    ///
    /// ```
    /// use plates::{Tree, Way};
    ///
    /// let family = Tree::headed_group(3, 2, [Tree::taxon(11, 4, 3), Tree::taxon(12, 2, 1)]);
    /// let outline = Tree::group(0, [family, Tree::taxon(13, 5, 2)]).outline()?;
    ///
    /// let all = outline.choose(8, Way::Rooted)?;
    /// assert_eq!((all.taxa().len(), all.cost()), (3, 2 + 3 + 1 + 2));
    /// let none_of_the_family = outline.choose(2, Way::Rooted)?;
    /// assert_eq!(none_of_the_family.taxa(), [outline.find(13).unwrap()]);
    /// # Ok::<(), Box<dyn std::error::Error>>(())
    /// ```
    pub fn headed_group(length: u32, price: u32, members: impl IntoIterator<Item = Tree>) -> Tree {
        let mut nodes = vec![Node {
            kind: Kind::Group,
            length,
            price,
            below: 0,
            last: true,
        }];
        let mut latest: Option<usize> = None;
        for member in members {
            if let Some(at) = latest {
                nodes[at].last = false;
            }
            latest = Some(nodes.len());
            nodes.extend(member.nodes);
            if nodes.len() >= MOST_NODES {
                nodes.truncate(MOST_NODES);
                break;
            }
        }
        nodes[0].below = nodes.len() as u32 - 1;
        Tree { nodes }
    }

    /// The outline of the tree.
    ///
    /// # Errors
    ///
    /// [`TreeError::EmptyGroup`] if a group has no members, whatever else is wrong; of a tree that
    /// is too large only the first records are looked at, one more than an outline can have.
    ///
    /// Otherwise [`TreeError::Refused`] with the first of these that holds:
    /// [`Refusal::TooManyRecords`], [`Refusal::FieldOutOfRange`], [`Refusal::TooManyTaxa`],
    /// [`Refusal::DuplicatePlate`]. No other refusal arises: the records are whole and their links
    /// are made here. A plate above [`MOST_PLATE`] is out of range, and does not become a lock.
    ///
    /// ```
    /// use plates::{Refusal, Tree, TreeError};
    ///
    /// let twice = Tree::group(0, [Tree::taxon(11, 4, 3), Tree::taxon(11, 2, 1)]);
    /// let refusal = Refusal::DuplicatePlate { record: 3 };
    /// assert_eq!(twice.outline(), Err(TreeError::Refused(refusal)));
    ///
    /// let empty = Tree::group(0, [Tree::group(5, []), Tree::taxon(11, 4, 3)]);
    /// assert_eq!(empty.outline(), Err(TreeError::EmptyGroup { record: 2 }));
    /// ```
    pub fn outline(&self) -> Result<Outline, TreeError> {
        let numbered = || (1..).zip(&self.nodes);
        if let Some((record, _)) = numbered().find(|(_, node)| node.is_empty_group()) {
            return Err(TreeError::EmptyGroup { record });
        }
        let bytes: Vec<u8> = numbered()
            .flat_map(|(number, node)| node.record(number))
            .collect();
        Ok(Outline::from_bytes(&bytes)?)
    }
}

impl Node {
    fn is_empty_group(&self) -> bool {
        self.kind == Kind::Group && self.below == 0
    }

    fn record(&self, number: u32) -> [u8; RECORD_BYTES] {
        // A tree that is too large has links that lead nowhere; it is refused for its size first.
        let next = if self.last {
            0
        } else {
            number + self.below + 1
        };
        let (first, plate_field) = match self.kind {
            Kind::Group => (number + 1, 0),
            Kind::Taxon { plate, locked } => (0, plate_field(plate, locked)),
        };
        let mut bytes = [0; RECORD_BYTES];
        bytes[0..2].copy_from_slice(&next.to_le_bytes()[..2]);
        bytes[2..4].copy_from_slice(&first.to_le_bytes()[..2]);
        bytes[4..8].copy_from_slice(&self.length.to_le_bytes());
        bytes[8..12].copy_from_slice(&self.price.to_le_bytes());
        bytes[12..16].copy_from_slice(&plate_field.to_le_bytes());
        bytes
    }
}

// A plate that is out of range has bit 31, which would be taken for a lock. It is written as 0, so
// that the library refuses this record's field in its turn.
fn plate_field(plate: u32, locked: bool) -> u32 {
    if plate > MOST_PLATE {
        0
    } else if locked {
        LOCK | plate
    } else {
        plate
    }
}

/// Why a [`Tree`] has no outline.
#[derive(Clone, Copy, Debug, PartialEq, Eq, Hash)]
pub enum TreeError {
    /// A group has no members. The layout has no such group: its record would be a taxon's.
    EmptyGroup {
        /// The lowest such group, from 1, as the records would be numbered.
        record: u32,
    },
    /// The library refuses the outline.
    Refused(Refusal),
}

impl fmt::Display for TreeError {
    fn fmt(&self, f: &mut fmt::Formatter<'_>) -> fmt::Result {
        match self {
            TreeError::EmptyGroup { record } => {
                write!(f, "record {record}: a group has no members")
            }
            TreeError::Refused(refusal) => refusal.fmt(f),
        }
    }
}

impl Error for TreeError {}

impl From<Refusal> for TreeError {
    fn from(refusal: Refusal) -> TreeError {
        TreeError::Refused(refusal)
    }
}
