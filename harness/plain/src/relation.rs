//! Relations as 64-bit numbers (bit 8·X+Z), counts of outermost elements beside them, and the schema as tables over relations.

use crate::file::File;

/// A set of state pairs.
pub type Relation = u64;

/// Bit 0 of each of the eight rows.
const COLUMN: u64 = 0x0101_0101_0101_0101;

/// The pair (x, z) alone.
pub fn pair(x: u8, z: u8) -> Relation {
    1 << (8 * x + z)
}

/// (x, z) of the result: some y with (x, y) left and (y, z) right.
/// Each turn adds row y of the right to all rows of the left that hold y.
#[inline]
pub fn compose(left: Relation, right: Relation) -> Relation {
    (0..8).fold(0, |sum, y| {
        sum | (((left >> y) & COLUMN) * ((right >> (8 * y)) & 0xff))
    })
}

/// The largest count: it stands for two outermost elements and for more.
pub const MANY: u8 = 2;

/// What a summary keeps of a balanced string: its relation, and how many outermost elements it has.
#[derive(Clone, Copy, Debug, Default)]
pub struct Piece {
    pub relation: Relation,
    pub count: u8,
}

impl Piece {
    /// This one's string, then the other's.
    #[inline]
    pub fn then(self, right: Piece) -> Piece {
        Piece {
            relation: compose(self.relation, right.relation),
            count: MANY.min(self.count + right.count),
        }
    }
}

/// What a file says of relations.
pub struct Schema {
    /// The piece of the empty string.
    pub empty: Piece,
    /// The pairs below Q: no other bit may stand in a relation.
    pub within: Relation,
    /// The ending states as a row of bits.
    ending: u64,
    /// For name a and content state y, the pairs (x, z) of rules x, a, y, z.
    pairs: [[Relation; 8]; 32],
}

impl Schema {
    pub fn new(file: &File) -> Self {
        let row = (1u64 << file.states) - 1;
        let mut schema = Schema {
            empty: Piece {
                relation: (0..file.states).fold(0, |sum, x| sum | pair(x, x)),
                count: 0,
            },
            within: (0..file.states).fold(0, |sum, x| sum | row << (8 * x)),
            ending: file.ending.iter().fold(0, |sum, z| sum | 1 << z),
            pairs: [[0; 8]; 32],
        };
        for &[x, a, y, z] in file.schema {
            schema.pairs[a as usize][y as usize] |= pair(x, z);
        }
        schema
    }

    /// The piece of start `name`, a string whose piece is `content`, end `name`: one outermost element, whatever it holds.
    #[inline]
    pub fn element(&self, name: u8, content: Piece) -> Piece {
        let pairs = &self.pairs[name as usize];
        let relation = (0..8).fold(0, |sum, y| {
            let ends = (content.relation >> (8 * y)) & self.ending != 0;
            sum | if ends { pairs[y] } else { 0 }
        });
        Piece { relation, count: 1 }
    }

    /// Whether a balanced string of this piece is a valid page: state 0 derives it, and it has exactly one outermost element.
    pub fn valid(&self, page: Piece) -> bool {
        page.relation & self.ending != 0 && page.count == 1
    }
}
