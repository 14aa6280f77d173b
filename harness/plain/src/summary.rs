//! Summaries (Rules, section 6): the ends and starts that stay unmatched, and the pieces around them.

use crate::relation::{Piece, Relation, Schema, MANY};
use crate::{Row, DEEPEST, ROW};

/// A summary: its tags, and the pieces' relations and counts apart. Places past its tags may hold anything; `row` leaves them out.
#[derive(Clone, Copy, Debug)]
pub struct Summary {
    ends: usize,
    tags: usize,
    names: [u8; DEEPEST],
    relations: [Relation; PIECES],
    counts: [u8; PIECES],
}

/// The most pieces: one more than tags.
const PIECES: usize = DEEPEST + 1;

/// Where a row has its relations, and the one entry of all their counts, two bits each.
const RELATIONS: usize = 3;
const COUNTS: usize = RELATIONS + PIECES;

/// Why a string has no summary.
#[derive(Clone, Copy, Debug, PartialEq, Eq)]
pub enum Fault {
    Mismatch,
    TooDeep,
}

impl Summary {
    /// The summary of the empty string.
    pub fn empty(schema: &Schema) -> Self {
        Summary {
            ends: 0,
            tags: 0,
            names: [0; DEEPEST],
            relations: [schema.empty.relation; PIECES],
            counts: [schema.empty.count; PIECES],
        }
    }

    pub fn ends(&self) -> usize {
        self.ends
    }

    pub fn starts(&self) -> usize {
        self.tags - self.ends
    }

    /// The piece before tag i, or behind the last one.
    #[inline]
    fn piece(&self, i: usize) -> Piece {
        Piece {
            relation: self.relations[i],
            count: self.counts[i],
        }
    }

    #[inline]
    fn put(&mut self, i: usize, piece: Piece) {
        self.relations[i] = piece.relation;
        self.counts[i] = piece.count;
    }

    /// The piece of a balanced string, none where tags are unmatched.
    pub fn balanced(&self) -> Option<Piece> {
        (self.tags == 0).then_some(self.piece(0))
    }

    /// Reads one start tag more.
    #[inline]
    pub fn start(&mut self, name: u8, schema: &Schema) -> Result<(), Fault> {
        if self.tags == DEEPEST {
            return Err(Fault::TooDeep);
        }
        self.names[self.tags] = name;
        self.tags += 1;
        self.put(self.tags, schema.empty);
        Ok(())
    }

    /// Reads one end tag more: it closes the innermost start, or stays unmatched.
    #[inline]
    pub fn end(&mut self, name: u8, schema: &Schema) -> Result<(), Fault> {
        if self.tags == self.ends {
            self.start(name, schema)?;
            self.ends += 1;
            return Ok(());
        }
        if self.names[self.tags - 1] != name {
            return Err(Fault::Mismatch);
        }
        let element = schema.element(name, self.piece(self.tags));
        self.tags -= 1;
        self.put(self.tags, self.piece(self.tags).then(element));
        Ok(())
    }

    /// This one's string, then the other's. A mismatch goes before too many tags, and tags are
    /// counted after they cancel.
    pub fn join(&self, right: &Summary, schema: &Schema) -> Result<Summary, Fault> {
        let met = self.starts().min(right.ends);
        let kept = self.tags - met;
        let mut middle = self.piece(self.tags).then(right.piece(0));
        for i in 0..met {
            let open = self.tags - 1 - i;
            let name = self.names[open];
            if name != right.names[i] {
                return Err(Fault::Mismatch);
            }
            let element = self.piece(open).then(schema.element(name, middle));
            middle = element.then(right.piece(i + 1));
        }
        let tags = kept + right.tags - met;
        if tags > DEEPEST {
            return Err(Fault::TooDeep);
        }
        let mut whole = *self;
        whole.ends += right.ends - met;
        whole.tags = tags;
        whole.names[kept..tags].copy_from_slice(&right.names[met..right.tags]);
        whole.relations[kept..=tags].copy_from_slice(&right.relations[met..=right.tags]);
        whole.counts[kept..=tags].copy_from_slice(&right.counts[met..=right.tags]);
        whole.put(kept, middle);
        Ok(whole)
    }

    /// The row of this summary under a nonterminal (0 where it is lent alone).
    pub fn row(&self, nonterminal: u8) -> Row {
        let mut row = [0; ROW];
        row[0] = nonterminal as u64 + 256 * self.ends as u64 + 65_536 * self.starts() as u64;
        let mut names = [0; DEEPEST];
        names[..self.tags].copy_from_slice(&self.names[..self.tags]);
        let (low, high) = names.split_at(8);
        row[1] = u64::from_le_bytes(low.try_into().expect("eight names"));
        row[2] = u64::from_le_bytes(high.try_into().expect("eight names"));
        row[RELATIONS..][..=self.tags].copy_from_slice(&self.relations[..=self.tags]);
        let counts = self.counts[..=self.tags].iter().rev();
        row[COUNTS] = counts.fold(0, |sum, &count| sum << 2 | count as u64);
        row
    }

    /// The summary that a lent row is, if it is one under this schema with `names` names.
    pub fn of_row(row: &[u64], names: u8, schema: &Schema) -> Option<Summary> {
        let row: &Row = row.try_into().ok()?;
        let ends = row[0] >> 8 & 0xff;
        let starts = row[0] >> 16;
        if row[0] & 0xff != 0 || starts > 16 || ends + starts > 16 {
            return None;
        }
        let tags = (ends + starts) as usize;
        let mut all = [0; DEEPEST];
        all[..8].copy_from_slice(&row[1].to_le_bytes());
        all[8..].copy_from_slice(&row[2].to_le_bytes());
        let mut relations = [0; PIECES];
        relations.copy_from_slice(&row[RELATIONS..COUNTS]);
        let counts: [u8; PIECES] = std::array::from_fn(|i| (row[COUNTS] >> (2 * i) & 3) as u8);
        // The shift leaves the counts of unused places, and the bits that belong to no place.
        let sound = all[..tags].iter().all(|&name| name < names)
            && all[tags..].iter().all(|&name| name == 0)
            && relations[..=tags].iter().all(|r| r & !schema.within == 0)
            && relations[tags + 1..].iter().all(|&r| r == 0)
            && counts[..=tags].iter().all(|&count| count <= MANY)
            && row[COUNTS] >> (2 * (tags + 1)) == 0;
        sound.then_some(Summary {
            ends: ends as usize,
            tags,
            names: all,
            relations,
            counts,
        })
    }
}
