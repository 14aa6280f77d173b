//! The template file: its order of reading, its first fault, its three lists; and its layout, for those who make one. A file of long
//! rules is the same with wider template rules.

/// Bytes of a template rule, and of a long one: the left side, the length, and as many symbols as are left.
pub const RULE: usize = 4;
pub const LONG_RULE: usize = 14;

/// A template rule of a file of long rules.
pub type LongRule = [u8; LONG_RULE];

/// A template rule in W bytes; `symbols` are at most W - 2.
pub fn rule<const W: usize>(left: u8, symbols: &[u8]) -> [u8; W] {
    let mut rule = [255; W];
    (rule[0], rule[1]) = (left, symbols.len() as u8);
    rule[2..2 + symbols.len()].copy_from_slice(symbols);
    rule
}

/// A sound file: its three numbers and its lists, each a stretch of the lent bytes. A template rule has W bytes.
#[derive(Clone, Copy, Debug)]
pub struct Wide<'a, const W: usize> {
    pub names: u8,
    pub nonterminals: u8,
    pub states: u8,
    pub rules: &'a [[u8; W]],
    pub schema: &'a [[u8; 4]],
    pub ending: &'a [u8],
}

/// An ordinary file, and a file of long rules.
pub type File<'a> = Wide<'a, RULE>;
pub type Long<'a> = Wide<'a, LONG_RULE>;

impl<const W: usize> Wide<'_, W> {
    /// The file as section 4 of the rules lays it out, the contents before the bodies. It is sound where its parts are.
    pub fn bytes(&self) -> Vec<u8> {
        let second = 16 + W * self.rules.len();
        let third = second + 4 * self.schema.len();
        let mut bytes = vec![self.names, self.nonterminals, self.states, 0];
        for (offset, count) in [
            (16, self.rules.len()),
            (second, self.schema.len()),
            (third, self.ending.len()),
        ] {
            bytes.extend((offset as u16).to_le_bytes());
            bytes.extend((count as u16).to_le_bytes());
        }
        bytes.extend(self.rules.concat());
        bytes.extend(self.schema.concat());
        bytes.extend(self.ending);
        bytes
    }
}

/// A fault's place.
pub type Place = u64;

/// Reads a whole file, or gives the place of the first fault in the order of reading.
pub fn read(file: &[u8]) -> Result<File<'_>, Place> {
    read_wide(file)
}

/// The same for a file of long rules.
pub fn read_long(file: &[u8]) -> Result<Long<'_>, Place> {
    read_wide(file)
}

fn read_wide<const W: usize>(file: &[u8]) -> Result<Wide<'_, W>, Place> {
    if file.len() < 16 {
        return Err(0);
    }
    let (names, nonterminals, states) = (file[0], file[1], file[2]);
    hold((1..=32).contains(&names), 0)?;
    hold((1..=64).contains(&nonterminals), 1)?;
    hold((1..=8).contains(&states), 2)?;
    hold(file[3] == 0, 3)?;
    let (rules_end, rules) = body(file, 4, 16, W, 256)?;
    let (schema_end, schema) = body(file, 8, rules_end, 4, 128)?;
    let (end, ending) = body(file, 12, schema_end, 1, states as usize)?;
    hold(file.len() == end, 0)?;
    let sound = Wide {
        names,
        nonterminals,
        states,
        rules: file[rules].as_chunks().0,
        schema: file[schema].as_chunks().0,
        ending: &file[ending],
    };
    sound.bodies()?;
    Ok(sound)
}

fn hold(so: bool, place: usize) -> Result<(), Place> {
    if so {
        Ok(())
    } else {
        Err(place as Place)
    }
}

/// One contents entry at `at`: its offset must be where the body before it ends. Gives the body's
/// end and its range.
fn body(
    file: &[u8],
    at: usize,
    offset: usize,
    width: usize,
    most: usize,
) -> Result<(usize, std::ops::Range<usize>), Place> {
    let number = |p: usize| u16::from_le_bytes([file[p], file[p + 1]]) as usize;
    hold(number(at) == offset, at)?;
    let count = number(at + 2);
    hold(count <= most, at + 2)?;
    let end = offset + width * count;
    Ok((end, offset..end))
}

impl<const W: usize> Wide<'_, W> {
    fn bodies(&self) -> Result<(), Place> {
        let mut place = 16;
        for (i, rule) in self.rules.iter().enumerate() {
            self.rule(rule, place)?;
            hold(i == 0 || self.rules[i - 1] < *rule, place)?;
            place += W;
        }
        for (i, rule) in self.schema.iter().enumerate() {
            let below = [self.states, self.names, self.states, self.states];
            for field in 0..4 {
                hold(rule[field] < below[field], place + field)?;
            }
            hold(i == 0 || self.schema[i - 1] < *rule, place)?;
            place += 4;
        }
        for (i, state) in self.ending.iter().enumerate() {
            hold(*state < self.states, place)?;
            hold(i == 0 || self.ending[i - 1] < *state, place)?;
            place += 1;
        }
        Ok(())
    }

    fn rule(&self, rule: &[u8; W], place: usize) -> Result<(), Place> {
        let most = W - 2;
        hold(rule[0] < self.nonterminals, place)?;
        hold(rule[1] as usize <= most, place + 1)?;
        for i in 0..most {
            let symbol = rule[2 + i];
            let used = i < rule[1] as usize;
            let fits = if used {
                self.symbol(symbol)
            } else {
                symbol == 255
            };
            hold(fits, place + 2 + i)?;
        }
        Ok(())
    }

    fn symbol(&self, symbol: u8) -> bool {
        match symbol {
            0..=63 => symbol % 32 < self.names,
            _ => symbol - 64 < self.nonterminals,
        }
    }
}
