//! Lent ranges of bytes with guards around them.

use guovssalu_sys::table::WORD_BYTES;

use crate::dice::Dice;
use crate::pages::Area;

/// At least so many guard bytes stand on a side that has no page without access.
const GUARD: usize = 64;

/// After so many ranges the guards get another pattern.
const USES: u32 = 1_024;

/// Addresses where nothing is. A range without bytes may be there: its pointer is not used.
const NOWHERE: [usize; 5] = [0, 0, 1, 1 << 63, usize::MAX];

/// A place from which one range at a time is lent. All of it that is not lent is guard; a third of
/// the ranges ends just before a page without access, another begins just after one, and the rest
/// lies between guards, at any alignment if they are bytes.
pub struct Ground {
    area: Area,
    pattern: Vec<u8>,
    start: usize,
    end: usize,
    nowhere: Option<usize>,
    uses: u32,
    of_words: bool,
}

impl Ground {
    /// A ground for ranges of at most so many bytes.
    pub fn new(longest: usize) -> Self {
        let area = Area::new(longest + 2 * GUARD);
        let pattern = vec![0; area.bytes().len()];
        Ground {
            area,
            pattern,
            start: 0,
            end: 0,
            nowhere: None,
            uses: 0,
            of_words: false,
        }
    }

    /// A ground for at most so many words that may only be read. They lie as words must; those that end
    /// just before a page without access can't be written.
    pub fn of_words(longest: usize) -> Self {
        let mut ground = Ground::new(longest * WORD_BYTES);
        ground.of_words = true;
        ground
    }

    /// Lends these bytes: puts them somewhere, with guards around them.
    pub fn lend(&mut self, bytes: &[u8], dice: &mut Dice) {
        self.area.open();
        self.take_back(dice);
        let room = self.pattern.len() - bytes.len();
        self.start = match dice.below(3) {
            0 => 0,
            1 => room,
            _ => GUARD + dice.length(room - 2 * GUARD + 1),
        };
        if self.of_words {
            self.start -= self.start % WORD_BYTES;
        }
        self.end = self.start + bytes.len();
        self.nowhere = if bytes.is_empty() && dice.one_in(2) {
            Some(dice.pick(&NOWHERE))
        } else {
            None
        };
        self.area.bytes_mut()[self.start..self.end].copy_from_slice(bytes);
        if self.of_words && self.end == self.pattern.len() {
            self.area.close();
        }
    }

    /// Makes all of it guard again.
    fn take_back(&mut self, dice: &mut Dice) {
        let (start, end) = (self.start, self.end);
        self.area.bytes_mut()[start..end].copy_from_slice(&self.pattern[start..end]);
        if self.uses == 0 {
            self.uses = USES;
            self.pattern = dice.bytes(self.pattern.len());
            self.area.bytes_mut().copy_from_slice(&self.pattern);
        }
        self.uses -= 1;
    }

    /// What the lent range holds.
    pub fn bytes(&self) -> &[u8] {
        &self.area.bytes()[self.start..self.end]
    }

    /// Where the lent range begins; for some ranges without bytes it is nowhere.
    pub fn pointer(&mut self) -> *mut u8 {
        match self.nowhere {
            Some(address) => address as *mut u8,
            None => self.area.at(self.start),
        }
    }

    /// How many bytes are lent.
    pub fn len(&self) -> usize {
        self.end - self.start
    }

    /// How many bytes are guard.
    pub fn guards(&self) -> u64 {
        (self.pattern.len() - self.len()) as u64
    }

    /// Where the first guard byte that has changed lies, seen from the lent range's begin.
    pub fn touched(&self) -> Option<isize> {
        let now = self.area.bytes();
        let same = now[..self.start] == self.pattern[..self.start]
            && now[self.end..] == self.pattern[self.end..];
        if same {
            return None;
        }
        let lent = self.start..self.end;
        let mut places = (0..now.len()).filter(|place| !lent.contains(place));
        let first = places.find(|&place| now[place] != self.pattern[place])?;
        Some(first as isize - self.start as isize)
    }

    /// Puts the guards right, after they were touched.
    pub fn mend(&mut self) {
        self.uses = 0;
    }
}
