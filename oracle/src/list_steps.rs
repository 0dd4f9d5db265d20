//! Chooses acked numbers, as many as 10,000, the words that are lent to a run
//! for them, and the places there that the events name.

use guovssalu_sys::table::MOST_ACKED;

use crate::calls;
use crate::model::field::*;
use crate::model::Sample;
use crate::model::State;
use crate::values::Random;

/// The longest list.
const LONGEST: u64 = 10_000;

/// The words of a call that say its acked numbers: their count, then up to three
/// of them, or where they begin in the lists and two that are not looked at.
pub type Said = [u64; 1 + MOST_ACKED];

/// The acked numbers of an event.
pub enum Acked {
    /// These, as the call says them.
    Listed(Vec<u64>, Said),
    /// None: the call names a place outside of the lists.
    Outside(Said),
}

/// The words that are lent, and the choice of what stands in them.
pub struct Lists {
    random: Random,
    pub lent: Vec<u64>,
    /// Places to which no list was put yet, and those to which one was: beginning
    /// and length.
    free: Vec<(usize, usize)>,
    filled: Vec<(usize, usize)>,
}

impl Lists {
    pub fn new(stream: u64) -> Self {
        let mut lists = Lists {
            random: Random::new(stream),
            lent: Vec::new(),
            free: Vec::new(),
            filled: Vec::new(),
        };
        lists.renew();
        lists
    }

    /// Lends other words: places for up to six lists, and between them words
    /// most of which would end any round, or were never sent.
    pub fn renew(&mut self) {
        let random = &mut self.random;
        self.free.clear();
        self.filled.clear();
        let mut length = gap(random);
        for _ in 0..random.below(7) {
            let longest = long(random);
            self.free.push((length, longest));
            length += longest + gap(random);
        }
        for last in (1..self.free.len()).rev() {
            let other = random.below(last as u64 + 1) as usize;
            self.free.swap(last, other);
        }
        self.lent.clear();
        self.lent.resize_with(length, || match random.below(4) {
            0 => 0,
            1 => random.of_length(64),
            _ => u64::MAX,
        });
    }

    /// The acked numbers of an event in this state: none to three in the call,
    /// the sample's own at times; or a list, which is put into the lent words, or
    /// a part of one that was; or a place that is outside of these.
    pub fn choose(&mut self, sample: &Sample, state: &State) -> Acked {
        match self.random.below(16) {
            0..=2 => self.few(sample.acked().to_vec()),
            3..=5 => {
                let length = self.random.below(1 + MOST_ACKED as u64) as usize;
                let numbers = self.numbers(length, state);
                self.few(numbers)
            }
            6 | 7 => Acked::Outside(self.outside()),
            _ => match self.free.pop() {
                Some((start, length)) => {
                    let numbers = self.numbers(length, state);
                    self.lent[start..][..length].copy_from_slice(&numbers);
                    self.filled.push((start, length));
                    Acked::Listed(numbers, self.said(start as u64, length as u64))
                }
                None => self.as_it_stands(),
            },
        }
    }

    /// Numbers that are lent already.
    fn as_it_stands(&mut self) -> Acked {
        let anywhere = self.filled.is_empty() || self.random.one_in(8);
        let said = match anywhere {
            true => self.inside(),
            false => Some(self.part()),
        };
        match said {
            Some(said) => Acked::Listed(self.at(&said).to_vec(), said),
            None => Acked::Outside(self.outside()),
        }
    }

    /// A part of a list that was put into the lent words.
    fn part(&mut self) -> Said {
        let (start, length) = self.random.pick(&self.filled);
        let left_out = self.random.below((length - MOST_ACKED) as u64);
        let before = self.random.below(left_out + 1);
        self.said(start as u64 + before, length as u64 - left_out)
    }

    /// Numbers that stand in the call. The rest of the three don't count.
    fn few(&mut self, numbers: Vec<u64>) -> Acked {
        let any = self.random_word();
        let mut said = self.said(any, numbers.len() as u64);
        said[1..][..numbers.len()].copy_from_slice(&numbers);
        Acked::Listed(numbers, said)
    }

    /// A place inside of the lent words, as they stand, if there is one.
    pub fn inside(&mut self) -> Option<Said> {
        let length = self.lent.len() as u64;
        let most = length.checked_sub(1 + MOST_ACKED as u64)?;
        let start = match self.random.below(4) {
            0 => 0,
            1 => most,
            _ => self.random.below(most + 1),
        };
        let longest = (length - start).min(LONGEST);
        let count = match self.random.below(3) {
            0 => 4,
            1 => longest,
            _ => 4 + self.random.below(longest - 3),
        };
        Some(self.said(start, count))
    }

    /// The lent words at a place inside.
    fn at(&self, said: &Said) -> &[u64] {
        &self.lent[said[1] as usize..][..said[0] as usize]
    }

    /// A place outside of the lent words: by a word, by far, or in such a way
    /// that a sum or a number of bytes would wrap.
    pub fn outside(&mut self) -> Said {
        let length = self.lent.len() as u64;
        loop {
            let random = &mut self.random;
            let count = match random.below(8) {
                0..=2 => 4,
                3 => 4 + random.below(20),
                4 | 5 => 4 + random.below(length + 1),
                6 => random.pick(&[
                    u64::MAX,
                    u64::MAX - 1,
                    1 << 63,
                    1 << 61,
                    (1 << 61) + 4,
                    1 << 32,
                    length + 1,
                ]),
                _ => random.of_length(64),
            };
            let start = match random.below(8) {
                0 | 1 => (length + 1).saturating_sub(count),
                2 => length + random.below(2),
                3 => random.below(4),
                // The sum would be 0 to 7.
                4 => random.below(8).wrapping_sub(count),
                5 => random.pick(&[u64::MAX, 1 << 63, 1 << 61, (1 << 61) - 1, 1 << 32]),
                6 => (1 << 61) + random.below(length + 1),
                _ => random.of_length(64),
            };
            if count > 3 && start as u128 + count as u128 > length as u128 {
                return self.said(start, count);
            }
        }
    }

    fn said(&mut self, start: u64, count: u64) -> Said {
        [count, start, self.random_word(), self.random_word()]
    }

    /// A word that isn't looked at.
    fn random_word(&mut self) -> u64 {
        let any = self.random.of_length(64);
        self.random.pick(&[0, u64::MAX, any])
    }

    /// So many acked numbers, at the end of the state's round. In one list of ten
    /// there is one that was never sent, if there is such.
    fn numbers(&mut self, length: usize, state: &State) -> Vec<u64> {
        let mut numbers = self.sent_numbers(length, state);
        let random = &mut self.random;
        if length > 0 && random.one_in(10) {
            let unsent = calls::unsent_number(random, state);
            numbers[place(random, length)] = unsent.unwrap_or(u64::MAX);
        }
        numbers
    }

    /// Such numbers, none above the last sent one.
    fn sent_numbers(&mut self, length: usize, state: &State) -> Vec<u64> {
        let random = &mut self.random;
        let sent = state[LAST_SENT];
        let (end, past) = calls::around_end(state);
        let turns = [end, past, end.saturating_sub(1), sent, 0];
        let upto = |random: &mut Random| match random.below(4) {
            0 | 1 => end,
            2 => end.saturating_sub(1),
            _ => end.min(random.of_length(64)),
        };
        let mut numbers = vec![0; length];
        if length == 0 {
            return numbers;
        }
        let place = place(random, length);
        match random.below(12) {
            // One past the end, or the end and none past it.
            0..=3 => {
                numbers.fill_with(|| upto(random));
                numbers[place] = random.pick(&[past, past, past, sent]);
            }
            4 | 5 => {
                numbers.fill_with(|| upto(random));
                numbers[place] = end;
            }
            6 => numbers.fill(random.pick(&turns)),
            // In descending or ascending order.
            turn @ (7 | 8) => {
                let top = random.pick(&turns);
                let top = top.saturating_add(random.below(2) * random.below(length as u64));
                let top = top.min(sent);
                let descending = (0..length as u64).map(|below| top.saturating_sub(below));
                numbers = descending.collect();
                if turn == 8 {
                    numbers.reverse();
                }
            }
            9 | 10 => numbers.fill_with(|| random.pick(&turns)),
            _ => numbers.fill_with(|| random.of_length(64).min(sent)),
        }
        numbers
    }
}

/// A place in a list of this length: often one of the first or the last.
fn place(random: &mut Random, length: usize) -> usize {
    let last = length - 1;
    let anywhere = random.below(length as u64) as usize;
    let places = [0, 1, 3, length / 2, anywhere, last.saturating_sub(3), last];
    random.pick(&places).min(last)
}

/// The words before, between and after lists.
fn gap(random: &mut Random) -> usize {
    let gap = match random.below(4) {
        0 => 0,
        1 => 1,
        2 => random.below(8),
        _ => random.below(200),
    };
    gap as usize
}

/// The length of a list that doesn't stand in the call.
fn long(random: &mut Random) -> usize {
    let few = MOST_ACKED as u64;
    let long = match random.below(10) {
        0 => few + 1,
        1..=5 => few + 1 + random.below(17),
        6 | 7 => few + 1 + random.below(300),
        8 => LONGEST,
        _ => few + 1 + random.below(LONGEST - few),
    };
    long as usize
}
