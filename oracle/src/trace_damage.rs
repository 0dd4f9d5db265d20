//! Damage to a line of a trace: what a refusal, or an error in the reading, turns on.

use crate::bounds::BYTES;
use crate::bounds::LENGTH;
use crate::bounds::MOMENT;
use crate::trace::Event;
use crate::trace::Line;
use crate::trace::HEADER;
use crate::trace::MOST_BYTES;
use crate::trace_replay::Accepted;
use crate::values::Random;

/// A line that isn't written yet.
#[derive(Clone, Debug)]
pub struct Draft {
    /// Bytes in front of it.
    pub before: Vec<u8>,
    pub fields: Vec<Vec<u8>>,
    pub end: Vec<u8>,
}

/// The places of fields.
pub const KIND: usize = 0;
pub const TIME: usize = 1;
pub const NUMBER: usize = 4;
pub const ACKED: usize = 6;
pub const LOST: usize = 7;
pub const PROBING: usize = 10;

impl Draft {
    pub fn of(line: &Line) -> Self {
        let text = |number: u64| number.to_string();
        let or_none = |number: Option<u64>| number.map_or(String::new(), text);
        let mut fields = vec![String::new(); PROBING + 1];
        let places: &[(usize, String)] = &match *line {
            Line::Start { time, rtt } => {
                vec![(KIND, "start".into()), (TIME, text(time)), (9, text(rtt))]
            }
            Line::Sent {
                time,
                in_flight,
                number,
                bytes,
            } => vec![
                (KIND, "sent".into()),
                (TIME, text(time)),
                (3, text(in_flight)),
                (NUMBER, text(number)),
                (5, text(bytes)),
            ],
            Line::Event(Event {
                time,
                cwnd,
                in_flight,
                number,
                acked,
                lost,
                bw,
                rtt,
                probing,
            }) => vec![
                (KIND, "event".into()),
                (TIME, text(time)),
                (2, text(cwnd)),
                (3, text(in_flight)),
                (NUMBER, or_none(number)),
                (ACKED, text(acked)),
                (LOST, text(lost)),
                (8, or_none(bw)),
                (9, or_none(rtt)),
                (PROBING, text(probing as u64)),
            ],
        };
        for (place, text) in places {
            fields[*place] = text.clone();
        }
        Draft {
            before: Vec::new(),
            fields: fields.into_iter().map(String::into_bytes).collect(),
            end: b"\r\n".to_vec(),
        }
    }

    /// The same with this text in a field.
    pub fn with(mut self, place: usize, text: &[u8]) -> Self {
        self.fields[place] = text.to_vec();
        self
    }

    pub fn bytes(&self) -> Vec<u8> {
        [&self.before[..], &self.fields.join(&b','), &self.end].concat()
    }
}

/// Numbers at a limit, one inside of it and one outside, and what is none.
pub fn limits() -> Vec<Vec<u8>> {
    let mut numbers = vec![0, 1, u64::MAX as u128 / 10, 10_000_000_000_000_000_000];
    for power in [8, 16, 24, 31, 32, 36, 40, 53, 62, 63, 64] {
        let limit = 1u128 << power;
        numbers.extend([limit - 1, limit, limit + 1]);
    }
    for power in [65, 66, 127] {
        numbers.extend([1 << power, (1 << power) + 5]);
    }
    let tens = 100_000_000_000_000_000_000u128;
    numbers.extend([tens - 1, tens, tens + 1, 10 * tens - 1, 10 * tens]);
    numbers
        .iter()
        .map(|number| number.to_string().into_bytes())
        .collect()
}

/// What is no number, or just one.
pub const TEXTS: [&[u8]; 48] = [
    b"",
    b"0",
    b"1",
    b"00",
    b"01",
    b"007",
    b"+1",
    b"-1",
    b"-0",
    b"+0",
    b"1.0",
    b"1.",
    b".5",
    b"1e3",
    b"0x1",
    b"1_0",
    b"1'0",
    b" ",
    b" 1",
    b"1 ",
    b"1 1",
    b"\t1",
    b"1\t",
    b"\"1\"",
    b"\"",
    b"\"\"",
    b"'1'",
    b"\0",
    b"1\0",
    b"\x001",
    b"\x0b1",
    b"\x7f",
    b"\x80",
    b"\xff",
    b"1\xff",
    b"\xb2",
    b"\xb1",
    b"1\xb0",
    b"\xc2\xb9",
    b"\xef\xbc\x91",
    b"\r",
    b"1\r",
    b"/",
    b"1/",
    b"1:",
    b":",
    b"NaN",
    b"a",
];

/// What is no kind, or just one.
pub const KINDS: [&[u8]; 26] = [
    b"start",
    b"sent",
    b"event",
    b"",
    b"Start",
    b"Sent",
    b"EVENT",
    b"start ",
    b" start",
    b"sent\t",
    b"stat",
    b"startt",
    b"sen",
    b"sents",
    b"even",
    b"events",
    b"event\0",
    b"\"sent\"",
    b"\"start\"",
    b"kind",
    b"\xef\xbb\xbfstart",
    b"\xef\xbb\xbfevent",
    b"0",
    b"sta\0t",
    b"s\xe8nt",
    b"finish",
];

/// What is no flag, or just one.
pub const FLAGS: [&[u8]; 14] = [
    b"0", b"1", b"2", b"", b"00", b"01", b"10", b"11", b"256", b"257", b"true", b" 0", b"1 ",
    b"\"1\"",
];

/// What ends no line, or just one.
pub const ENDS: [&[u8]; 16] = [
    b"\n",
    b"\r",
    b"",
    b"\r\r\n",
    b"\n\r",
    b"\n\n",
    b"\r\n\r\n",
    b"\r\n\n",
    b"\r\n\r",
    b" \r\n",
    b"\r \n",
    b",\r\n",
    b"\0\r\n",
    b"\r\0\n",
    b"\x0b\r\n",
    b"\xc2\x85\r\n",
];

/// Lengths around that of the longest line, and around a buffer's.
pub const LENGTHS: [usize; 12] = [
    MOST_BYTES - 2,
    MOST_BYTES - 1,
    MOST_BYTES,
    MOST_BYTES + 1,
    MOST_BYTES + 2,
    2 * MOST_BYTES,
    2 * MOST_BYTES + 1,
    65_535,
    65_536,
    65_537,
    70_000,
    200_000,
];

/// What is done to a line, by what was accepted before it.
type Damage = fn(&mut Draft, &mut Random, &Accepted);

/// Each with its name, and how often it is chosen.
const DAMAGES: [(&str, u64, Damage); 18] = [
    ("a number at a limit", 40, limit),
    ("two numbers at a limit", 10, two_limits),
    ("an earlier moment", 10, earlier),
    ("a lower total", 10, lower),
    ("a number never sent", 10, never_sent),
    ("several of these", 20, several),
    ("a text for a number", 20, text),
    ("a byte put into a field", 10, put),
    ("another field emptied", 5, emptied),
    ("another field filled", 5, filled),
    ("another flag", 5, flag),
    ("another kind", 10, another_kind),
    ("a comma more or less", 10, commas),
    ("another end", 15, end),
    ("a line or the header in front", 5, in_front),
    ("a byte changed", 10, byte_changed),
    ("a long field", 2, long_field),
    ("a long line with a sound one in it", 2, long_line),
];

/// Their names.
pub fn names() -> Vec<&'static str> {
    DAMAGES.iter().map(|&(name, ..)| name).collect()
}

/// Damages a line; the name of what was done.
pub fn damage(draft: &mut Draft, random: &mut Random, accepted: &Accepted) -> &'static str {
    let mut left = random.below(DAMAGES.iter().map(|&(_, often, _)| often).sum());
    for (name, often, damage) in DAMAGES {
        if left < often {
            damage(draft, random, accepted);
            return name;
        }
        left -= often;
    }
    unreachable!("the choice is below the sum")
}

/// A field that holds a number; the moment's where none does.
fn filled_field(draft: &Draft, random: &mut Random) -> usize {
    let is_filled = |&place: &usize| draft.fields.get(place).is_some_and(|it| !it.is_empty());
    let filled: Vec<usize> = (TIME..PROBING).filter(is_filled).collect();
    match filled.is_empty() {
        true => TIME,
        false => random.pick(&filled),
    }
}

/// Puts a text into a field, if the line has it.
fn replace(draft: &mut Draft, place: usize, text: &[u8]) {
    if let Some(field) = draft.fields.get_mut(place) {
        *field = text.to_vec();
    }
}

fn set(draft: &mut Draft, place: usize, number: u64) {
    replace(draft, place, number.to_string().as_bytes());
}

fn limit(draft: &mut Draft, random: &mut Random, _: &Accepted) {
    let place = filled_field(draft, random);
    let near = match random.below(4) {
        0 => LENGTH,
        1 => BYTES,
        2 => MOMENT,
        _ => {
            let limits = limits();
            let chosen = random.below(limits.len() as u64) as usize;
            return replace(draft, place, &limits[chosen]);
        }
    };
    set(draft, place, near - 1 + random.below(3));
}

fn two_limits(draft: &mut Draft, random: &mut Random, accepted: &Accepted) {
    limit(draft, random, accepted);
    limit(draft, random, accepted);
}

fn earlier(draft: &mut Draft, random: &mut Random, accepted: &Accepted) {
    let back = random.pick(&[0, 1, 2, 1000, u64::MAX]);
    set(draft, TIME, accepted.moment.saturating_sub(back));
}

fn lower(draft: &mut Draft, random: &mut Random, accepted: &Accepted) {
    let back = random.pick(&[0, 1, 1, 1300, u64::MAX]);
    match random.below(2) {
        0 => set(draft, ACKED, accepted.acked.saturating_sub(back)),
        _ => set(draft, LOST, accepted.lost.saturating_sub(back)),
    }
}

fn never_sent(draft: &mut Draft, random: &mut Random, accepted: &Accepted) {
    let last = accepted.sent.unwrap_or(0);
    let above = last.saturating_add(random.pick(&[0, 1, 1, 2, 1 << 32]));
    set(draft, NUMBER, random.pick(&[above, above, above, u64::MAX]));
}

fn several(draft: &mut Draft, random: &mut Random, accepted: &Accepted) {
    for damage in [earlier, lower, never_sent, limit, text] {
        if random.one_in(2) {
            damage(draft, random, accepted);
        }
    }
}

fn text(draft: &mut Draft, random: &mut Random, _: &Accepted) {
    let place = filled_field(draft, random);
    replace(draft, place, random.pick(&TEXTS));
}

fn put(draft: &mut Draft, random: &mut Random, _: &Accepted) {
    let byte = random.pick(b"0019+- .\"'\t\0\r;:/\x80\xff");
    let place = random.below(draft.fields.len() as u64) as usize;
    let field = &mut draft.fields[place];
    let at = random.below(field.len() as u64 + 1) as usize;
    field.insert(at, byte);
}

fn emptied(draft: &mut Draft, random: &mut Random, _: &Accepted) {
    let place = filled_field(draft, random);
    replace(draft, place, b"");
}

fn filled(draft: &mut Draft, random: &mut Random, _: &Accepted) {
    let place = TIME + random.below(PROBING as u64) as usize;
    set(draft, place, random.below(3));
}

fn flag(draft: &mut Draft, random: &mut Random, _: &Accepted) {
    replace(draft, PROBING, random.pick(&FLAGS));
}

fn another_kind(draft: &mut Draft, random: &mut Random, _: &Accepted) {
    replace(draft, KIND, random.pick(&KINDS));
}

fn commas(draft: &mut Draft, random: &mut Random, _: &Accepted) {
    let place = random.below(draft.fields.len() as u64) as usize;
    match random.below(4) {
        0 => {
            draft.fields.insert(place, Vec::new());
        }
        1 => {
            draft.fields.remove(place);
        }
        2 => draft.fields.push(Vec::new()),
        _ => draft.fields.truncate(place + 1),
    }
}

fn end(draft: &mut Draft, random: &mut Random, _: &Accepted) {
    draft.end = random.pick(&ENDS).to_vec();
}

fn in_front(draft: &mut Draft, random: &mut Random, _: &Accepted) {
    let front: &[u8] = random.pick(&[
        b"\r\n",
        b"\n",
        b"\r",
        b" \r\n",
        b",,,,,,,,,,\r\n",
        b"\xef\xbb\xbf",
        HEADER,
    ]);
    draft.before = front.to_vec();
}

fn byte_changed(draft: &mut Draft, random: &mut Random, _: &Accepted) {
    let mut bytes = draft.bytes();
    let at = random.below(bytes.len() as u64) as usize;
    match random.below(3) {
        0 => bytes[at] = random.next() as u8,
        1 => bytes[at] ^= 1 << random.below(8),
        _ => {
            bytes.remove(at);
        }
    }
    *draft = Draft {
        before: bytes,
        fields: vec![Vec::new()],
        end: Vec::new(),
    };
}

/// A length, seldom one of the longest.
fn length(random: &mut Random) -> usize {
    match random.one_in(8) {
        true => random.pick(&LENGTHS),
        false => random.pick(&LENGTHS[..5]),
    }
}

/// A number with so many zeros in front, or so many digits, that the line has such
/// a length.
fn long_field(draft: &mut Draft, random: &mut Random, _: &Accepted) {
    let place = filled_field(draft, random);
    let more = length(random).saturating_sub(draft.bytes().len());
    let byte = random.pick(b"0009 \0");
    if let Some(field) = draft.fields.get_mut(place) {
        field.splice(..0, vec![byte; more]);
    }
}

/// As many bytes in front of the line, which a reader that takes them for a line of
/// their own would accept.
fn long_line(draft: &mut Draft, random: &mut Random, _: &Accepted) {
    draft.before = vec![random.pick(b"a0, \0\r\xff"); length(random)];
}
