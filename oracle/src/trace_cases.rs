//! Traces that are always compared: each text in each field, every set of faults,
//! ends and lengths of lines, headers, and a small trace cut or changed at each byte.

use crate::bounds::BYTES;
use crate::bounds::MOMENT;
use crate::trace::Event;
use crate::trace::Line;
use crate::trace::FIELDS;
use crate::trace::HEADER;
use crate::trace::MOST_BYTES;
use crate::trace::ROWS_HEADER;
use crate::trace_damage;
use crate::trace_damage::Draft;
use crate::trace_damage::ACKED;
use crate::trace_damage::ENDS;
use crate::trace_damage::FLAGS;
use crate::trace_damage::KIND;
use crate::trace_damage::KINDS;
use crate::trace_damage::LENGTHS;
use crate::trace_damage::LOST;
use crate::trace_damage::NUMBER;
use crate::trace_damage::PROBING;
use crate::trace_damage::TEXTS;
use crate::trace_damage::TIME;

/// A whole input, and how it is handed to the port.
pub struct Trace {
    pub name: String,
    pub bytes: Vec<u8>,
    pub pieces: Pieces,
}

#[derive(Clone, Copy, Debug)]
pub enum Pieces {
    Whole,
    /// Of so many bytes.
    Of(usize),
    /// The same, with a pause after each.
    Slowly(usize),
}

impl Pieces {
    /// One of the sizes, or where there are not so many the whole.
    pub fn chosen(which: usize, trace: &[u8]) -> Self {
        match PIECES.get(which) {
            Some(1) if trace.len() > MOST_SINGLE => Pieces::Whole,
            Some(&size) => Pieces::Of(size),
            None => Pieces::Whole,
        }
    }
}

/// The sizes of pieces, beside the whole; long traces come only in the large ones.
const PIECES: [usize; 4] = [1, 7, 4095, 65_535];

/// Into pieces of one byte goes only a trace that has no more bytes than this.
const MOST_SINGLE: usize = 200_000;

/// Document 02's input, and another event.
const SMALL: &str = "\
kind,time,cwnd,inflight,number,bytes,acked,lost,bw,rtt,probing\r
start,0,,,,,,,,100000000,\r
sent,500,,0,1,1300,,,,,\r
event,1000,1300,1300,1,,0,1300,,,0\r
event,2000,9,0,,,5,1300,8,7,1\r
";

/// What each of its bytes is changed to.
const BYTES_PUT: [u8; 9] = [b',', b'"', b'\r', b'\n', 0, b'0', b'9', b'a', 0xff];

const START: Line = Line::Start {
    time: 1000,
    rtt: 100_000_000,
};
const SENT: Line = Line::Sent {
    time: 2000,
    in_flight: 0,
    number: 7,
    bytes: 1300,
};
const EVENT: Line = Line::Event(Event {
    time: 3000,
    cwnd: 13_000,
    in_flight: 1300,
    number: Some(7),
    acked: 1300,
    lost: 1300,
    bw: Some(800_000),
    rtt: Some(50_000),
    probing: false,
});

/// All of them.
pub fn all() -> Vec<Trace> {
    let small = SMALL.as_bytes();
    let mut all = Vec::new();
    let mut add = |name: String, bytes: Vec<u8>| {
        all.push(Trace {
            name,
            bytes,
            pieces: Pieces::Whole,
        })
    };
    add("small".into(), small.to_vec());
    add("fields".into(), with_header(&fields()));
    add("faults".into(), with_header(&faults()));
    add("unstarted".into(), with_header(&unstarted()));
    add("starts".into(), with_header(&starts()));
    add("ends".into(), with_header(&ends()));
    add("lengths".into(), with_header(&lengths()));
    for (count, header) in headers().into_iter().enumerate() {
        add(
            format!("header-{count}"),
            [&header, &small[HEADER.len()..]].concat(),
        );
        add(format!("header-{count}-alone"), header);
    }
    for (count, last) in last_lines().into_iter().enumerate() {
        add(format!("last-{count}"), [small, &last].concat());
    }
    for length in 0..small.len() {
        add(format!("prefix-{length}"), small[..length].to_vec());
    }
    for at in 0..small.len() {
        for byte in BYTES_PUT.into_iter().filter(|&byte| byte != small[at]) {
            let mut bytes = small.to_vec();
            bytes[at] = byte;
            add(format!("change-{at}-to-{byte}"), bytes);
        }
    }
    all.extend(in_pieces());
    all
}

/// More of them, which only a mending tells from others: every set of fields at fault of
/// each kind, before any start is accepted and after.
pub fn for_mending() -> Vec<Trace> {
    // A leading zero, filled, and no flag: at fault in every field, and no kind.
    let faults: Vec<Fault> = (0..FIELDS).map(|place| (place, &b"01"[..])).collect();
    let mut lines = Vec::new();
    for line in ALL {
        sets(&mut lines, Draft::of(&line), &faults);
    }
    let started: Vec<Draft> = before(1).into_iter().chain(lines.clone()).collect();
    let traces = [("sets-before-a-start", lines), ("sets", started)];
    traces
        .map(|(name, lines)| Trace {
            name: name.into(),
            bytes: with_header(&lines),
            pieces: Pieces::Whole,
        })
        .into()
}

/// Some of them once more, in pieces.
fn in_pieces() -> Vec<Trace> {
    let mut all = Vec::new();
    let traces = [
        ("small", SMALL.as_bytes().to_vec(), &PIECES[..]),
        ("ends", with_header(&ends()), &PIECES[..]),
        ("fields", with_header(&fields()), &PIECES[2..]),
        ("lengths", with_header(&lengths()), &PIECES[2..]),
    ];
    for (name, bytes, sizes) in traces {
        for &size in sizes {
            all.push(Trace {
                name: format!("{name}-in-pieces-of-{size}"),
                bytes: bytes.clone(),
                pieces: Pieces::Of(size),
            });
        }
    }
    for size in 1..=16 {
        all.push(Trace {
            name: format!("small-slowly-in-pieces-of-{size}"),
            bytes: SMALL.as_bytes().to_vec(),
            pieces: Pieces::Slowly(size),
        });
    }
    all
}

fn with_header(lines: &[Draft]) -> Vec<u8> {
    let lines = lines.iter().flat_map(Draft::bytes);
    HEADER.iter().copied().chain(lines).collect()
}

/// The lines before which a line of this place stands in a connection: each of the
/// three is accepted after those before it.
fn before(kind: usize) -> Vec<Draft> {
    [START, SENT][..kind].iter().map(Draft::of).collect()
}

const ALL: [Line; 3] = [START, SENT, EVENT];

/// Each text in each field of each kind.
fn fields() -> Vec<Draft> {
    let mut lines = Vec::new();
    for (kind, line) in ALL.iter().enumerate() {
        for place in 0..FIELDS {
            let mut texts = trace_damage::limits();
            texts.extend(TEXTS.map(<[u8]>::to_vec));
            match place {
                KIND => texts.extend(KINDS.map(<[u8]>::to_vec)),
                PROBING => texts.extend(FLAGS.map(<[u8]>::to_vec)),
                _ => {}
            }
            for text in texts {
                lines.extend(before(kind));
                lines.push(Draft::of(line).with(place, &text));
            }
        }
    }
    lines
}

/// A field, and a text by which the line is refused, in a connection that had the
/// three lines.
type Fault = (usize, &'static [u8]);

/// Above every bound of a number.
const OUT: &[u8] = b"4611686018427387905";

const START_FAULTS: [Fault; 3] = [(PROBING, b"0"), (TIME, OUT), (9, OUT)];
const SENT_FAULTS: [Fault; 6] = [
    (PROBING, b"0"),
    (3, OUT),
    (5, OUT),
    (NUMBER, b"01"),
    (TIME, OUT),
    (TIME, b"2999"),
];
const EVENT_FAULTS: [Fault; 12] = [
    (PROBING, b"2"),
    (2, OUT),
    (3, OUT),
    (8, OUT),
    (9, OUT),
    (ACKED, b"1299"),
    (ACKED, OUT),
    (LOST, b"1299"),
    (LOST, OUT),
    (NUMBER, b"8"),
    (TIME, b"2999"),
    (TIME, OUT),
];

/// Every set of faults of each kind, after the three lines. Of two that are of one
/// field the later is written.
fn faults() -> Vec<Draft> {
    let mut lines = ALL.iter().map(Draft::of).collect();
    let kinds: [(Line, &[Fault]); 3] = [
        (START, &START_FAULTS),
        (SENT, &SENT_FAULTS),
        (EVENT, &EVENT_FAULTS),
    ];
    for (line, faults) in kinds {
        sets(&mut lines, Draft::of(&line), faults);
    }
    lines
}

/// The line with each set of these that isn't empty.
fn sets(lines: &mut Vec<Draft>, line: Draft, faults: &[Fault]) {
    for set in 1u32..1 << faults.len() {
        let chosen = (0..).zip(faults).filter(|(bit, _)| set >> bit & 1 == 1);
        let with = |draft: Draft, (_, &(place, text)): (u32, &Fault)| draft.with(place, text);
        lines.push(chosen.fold(line.clone(), with));
    }
}

/// Lines before any start is accepted, and after.
fn unstarted() -> Vec<Draft> {
    let [start, sent, event] = ALL.map(|line| Draft::of(&line));
    let empty = event.clone().with(NUMBER, b"");
    let mut lines = Vec::new();
    for _ in 0..2 {
        lines.extend([sent.clone(), event.clone(), empty.clone()]);
        sets(&mut lines, sent.clone(), &SENT_FAULTS);
        sets(&mut lines, start.clone(), &START_FAULTS);
    }
    lines.extend([sent.clone(), start, event.clone(), empty, sent, event]);
    lines
}

/// Second starts, refused and done, and what comes after each.
fn starts() -> Vec<Draft> {
    let [start, sent, event] = ALL.map(|line| Draft::of(&line));
    let earlier = sent.clone().with(TIME, b"999");
    let again = event.clone().with(NUMBER, b"").with(LOST, b"2600");
    let next = sent.clone().with(TIME, b"3001").with(NUMBER, b"8");
    let ends = again.clone().with(TIME, b"3002").with(NUMBER, b"8");
    let mut lines = Vec::new();
    let mut seconds = vec![start.clone(), start.clone().with(TIME, b"0")];
    sets(&mut seconds, start.clone(), &START_FAULTS);
    for second in seconds {
        lines.extend([start.clone(), sent.clone(), event.clone(), second]);
        lines.extend([earlier.clone(), event.clone(), again.clone()]);
        lines.extend([next.clone(), ends.clone()]);
    }
    lines
}

/// Each end, after each kind, and before a sound line.
fn ends() -> Vec<Draft> {
    let mut lines = Vec::new();
    for end in ENDS {
        for (kind, line) in ALL.iter().enumerate() {
            lines.extend(before(kind));
            let mut draft = Draft::of(line);
            draft.end = end.to_vec();
            lines.push(draft);
            lines.extend([Draft::of(&EVENT)]);
        }
    }
    lines
}

/// Lines of each length: so many bytes in all, by zeros before a number, which no
/// reader may pass over; and so many bytes before a sound line.
fn lengths() -> Vec<Draft> {
    let mut lines = Vec::new();
    for length in LENGTHS {
        for (kind, line) in ALL.iter().enumerate() {
            lines.extend(before(kind));
            let draft = Draft::of(line);
            let zeros = vec![b'0'; length - draft.bytes().len()];
            let time = [&zeros[..], &draft.fields[TIME]].concat();
            lines.push(draft.clone().with(TIME, &time));
            for byte in *b"a0,\0\r" {
                let mut behind = draft.clone();
                behind.before = vec![byte; length];
                lines.push(behind);
            }
        }
    }
    lines
}

/// Headers that are wrong but the last, which another follows.
fn headers() -> Vec<Vec<u8>> {
    let bare = &HEADER[..HEADER.len() - 2];
    let text = String::from_utf8(bare.to_vec()).unwrap();
    let mut headers: Vec<Vec<u8>> = [
        "",
        "\r\n",
        "\n",
        "\r",
        "\0\r\n",
        "kind\r\n",
        "time,kind\r\n",
        ",,,,,,,,,,\r\n",
    ]
    .map(|header| header.as_bytes().to_vec())
    .to_vec();
    for end in [
        "", "\n", "\r", "\r\r\n", "\n\r", " \r\n", ",\r\n", "\0\r\n", "\t\r\n", ",x\r\n", "\r\n\r",
    ] {
        headers.push(format!("{text}{end}").into_bytes());
    }
    for front in ["\u{feff}", " ", "\r\n", "\n", "\0", "\"", ",", "#"] {
        headers.push(format!("{front}{text}\r\n").into_bytes());
    }
    let lines = [
        text.to_uppercase(),
        text.replace("kind", "Kind"),
        text.replace("probing", "probing "),
        text.replace("bw", "\"bw\""),
        text.replace(",rtt", ""),
        text.replace("bw,rtt", "rtt,bw"),
        text.replace(',', ", "),
        text.replace(',', ";"),
        text.replace(',', "\t"),
        text.replace(',', "\",\""),
        text.replace("time", "time\0"),
        text.replace("inflight", "in_flight"),
    ];
    headers.extend(lines.map(|line| format!("{line}\r\n").into_bytes()));
    headers.push(ROWS_HEADER.to_vec());
    for length in [MOST_BYTES - 1, MOST_BYTES, MOST_BYTES + 1, 70_000, 200_000] {
        headers.push([&vec![b'a'; length], HEADER].concat());
        headers.push([bare, &vec![b' '; length - bare.len() - 2], b"\r\n"].concat());
    }
    headers.push([HEADER, HEADER].concat());
    headers
}

/// What may stand after the last line that is whole.
fn last_lines() -> Vec<Vec<u8>> {
    let start = Draft::of(&START).bytes();
    let bare = &start[..start.len() - 2];
    let mut last: Vec<Vec<u8>> = [
        "\r", "\n", "\r\n", " ", "\0", ",", "start", "\r\n\r\n", "\n\n",
    ]
    .map(|text| text.as_bytes().to_vec())
    .to_vec();
    for end in ["", "\r", "\n", "\r\r", "\r\n\r", "\r\n\n"] {
        last.push([bare, end.as_bytes()].concat());
    }
    for length in LENGTHS {
        last.push(vec![b'0'; length]);
    }
    let most = BYTES.max(MOMENT).to_string();
    last.push(format!("start,{most},,,,,,,,0,\r\nsent,{most},,0,0,0,,,,,").into_bytes());
    last
}
