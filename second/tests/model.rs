//! A slow model, written a second time and bit by bit, held against the library on made cases.
#![deny(warnings)]

use second::make::{Calls, Reads, Step};
use second::text::{hex, read_verdict, read_verdict_by, Plate};
use second::{call, count_in, marks, read, row_in, setup, shown, write};
use second::{Association, Marks, Part, Profile, Read, Tmgi, M3AP, SBCAP, SBCAP_LAB, UNIT_OCTETS};

type Pair = (Option<u16>, Option<u16>);
type Note = (u8, u16, u8);
type Bad = (u8, usize);

#[derive(Clone, Debug)]
enum Value {
    Identity(u16),
    Tmgi(Vec<u8>),
    Session(u8),
    Cause(u8, u8),
    All,
    Part(Vec<Pair>),
    Acknowledged(Vec<Pair>),
    Diagnostics(Option<u8>, Option<u8>, Option<u8>, Option<Vec<Note>>),
    /// Where the characters begin, and they.
    Name(usize, Vec<u8>),
    Wait(u8),
    /// SBc-AP's Cause.
    Number(u8),
    Carried(Vec<u8>),
}

const PRINTABLE: &str = "ABCDEFGHIJKLMNOPQRSTUVWXYZ abcdefghijklmnopqrstuvwxyz 0123456789 '()+,-./:=?";

struct Message {
    name: &'static str,
    frame: u8,
    kind: u8,
    procedure: u8,
    elements: Vec<(u16, Value)>,
    noted: Vec<Note>,
    rejected: Option<(u8, u8, Option<usize>)>,
    /// Only its table's elements and criticalities, none missing.
    plain: bool,
}

enum Verdict {
    Bare(u8),
    At(Bad),
    Message(Message),
}

#[derive(Clone, Copy, PartialEq)]
enum By {
    M3ap,
    Sbcap,
    Lab,
}

/// kind, procedure, frame's criticality, name, elements (id, presence, criticality).
type Table = (u64, u64, u8, &'static str, &'static str);

fn tables(by: By) -> &'static [Table] {
    match by {
        By::M3ap => &M3AP_TABLES,
        By::Sbcap => &SBCAP_TABLES,
        By::Lab => &LAB_TABLES,
    }
}

const M3AP_TABLES: [Table; 11] = [
    (0, 0, 0, "StartRequest", "0mr 2mr 3oi 4mr 5mr 6mr 16mr 7mr 21oi 23oi 24oi 25or"),
    (1, 0, 0, "StartResponse", "0mi 1mi 8oi"),
    (2, 0, 0, "StartFailure", "0mi 9mi 8oi"),
    (0, 1, 0, "StopRequest", "0mr 1mr 22oi"),
    (1, 1, 0, "StopResponse", "0mi 1mi 8oi"),
    (0, 4, 0, "Reset", "9mi 13mr"),
    (1, 4, 0, "ResetAcknowledge", "15oi 8oi"),
    (0, 2, 1, "ErrorIndication", "0oi 1oi 9oi 8oi"),
    (0, 7, 0, "SetupRequest", "18mr 19oi 20mr"),
    (1, 7, 0, "SetupResponse", "8oi"),
    (2, 7, 0, "SetupFailure", "9mi 12oi 8oi"),
];

const RESPONSE: Table = (1, 1, 0, "StopWarningResponse", "5mr 11mr 1mr 2oi 22oi");
const INDICATION: Table = (0, 2, 1, "WarningErrorIndication", "1oi 2oi");
const SBCAP_TABLES: [Table; 3] =
    [(0, 1, 0, "StopWarningRequest", "5mr 11mr 14or 15oi 19oi 26oi 27or"), RESPONSE, INDICATION];
const LAB_TABLES: [Table; 3] = [(0, 1, 0, "StopWarningRequest", "5mr 11mr"), RESPONSE, INDICATION];

fn rows(text: &str) -> Vec<(u16, bool, u8)> {
    text.split(' ')
        .map(|row| {
            let (id, rest) = row.split_at(row.len() - 2);
            (id.parse().unwrap(), rest.starts_with('m'), rest.ends_with('i') as u8)
        })
        .collect()
}

/// Bits of `o` from `bit` up to the octet `end`.
struct Cursor<'a> {
    o: &'a [u8],
    bit: usize,
    end: usize,
}

impl<'a> Cursor<'a> {
    fn at(&self) -> usize {
        self.bit / 8
    }

    fn take(&mut self, width: usize) -> Result<u64, Bad> {
        if self.bit + width > 8 * self.end {
            return Err((2, self.at()));
        }
        let mut value = 0;
        for _ in 0..width {
            value = value << 1 | (self.o[self.bit / 8] >> (7 - self.bit % 8) & 1) as u64;
            self.bit += 1;
        }
        Ok(value)
    }

    fn extension(&mut self) -> Result<(), Bad> {
        let at = self.at();
        match self.take(1)? {
            0 => Ok(()),
            _ => Err((3, at)),
        }
    }

    fn below(&mut self, width: usize, limit: u64) -> Result<u8, Bad> {
        let at = self.at();
        let value = self.take(width)?;
        if value < limit {
            Ok(value as u8)
        } else {
            Err((2, at))
        }
    }

    fn align(&mut self) -> Result<(), Bad> {
        let at = self.at();
        match self.take((8 - self.bit % 8) % 8)? {
            0 => Ok(()),
            _ => Err((2, at)),
        }
    }

    fn finish(&mut self) -> Result<(), Bad> {
        self.align()?;
        if self.at() < self.end {
            return Err((2, self.at()));
        }
        Ok(())
    }

    /// A length; the value's own cursor. This one goes on behind it.
    fn open(&mut self) -> Result<Cursor<'a>, Bad> {
        let at = self.at();
        let bad = Err((2, at));
        let Ok(first) = self.take(8) else { return bad };
        let size = match first {
            0..=127 => first,
            128..=191 => match self.take(8) {
                Ok(second) => (first - 128) * 256 + second,
                Err(_) => return bad,
            },
            _ => return bad,
        } as usize;
        if first >= 128 && size < 128 || size == 0 || self.at() + size > self.end {
            return bad;
        }
        let value = Cursor { o: self.o, bit: self.bit, end: self.at() + size };
        self.bit = 8 * value.end;
        Ok(value)
    }
}

fn pairs(c: &mut Cursor) -> Result<Vec<Pair>, Bad> {
    let mut list = Vec::new();
    for _ in 0..c.take(8)? + 1 {
        let at = c.at();
        if c.take(16)? != 14 {
            return Err((2, at));
        }
        c.below(2, 3)?;
        c.align()?;
        let mut item = c.open()?;
        item.extension()?;
        let (mme, mce) = (item.take(1)?, item.take(1)?);
        item.extension()?;
        item.align()?;
        let mut pair = (None, None);
        if mme == 1 {
            pair.0 = Some(item.take(16)? as u16);
        }
        if mce == 1 {
            pair.1 = Some(item.take(16)? as u16);
        }
        item.finish()?;
        list.push(pair);
    }
    Ok(list)
}

/// Criticality Diagnostics with so many triggering messages.
fn diagnostics(c: &mut Cursor, triggers: u64) -> Result<Value, Bad> {
    c.extension()?;
    let (code, trigger, criticality, list) = (c.take(1)?, c.take(1)?, c.take(1)?, c.take(1)?);
    c.extension()?;
    let mut parts = (None, None, None, None);
    if code == 1 {
        c.align()?;
        parts.0 = Some(c.take(8)? as u8);
    }
    if trigger == 1 {
        parts.1 = Some(c.below(2, triggers)?);
    }
    if criticality == 1 {
        parts.2 = Some(c.below(2, 3)?);
    }
    if list == 1 {
        c.align()?;
        let mut entries = Vec::new();
        for _ in 0..c.take(8)? + 1 {
            c.extension()?;
            c.extension()?;
            let criticality = c.below(2, 3)?;
            c.align()?;
            let id = c.take(16)? as u16;
            c.extension()?;
            entries.push((criticality, id, c.take(1)? as u8));
        }
        parts.3 = Some(entries);
    }
    Ok(Value::Diagnostics(parts.0, parts.1, parts.2, parts.3))
}

fn carried(c: &mut Cursor) -> Value {
    let octets = c.o[c.at()..c.end].to_vec();
    c.bit = 8 * c.end;
    Value::Carried(octets)
}

/// A value of SBc-AP.
fn warning_value(id: u16, mut c: Cursor) -> Result<Value, Bad> {
    let value = match id {
        5 | 11 => Value::Identity(c.take(16)? as u16),
        1 => Value::Number(c.take(8)? as u8),
        2 => diagnostics(&mut c, 4)?,
        _ => carried(&mut c),
    };
    c.finish()?;
    Ok(value)
}

fn value(id: u16, mut c: Cursor) -> Result<Value, Bad> {
    let c = &mut c;
    let value = match id {
        0 | 1 => Value::Identity(c.take(16)? as u16),
        2 => {
            c.extension()?;
            c.align()?;
            let both = [c.take(24)?, c.take(24)?];
            Value::Tmgi(both.iter().flat_map(|v| v.to_be_bytes()[5..].to_vec()).collect())
        }
        3 => Value::Session(c.take(8)? as u8),
        9 => {
            c.extension()?;
            let group = c.below(3, 5)?;
            c.extension()?;
            let number = match group {
                0 => c.below(3, 8)?,
                1 => c.below(1, 2)?,
                2 => 0,
                3 => c.below(3, 7)?,
                _ => c.below(3, 5)?,
            };
            Value::Cause(group, number)
        }
        13 => {
            c.extension()?;
            if c.take(1)? == 0 {
                c.extension()?;
                Value::All
            } else {
                c.align()?;
                Value::Part(pairs(c)?)
            }
        }
        15 => Value::Acknowledged(pairs(c)?),
        8 => diagnostics(c, 3)?,
        19 => {
            c.extension()?;
            let at = c.at();
            let n = c.below(8, 150)? as usize + 1;
            // Characters begin with a whole octet; a length that reaches past the value is at fault.
            if c.bit.div_ceil(8) + n > c.end {
                return Err((2, at));
            }
            c.align()?;
            let first = c.at();
            let mut characters = Vec::new();
            for at in first..first + n {
                let character = c.take(8)? as u8;
                if !PRINTABLE.as_bytes().contains(&character) {
                    return Err((2, at));
                }
                characters.push(character);
            }
            Value::Name(first, characters)
        }
        12 => {
            c.extension()?;
            Value::Wait(c.below(3, 6)?)
        }
        _ => carried(c),
    };
    c.finish()?;
    Ok(value)
}

/// What the reader says; with `open`, what a call of M3AP says on a unit of that mark.
fn model_read(by: By, o: &[u8], open: Option<bool>) -> Verdict {
    if o.len() > 8192 {
        return Verdict::Bare(1);
    }
    let framed = || {
        let mut c = Cursor { o, bit: 0, end: o.len() };
        c.extension()?;
        let kind = c.below(2, 3)?;
        c.align()?;
        let procedure = c.take(8)?;
        let criticality = c.below(2, 3)?;
        c.align()?;
        let message = c.open()?;
        c.finish()?;
        Ok((kind as u64, procedure, criticality, message))
    };
    let (kind, procedure, criticality, message) = match framed() {
        Ok(frame) => frame,
        Err(bad) => return Verdict::At(bad),
    };
    let Some(&(.., own, name, table)) = tables(by).iter().find(|t| t.0 == kind && t.1 == procedure) else {
        return Verdict::Bare(4);
    };
    if let Some(open) = open {
        match name {
            "SetupResponse" | "SetupFailure" if open => {}
            "SetupResponse" | "SetupFailure" => return Verdict::Bare(14),
            "StartRequest" | "StopRequest" | "Reset" | "ErrorIndication" => {}
            _ => return Verdict::Bare(4),
        }
    }
    let rows = rows(table);

    // All elements first, and all that stands beside them; then judging.
    let elements = (|| {
        let mut c = message;
        let (mut list, mut beside) = (Vec::new(), Vec::new());
        c.extension()?;
        let container = by != By::M3ap && name != "WarningErrorIndication" && c.take(1)? == 1;
        c.align()?;
        for _ in 0..c.take(16)? {
            let id = c.take(16)? as u16;
            let criticality = c.below(2, 3)?;
            c.align()?;
            let open = c.open()?;
            let row = rows.iter().position(|row| row.0 == id);
            let value = match row {
                Some(_) if by == By::M3ap => Some(value(id, open)?),
                Some(_) => Some(warning_value(id, open)?),
                None => None,
            };
            list.push((id, criticality, row, value));
        }
        if container {
            let at = c.at();
            let less_one = c.take(16)?;
            if less_one == 65535 {
                return Err((2, at));
            }
            for _ in 0..less_one + 1 {
                let id = c.take(16)? as u16;
                let criticality = c.below(2, 3)?;
                c.align()?;
                c.open()?;
                beside.push((criticality, id, 0));
            }
        }
        c.finish()?;
        Ok((list, beside))
    })();
    let (elements, beside) = match elements {
        Ok(elements) => elements,
        Err(bad) => return Verdict::At(bad),
    };

    let known: Vec<(usize, usize)> = elements.iter().enumerate().filter_map(|(i, e)| e.2.map(|row| (i, row))).collect();
    let place = known.windows(2).find(|w| w[1].1 <= w[0].1).map(|w| w[1].0);
    let before = &elements[..place.unwrap_or(elements.len())];
    let mut noted: Vec<Note> =
        before.iter().filter(|e| e.2.is_none() && e.1 != 1).map(|e| (e.1, e.0, 0)).collect();
    let absent: Vec<_> = rows.iter().filter(|row| row.1 && before.iter().all(|e| e.0 != row.0)).collect();
    if place.is_none() {
        noted.extend(beside.iter().filter(|note: &&Note| note.0 != 1));
        noted.extend(absent.iter().filter(|row| row.2 == 0).map(|row| (0, row.0, 1)));
    }
    let rejected = match place {
        Some(_) => Some((3, 5, place)),
        None if noted.iter().any(|n| n.0 == 0) => Some((3, 1, None)),
        None => None,
    };
    noted.truncate(256);
    let items_plain = by != By::M3ap || {
        // Criticalities of items: found by looking at the octets of the known elements again.
        let wanted = if kind == 0 { 0 } else { 0x40 };
        let mut plain = true;
        let mut at = o.len() - elements_size(o);
        for _ in 0..elements.len() {
            let id = u16::from_be_bytes([o[at], o[at + 1]]);
            let (size, start) = length(o, at + 3);
            if id == 13 && o[start] == 0x40 || id == 15 {
                let mut item = start + if id == 13 { 2 } else { 1 };
                while item < start + size && rows.iter().any(|row| row.0 == id) {
                    plain &= o[item + 2] == wanted;
                    item += 4 + o[item + 3] as usize;
                }
            }
            at = start + size;
        }
        plain
    };
    let plain = rejected.is_none()
        && own == criticality
        && absent.is_empty()
        && beside.is_empty()
        && elements.iter().all(|e| e.2.is_some_and(|row| rows[row].2 == e.1))
        && items_plain;
    let elements = before.iter().filter_map(|e| e.3.clone().map(|value| (e.0, value))).collect();
    let (kind, procedure) = (kind as u8, procedure as u8);
    Verdict::Message(Message { name, frame: criticality, kind, procedure, elements, noted, rejected, plain })
}

fn length(o: &[u8], at: usize) -> (usize, usize) {
    match o[at] {
        n @ 0..=127 => (n as usize, at + 1),
        n => ((n as usize - 128) * 256 + o[at + 1] as usize, at + 2),
    }
}

fn elements_size(o: &[u8]) -> usize {
    o.len() - length(o, 3).1 - 3
}

fn show(n: Option<impl ToString>) -> String {
    n.map_or("-".into(), |n| n.to_string())
}

fn show_pairs(list: &[Pair]) -> String {
    let list: Vec<String> = list.iter().map(|p| format!("({},{})", show(p.0), show(p.1))).collect();
    format!("[{}]", list.join(","))
}

fn show_notes(list: &[Note]) -> String {
    let list: Vec<String> = list.iter().map(|n| format!("{}.{}.{}", n.0, n.1, n.2)).collect();
    format!("[{}]", list.join(","))
}

fn show_value(value: &Value) -> String {
    match value {
        Value::Identity(n) => format!("{n:04x}"),
        Value::Tmgi(o) => format!("{}.{}", hex(&o[..3]), hex(&o[3..])),
        Value::Session(n) => format!("{n:02x}"),
        Value::Cause(group, number) => format!("{group}.{number}"),
        Value::All => "all".into(),
        Value::Part(list) => format!("part{}", show_pairs(list)),
        Value::Acknowledged(list) => show_pairs(list),
        Value::Diagnostics(a, b, c, list) => {
            let list = list.as_ref().map(|list| show_notes(list));
            format!("{{{},{},{},{}}}", show(*a), show(*b), show(*c), show(list))
        }
        Value::Name(_, o) => hex(o),
        Value::Wait(n) | Value::Number(n) => n.to_string(),
        Value::Carried(o) => hex(o),
    }
}

fn show_verdict(verdict: &Verdict) -> String {
    match verdict {
        Verdict::Bare(answer) => format!("answer={answer}"),
        Verdict::At((answer, at)) => format!("answer={answer} offset={at}"),
        Verdict::Message(m) => {
            let mut s = format!("answer={} {} frame={}", if m.rejected.is_some() { 5 } else { 0 }, m.name, m.frame);
            for (id, value) in &m.elements {
                s += &format!(" {id}:{}", show_value(value));
            }
            s += &format!(" noted={}", show_notes(&m.noted));
            if let Some((group, number, place)) = m.rejected {
                s += &format!(" cause={group}.{number} place={}", show(place));
            }
            s
        }
    }
}

#[test]
fn reads_agree() {
    let (mut rewritten, mut names) = (0, 0);
    for seed in 0..10 {
        for octets in Reads::new(seed).take(4000) {
            let verdict = model_read(By::M3ap, &octets, None);
            assert_eq!(show_verdict(&verdict), read_verdict(&octets), "{}", hex(&octets));
            // The name that is shown, beside labels of 0 to 151 octets.
            let label = vec![0xff; octets.len() % 152];
            let part = match &verdict {
                Verdict::Message(Message { name: "SetupRequest", rejected: None, elements, .. }) => {
                    elements.iter().find_map(|(_, value)| match value {
                        Value::Name(from, characters) => Some((*from, characters.len())),
                        _ => None,
                    })
                }
                _ => None,
            };
            let wanted = match part {
                Some((from, octets)) => Part { of_label: false, from, octets },
                None => Part { of_label: true, from: 0, octets: label.len().min(150) },
            };
            assert_eq!(shown(&octets, &label), wanted, "{}", hex(&octets));
            names += part.is_some() as usize;
            rewritten += rewrites(&M3AP, &octets, &verdict) as usize;
        }
    }
    assert!(rewritten > 3000 && names > 300, "{rewritten} {names}");
}

/// Writes what was read of a message. Whether it is the message again, as it must be if it is a plain one; else what
/// was written reads as the same record.
fn rewrites(profile: &Profile, octets: &[u8], verdict: &Verdict) -> bool {
    let (Verdict::Message(model), Read::Message(reading)) = (verdict, profile.read(octets)) else { return false };
    let mut room = [0x77; 8192];
    let written = write(&reading.record, &mut room);
    if model.plain {
        assert_eq!(written, Ok(octets.len()), "{}", hex(octets));
        assert_eq!(&room[..octets.len()], octets, "{}", hex(octets));
    } else if let Ok(size) = written {
        let Read::Message(again) = profile.read(&room[..size]) else { panic!("{}", hex(octets)) };
        let (mut a, mut b) = (String::new(), String::new());
        second::text::push_record(&mut a, &reading.record);
        second::text::push_record(&mut b, &again.record);
        assert_eq!(a, b);
        assert!(again.rejected.is_none() && again.noted.is_empty());
    }
    model.plain
}

#[test]
fn warnings_agree() {
    for (by, profile) in [(By::Sbcap, &SBCAP), (By::Lab, &SBCAP_LAB)] {
        // By answer; plain messages; those with an entry for an extension, and as many entries as there can be.
        let (mut seen, mut rewritten, mut full) = ([0usize; 6], 0, 0);
        for seed in 0..6 {
            for octets in Reads::warnings(seed).take(4000) {
                let verdict = model_read(by, &octets, None);
                let shown = show_verdict(&verdict);
                assert_eq!(shown, read_verdict_by(profile, &octets), "{}", hex(&octets));
                seen[shown[7..8].parse::<usize>().unwrap()] += 1;
                rewritten += rewrites(profile, &octets, &verdict) as usize;
                full += matches!(verdict, Verdict::Message(m) if m.noted.len() == 256) as usize;
            }
        }
        for (answer, least) in [(0, 3000), (1, 20), (2, 3000), (3, 300), (4, 100), (5, 3000)] {
            assert!(seen[answer] > least, "answer {answer}: {seen:?}");
        }
        assert!(rewritten > 1000 && full > 20, "{rewritten} {full}");
    }
}

/// An association: MME and MCE identity, TMGI, Session Identity.
type Held = (u16, u16, Vec<u8>, Option<u8>);

#[derive(Clone, Default)]
struct State {
    held: Vec<Held>,
    open: bool,
}

fn lent(state: &State) -> Vec<u8> {
    let mut o = (state.held.len() as u16).to_be_bytes().to_vec();
    for (mme, mce, tmgi, session) in &state.held {
        o.extend(mme.to_be_bytes());
        o.extend(mce.to_be_bytes());
        o.extend(tmgi);
        o.extend(match session {
            Some(session) => [1, *session],
            None => [0, 0],
        });
    }
    o.resize(3076, 0);
    o.push(state.open as u8);
    o.resize(UNIT_OCTETS, 0);
    o
}

/// What a unit says of the state: its rows and none behind them, counts by TMGI, marks.
fn seen_in(unit: &[u8], state: &State) {
    let open = [state.open, false];
    let state = &state.held;
    let tmgi = |o: &[u8]| Tmgi { plmn: o[..3].try_into().unwrap(), service: o[3..].try_into().unwrap() };
    let n = state.len();
    for (k, held) in state.iter().enumerate() {
        let association = Association { mme: held.0, mce: held.1, tmgi: tmgi(&held.2), session: held.3 };
        assert_eq!(row_in(unit, k as u32), Some((n, Some(association))));
        let alike = state.iter().filter(|other| other.2 == held.2).count();
        assert_eq!(count_in(unit, tmgi(&held.2)), Some(alike));
    }
    for k in [n as u32, 256, 65536, u32::MAX] {
        assert_eq!(row_in(unit, k), Some((n, None)));
    }
    let seen = Marks { held: [n, 0], open, edition: 18, rooms: 256, next: 0, settings: 0 };
    assert_eq!(marks(unit), Some(seen));
}

fn element(id: u16, criticality: u8, value: &[u8], out: &mut Vec<u8>) {
    out.extend(id.to_be_bytes());
    out.push(criticality << 6);
    sized(value, out);
}

fn sized(value: &[u8], out: &mut Vec<u8>) {
    if value.len() > 127 {
        out.push(128 + (value.len() / 256) as u8);
    }
    out.push((value.len() % 256) as u8);
    out.extend(value);
}

/// Elements in the order given, of ignore but for two of an M3 SETUP REQUEST.
fn message(first: u8, procedure: u8, criticality: u8, elements: &[(u16, Vec<u8>)]) -> Vec<u8> {
    let mut body = vec![0, 0, elements.len() as u8];
    for (id, value) in elements {
        element(*id, ![18, 20].contains(id) as u8, value, &mut body);
    }
    let mut out = vec![first, procedure, criticality];
    sized(&body, &mut out);
    out
}

/// Diagnostics: of an ERROR INDICATION with code, triggering message and criticality.
fn bits_of(notes: &[Note], frame: Option<(u8, u8, u8)>) -> Vec<u8> {
    let mut bits = String::new();
    let align = |bits: &mut String| {
        while !bits.len().is_multiple_of(8) {
            bits.push('0');
        }
    };
    let list = if notes.is_empty() { "00" } else { "10" };
    match frame {
        Some((procedure, trigger, criticality)) => {
            bits += &format!("0111{list}00{procedure:08b}{trigger:02b}{criticality:02b}")
        }
        None => bits += &format!("0000{list}"),
    }
    if !notes.is_empty() {
        align(&mut bits);
        bits += &format!("{:08b}", notes.len() - 1);
        for (criticality, id, error) in notes {
            bits += &format!("00{criticality:02b}");
            align(&mut bits);
            bits += &format!("{id:016b}0{error}");
        }
    }
    align(&mut bits);
    bits.as_bytes().chunks(8).map(|c| u8::from_str_radix(std::str::from_utf8(c).unwrap(), 2).unwrap()).collect()
}

fn acknowledged(items: &[Pair]) -> Vec<u8> {
    let mut value = vec![(items.len() - 1) as u8];
    for item in items {
        let mut o = vec![0];
        if let Some(mme) = item.0 {
            o[0] |= 0x40;
            o.extend(mme.to_be_bytes());
        }
        if let Some(mce) = item.1 {
            o[0] |= 0x20;
            o.extend(mce.to_be_bytes());
        }
        element(14, 1, &o, &mut value);
    }
    value
}

/// The model's call: answer, offset, reply, seconds to wait.
fn model_call(unit: &mut State, offered: u16, room: usize, o: &[u8]) -> (u8, usize, Vec<u8>, u16) {
    let m = match model_read(By::M3ap, o, Some(unit.open)) {
        Verdict::Bare(answer) => return (answer, 0, vec![], 0),
        Verdict::At((answer, at)) => return (answer, at, vec![], 0),
        Verdict::Message(m) => m,
    };
    let state = &unit.held;
    let mut new = state.clone();
    let (mut open, mut wait) = (unit.open, 0);
    let find = |id| m.elements.iter().find(|e| e.0 == id).map(|e| e.1.clone());
    let number = |id| match find(id) {
        Some(Value::Identity(n)) => Some(n),
        _ => None,
    };
    let (mme, mce) = (number(0), number(1));
    let named = |id: u16, n: Option<u16>| n.map(|n| (id, n.to_be_bytes().to_vec()));
    let list = |elements: Vec<Option<(u16, Vec<u8>)>>| {
        let mut elements: Vec<_> = elements.into_iter().flatten().collect();
        if !m.noted.is_empty() {
            elements.push((8, bits_of(&m.noted, None)));
        }
        elements
    };
    let failure = |cause: u8| message(0x40, 0, 0, &list(vec![named(0, mme), Some((9, vec![cause]))]));
    let indication = |cause: u8, always: bool| {
        let mut elements: Vec<_> = vec![named(0, mme), named(1, mce), Some((9, vec![cause]))];
        if always || !m.noted.is_empty() {
            elements.push(Some((8, bits_of(&m.noted, Some((m.procedure, m.kind, m.frame))))));
        }
        let elements: Vec<_> = elements.into_iter().flatten().collect();
        message(0, 2, 0x40, &elements)
    };
    let (answer, reply) = if let Some((group, n, _)) = m.rejected {
        let cause = group * 16 + n;
        match m.name {
            "ErrorIndication" => (5, vec![]),
            "StartRequest" if mme.is_some() => (5, failure(cause)),
            _ => (5, indication(cause, true)),
        }
    } else {
        match m.name {
            "StartRequest" => {
                let mme = mme.unwrap();
                if state.iter().any(|a| a.0 == mme) {
                    (6, failure(0))
                } else if state.iter().any(|a| a.1 == offered) {
                    (7, vec![])
                } else if state.len() == 256 {
                    (9, failure(3))
                } else {
                    let Some(Value::Tmgi(tmgi)) = find(2) else { panic!() };
                    let session = match find(3) {
                        Some(Value::Session(n)) => Some(n),
                        _ => None,
                    };
                    new.push((mme, offered, tmgi, session));
                    (0, message(0x20, 0, 0, &list(vec![named(0, Some(mme)), named(1, Some(offered))])))
                }
            }
            "StopRequest" => {
                new.retain(|a| (Some(a.0), Some(a.1)) != (mme, mce));
                if new.len() == state.len() {
                    (8, indication(2, false))
                } else {
                    (0, message(0x20, 1, 0, &list(vec![named(0, mme), named(1, mce)])))
                }
            }
            "Reset" => match find(13) {
                Some(Value::All) => {
                    new.clear();
                    (0, message(0x20, 4, 0, &list(vec![])))
                }
                Some(Value::Part(items)) => {
                    new.retain(|a| {
                        !items.iter().any(|item| match *item {
                            (Some(mme), Some(mce)) => mme == a.0 && mce == a.1,
                            (Some(mme), None) => mme == a.0,
                            (None, Some(mce)) => mce == a.1,
                            (None, None) => false,
                        })
                    });
                    let items: Vec<Pair> = items.into_iter().filter(|item| *item != (None, None)).collect();
                    let value = (!items.is_empty()).then(|| (15, acknowledged(&items)));
                    (0, message(0x20, 4, 0, &list(vec![value])))
                }
                _ => panic!(),
            },
            "SetupResponse" => {
                new.clear();
                open = false;
                (0, vec![])
            }
            "SetupFailure" => {
                open = false;
                if let Some(Value::Wait(n)) = find(12) {
                    wait = [1, 2, 5, 10, 20, 60][n as usize];
                }
                (0, vec![])
            }
            _ => (0, vec![]),
        }
    };
    if reply.len() > room {
        return (10, 0, vec![], 0);
    }
    if answer == 0 {
        *unit = State { held: new, open };
    }
    (answer, 0, reply, wait)
}

/// The model's setup call: answer and request.
fn model_setup(unit: &mut State, room: usize, plate: &Plate) -> (u8, Vec<u8>) {
    let named = plate.name.as_ref();
    if named.is_some_and(|o| o.is_empty() || o.len() > 150 || o.iter().any(|c| !PRINTABLE.as_bytes().contains(c))) {
        return (12, vec![]);
    }
    if unit.open {
        return (13, vec![]);
    }
    let there = |value: &Option<Vec<u8>>| value.clone().filter(|o| !o.is_empty());
    let (Some(global), Some(areas)) = (there(&plate.global), there(&plate.areas)) else {
        return (11, vec![]);
    };
    let named = named.map(|o| {
        let length = (o.len() - 1) * 128;
        (19, [&[(length / 256) as u8, (length % 256) as u8], &o[..]].concat())
    });
    let elements: Vec<_> = [Some((18, global)), named, Some((20, areas))].into_iter().flatten().collect();
    let request = message(0, 7, 0, &elements);
    if request.len() > 8192 {
        return (11, vec![]);
    }
    if request.len() > room {
        return (10, vec![]);
    }
    unit.open = true;
    (0, request)
}

/// Every reply and request is a message of ours, read with 0 and written alike.
fn well_formed(message: &[u8]) {
    let Read::Message(reading) = read(message) else { panic!("{}", hex(message)) };
    assert!(reading.rejected.is_none() && reading.noted.is_empty());
    let mut again = vec![0; message.len()];
    assert_eq!(write(&reading.record, &mut again), Ok(message.len()));
    assert_eq!(again, message);
}

#[test]
fn calls_agree() {
    // By answer; setup calls; seconds handed back.
    let (mut seen, mut set_up, mut waits) = ([0usize; 15], [0usize; 15], [0usize; 61]);
    for seed in 0..8 {
        let mut state = State::default();
        let mut unit = vec![0; UNIT_OCTETS];
        for (number, step) in Calls::new(seed).take(6000).enumerate() {
            let before = state.held.len();
            let put = match step {
                Step::Fresh => {
                    state = State::default();
                    unit.fill(0);
                    continue;
                }
                Step::Call { offered, room, message, .. } => {
                    let (answer, offset, reply, wait) = model_call(&mut state, offered, room as usize, &message);
                    let mut lend = vec![0xa5; room as usize];
                    let done = call(&mut unit, &message, offered, &mut lend);
                    let case = || format!("{offered} {room} {}", hex(&message));
                    assert_eq!((answer, offset, wait), (done.answer, done.offset, done.wait), "{}", case());
                    assert_eq!(hex(&reply), hex(&lend[..done.reply]), "{}", case());
                    assert!(lend[done.reply..].iter().all(|&b| b == 0xa5));
                    seen[answer as usize] += 1;
                    waits[wait as usize] += 1;
                    reply
                }
                Step::Setup { room, plate, .. } => {
                    let (answer, request) = model_setup(&mut state, room as usize, &plate);
                    let mut lend = vec![0xa5; room as usize];
                    let (record, values) = plate.record();
                    let done = setup(&mut unit, &record, &values, &mut lend);
                    assert_eq!((answer, 0, 0), (done.answer, done.offset, done.wait), "{room} {plate:?}");
                    assert_eq!(hex(&request), hex(&lend[..done.reply]), "{room} {plate:?}");
                    assert!(lend[done.reply..].iter().all(|&b| b == 0xa5));
                    set_up[answer as usize] += 1;
                    request
                }
            };
            assert_eq!(lent(&state), unit, "{before}");
            if number % 50 == 0 {
                seen_in(&unit, &state);
            }
            if !put.is_empty() {
                well_formed(&put);
            }
        }
    }
    for answer in [0, 2, 3, 4, 5, 6, 7, 8, 9, 10, 14] {
        assert!(seen[answer] > 20, "answer {answer}: {}", seen[answer]);
    }
    for answer in [0, 10, 11, 12, 13] {
        assert!(set_up[answer] > 20, "setup, answer {answer}: {}", set_up[answer]);
    }
    for seconds in [1, 2, 5, 10, 20, 60] {
        assert!(waits[seconds] > 5, "{seconds} seconds: {}", waits[seconds]);
    }
}

#[test]
fn binary_form() {
    use second::make::{calls, Form};
    let (mut text, mut binary) = (Vec::new(), Vec::new());
    calls(7, 3000, Form::Text, &mut text).unwrap();
    calls(7, 3000, Form::Binary, &mut binary).unwrap();
    let mut rest = &binary[..];
    let mut setups = 0;
    for line in std::str::from_utf8(&text).unwrap().lines() {
        let number = |rest: &mut &[u8]| {
            let (n, behind) = rest.split_at(2);
            *rest = behind;
            u16::from_be_bytes([n[0], n[1]])
        };
        let (offered, room, size) = (number(&mut rest), number(&mut rest), number(&mut rest));
        if size == 0xffff {
            assert_eq!((line, offered, room), ("table", 0, 0));
            continue;
        }
        if size == 0xfffe {
            let mut value = || match number(&mut rest) {
                0xffff => None,
                n => {
                    let (value, behind) = rest.split_at(n as usize);
                    rest = behind;
                    Some(value.to_vec())
                }
            };
            let plate = Plate { global: value(), name: value(), areas: value() };
            assert_eq!(offered, 0);
            assert!(line.starts_with(&format!("setup {room} {} => ", plate.text())), "{line}");
            setups += 1;
            continue;
        }
        let (message, behind) = rest.split_at(size as usize);
        rest = behind;
        assert!(line.starts_with(&format!("call {offered} {room} {} => ", hex(message))));
    }
    assert!(rest.is_empty() && setups > 50, "{setups}");
}

/// The cases that are kept are what README.md says.
#[test]
fn kept_cases() {
    use second::make::{calls, reads, warnings, Form};
    let (mut messages, mut runs, mut warned) = (Vec::new(), Vec::new(), Vec::new());
    reads(7, 400, &mut messages).unwrap();
    calls(3, 1500, Form::Text, &mut runs).unwrap();
    warnings(5, 200, &mut warned).unwrap();
    assert!(messages == include_bytes!("../cases/reads.txt") && runs == include_bytes!("../cases/calls.txt"));
    assert!(warned == include_bytes!("../cases/warnings.txt"));
}
