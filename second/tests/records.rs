//! A slow model of the record for C: octets are a record exactly if what they say, put into octets again,
//! is the same. Held against the library on made records, with a writer of its own, bit by bit.
#![deny(warnings)]

use second::layout::RECORD_OCTETS;
use second::make::{Reads, Records};
use second::text::{hex, read_verdict_by};
use second::{setup, Profile, M3AP, OPEN_AT, SBCAP, SBCAP_LAB, UNIT_OCTETS};

type Pair = (Option<u16>, Option<u16>);

#[derive(Clone, Debug)]
enum Value {
    Identity(u16),
    Tmgi(Vec<u8>),
    Session(u8),
    Cause(u8, u8),
    All,
    Part(Vec<Pair>),
    Acknowledged(Vec<Pair>),
    Diagnostics([Option<u8>; 3], Option<Vec<(u8, u16, u8)>>),
    Wait(u8),
    /// SBc-AP's Cause.
    Number(u8),
    /// A name or a carried value: its place, and how many octets.
    Placed(usize, usize),
}

#[derive(Clone, Copy, PartialEq, Debug)]
enum By {
    M3ap,
    Sbcap,
    Lab,
}

#[derive(Clone, Debug)]
struct Said {
    by: By,
    message: u8,
    criticality: u8,
    /// For each row of the table.
    values: Vec<Option<Value>>,
}

/// By number of the message, from 1: name, kind, procedure, criticality, rows.
type Table = (&'static str, u8, u8, u8, &'static str);

fn tables(by: By) -> &'static [Table] {
    match by {
        By::M3ap => &M3AP_TABLES,
        By::Sbcap => &SBCAP_TABLES,
        By::Lab => &LAB_TABLES,
    }
}

const M3AP_TABLES: [Table; 11] = [
    ("StartRequest", 0, 0, 0, "0mr 2mr 3oi 4mr 5mr 6mr 16mr 7mr 21oi 23oi 24oi 25or"),
    ("StartResponse", 1, 0, 0, "0mi 1mi 8oi"),
    ("StartFailure", 2, 0, 0, "0mi 9mi 8oi"),
    ("StopRequest", 0, 1, 0, "0mr 1mr 22oi"),
    ("StopResponse", 1, 1, 0, "0mi 1mi 8oi"),
    ("Reset", 0, 4, 0, "9mi 13mr"),
    ("ResetAcknowledge", 1, 4, 0, "15oi 8oi"),
    ("ErrorIndication", 0, 2, 1, "0oi 1oi 9oi 8oi"),
    ("SetupRequest", 0, 7, 0, "18mr 19oi 20mr"),
    ("SetupResponse", 1, 7, 0, "8oi"),
    ("SetupFailure", 2, 7, 0, "9mi 12oi 8oi"),
];

const RESPONSE: Table = ("StopWarningResponse", 1, 1, 0, "5mr 11mr 1mr 2oi 22oi");
const INDICATION: Table = ("WarningErrorIndication", 0, 2, 1, "1oi 2oi");
const SBCAP_TABLES: [Table; 3] =
    [("StopWarningRequest", 0, 1, 0, "5mr 11mr 14or 15oi 19oi 26oi 27or"), RESPONSE, INDICATION];
const LAB_TABLES: [Table; 3] = [("StopWarningRequest", 0, 1, 0, "5mr 11mr"), RESPONSE, INDICATION];

/// Rows of a message: id, mandatory, criticality.
fn rows(by: By, message: u8) -> Vec<(u16, bool, u8)> {
    let text = tables(by)[message as usize - 1].4;
    text.split(' ')
        .map(|row| {
            let (id, rest) = row.split_at(row.len() - 2);
            (id.parse().unwrap(), rest.starts_with('m'), rest.ends_with('i') as u8)
        })
        .collect()
}

fn number(o: &[u8], at: usize) -> usize {
    o[at] as usize * 256 + o[at + 1] as usize
}

/// What octets say if nothing is asked of them but a size and a message.
fn loose(by: By, o: &[u8]) -> Option<Said> {
    if o.len() != 2662 || !(1..=tables(by).len()).contains(&o[0].into()) {
        return None;
    }
    let maybe = |at: usize| (o[at] != 0).then(|| number(o, at + 1) as u16);
    let items = || (0..number(o, 98).min(256)).map(|k| (maybe(100 + 6 * k), maybe(103 + 6 * k))).collect();
    let entries = || {
        let row = |k| (o[1638 + 4 * k], number(o, 1639 + 4 * k) as u16, o[1641 + 4 * k]);
        (0..number(o, 1636).min(256)).map(row).collect()
    };
    let value = |(k, (id, ..)): (usize, &(u16, bool, u8))| {
        let slot = &o[2 + 8 * k..10 + 8 * k];
        if slot[0] == 0 {
            return None;
        }
        let diagnostics = || {
            let part = |i: usize| (slot[i] != 0).then_some(slot[i + 1]);
            Value::Diagnostics([part(1), part(3), part(5)], (slot[7] != 0).then(entries))
        };
        let placed = || Value::Placed(number(slot, 1), number(slot, 3));
        Some(match id {
            5 | 11 if by != By::M3ap => Value::Identity(number(slot, 1) as u16),
            1 if by != By::M3ap => Value::Number(slot[1]),
            2 if by != By::M3ap => diagnostics(),
            _ if by != By::M3ap => placed(),
            0 | 1 => Value::Identity(number(slot, 1) as u16),
            2 => Value::Tmgi(slot[1..7].to_vec()),
            3 => Value::Session(slot[1]),
            9 => Value::Cause(slot[1], slot[2]),
            13 if slot[0] == 2 => Value::Part(items()),
            13 => Value::All,
            15 => Value::Acknowledged(items()),
            8 => diagnostics(),
            12 => Value::Wait(slot[1]),
            _ => placed(),
        })
    };
    let values = rows(by, o[0]).iter().enumerate().map(value).collect();
    Some(Said { by, message: o[0], criticality: o[1], values })
}

/// The octets of what is said.
fn octets(said: &Said) -> Vec<u8> {
    let mut o = vec![said.message, said.criticality];
    let (mut items, mut entries) = (vec![], vec![]);
    for value in &said.values {
        let mut slot = match value {
            None => vec![],
            Some(Value::Identity(n)) => vec![1, (n / 256) as u8, (n % 256) as u8],
            Some(Value::Tmgi(tmgi)) => [&[1], &tmgi[..]].concat(),
            Some(Value::Session(n) | Value::Wait(n) | Value::Number(n)) => vec![1, *n],
            Some(Value::Cause(group, n)) => vec![1, *group, *n],
            Some(Value::All) => vec![1],
            Some(Value::Part(list)) => {
                items = list.clone();
                vec![2]
            }
            Some(Value::Acknowledged(list)) => {
                items = list.clone();
                vec![1]
            }
            Some(Value::Diagnostics(parts, list)) => {
                entries = list.clone().unwrap_or_default();
                let mut slot = vec![1];
                for part in parts {
                    slot.extend([part.is_some() as u8, part.unwrap_or(0)]);
                }
                slot.push(list.is_some() as u8);
                slot
            }
            Some(Value::Placed(from, n)) => {
                vec![1, (from / 256) as u8, (from % 256) as u8, (n / 256) as u8, (n % 256) as u8]
            }
        };
        slot.resize(8, 0);
        o.extend(slot);
    }
    o.resize(98, 0);
    o.extend((items.len() as u16).to_be_bytes());
    for (mme, mce) in items {
        for identity in [mme, mce] {
            o.push(identity.is_some() as u8);
            o.extend(identity.unwrap_or(0).to_be_bytes());
        }
    }
    o.resize(1636, 0);
    o.extend((entries.len() as u16).to_be_bytes());
    for (criticality, id, error) in entries {
        o.push(criticality);
        o.extend(id.to_be_bytes());
        o.push(error);
    }
    o.resize(2662, 0);
    o
}

fn said(by: By, o: &[u8]) -> Option<Said> {
    loose(by, o).filter(|said| octets(said) == o)
}

fn of_bits(bits: &str) -> Vec<u8> {
    let mut bits = bits.to_string();
    while !bits.len().is_multiple_of(8) {
        bits.push('0');
    }
    bits.as_bytes().chunks(8).map(|c| u8::from_str_radix(std::str::from_utf8(c).unwrap(), 2).unwrap()).collect()
}

/// A length and the octets; none that has no such form.
fn sized(value: &[u8]) -> Option<Vec<u8>> {
    let n = value.len();
    match n {
        0 | 16384.. => None,
        128.. => Some([&[128 + (n / 256) as u8, (n % 256) as u8], value].concat()),
        _ => Some([&[n as u8], value].concat()),
    }
}

fn pairs(list: &[Pair], criticality: u8) -> Option<Vec<u8>> {
    if list.is_empty() || list.len() > 256 {
        return None;
    }
    let mut o = vec![(list.len() - 1) as u8];
    for (mme, mce) in list {
        o.extend([0, 14, criticality * 64]);
        let mut item = of_bits(&format!("0{}{}0", mme.is_some() as u8, mce.is_some() as u8));
        item.extend([mme, mce].into_iter().flatten().flat_map(|n| n.to_be_bytes()));
        o.extend(sized(&item)?);
    }
    Some(o)
}

fn allowed(name: &[u8]) -> bool {
    let mark = |c: &u8| [' ', '\'', '(', ')', '+', ',', '-', '.', '/', ':', '=', '?'].contains(&(*c as char));
    let good = |c: &u8| matches!(c, b'a'..=b'z' | b'A'..=b'Z' | b'0'..=b'9') || mark(c);
    !name.is_empty() && name.len() <= 150 && name.iter().all(good)
}

/// The octets of a value that is there, if it is in its ranges.
fn encoded(by: By, id: u16, value: &Value, values: &[u8]) -> Option<Vec<u8>> {
    let o = match value {
        Value::Identity(n) => n.to_be_bytes().to_vec(),
        Value::Tmgi(tmgi) => [&[0], &tmgi[..]].concat(),
        Value::Session(n) | Value::Number(n) => vec![*n],
        Value::Cause(group, n) => {
            let (root, width) = *[(8, 3), (2, 1), (1, 0), (7, 3), (5, 3)].get(*group as usize)?;
            if *n >= root {
                return None;
            }
            let number = if width == 0 { String::new() } else { format!("{n:0width$b}") };
            of_bits(&format!("0{group:03b}0{number}"))
        }
        Value::All => vec![0],
        Value::Part(list) => [&[0x40], &pairs(list, 0)?[..]].concat(),
        Value::Acknowledged(list) => pairs(list, 1)?,
        Value::Diagnostics([code, trigger, criticality], list) => {
            let there = [code.is_some(), trigger.is_some(), criticality.is_some(), list.is_some()];
            let mut bits: String = format!("0{}0", there.map(|there| if there { "1" } else { "0" }).concat());
            let align = |bits: &mut String| bits.extend(std::iter::repeat_n('0', (8 - bits.len() % 8) % 8));
            if let Some(code) = code {
                align(&mut bits);
                bits += &format!("{code:08b}");
            }
            let most = if by == By::M3ap { 2 } else { 3 };
            for (two, most) in [(trigger, most), (criticality, 2)] {
                if let Some(two) = two {
                    if *two > most {
                        return None;
                    }
                    bits += &format!("{two:02b}");
                }
            }
            if let Some(list) = list {
                if list.is_empty() || list.len() > 256 {
                    return None;
                }
                align(&mut bits);
                bits += &format!("{:08b}", list.len() - 1);
                for (criticality, id, error) in list {
                    if *criticality > 2 || *error > 1 {
                        return None;
                    }
                    bits += &format!("00{criticality:02b}");
                    align(&mut bits);
                    bits += &format!("{id:016b}0{error}");
                }
            }
            of_bits(&bits)
        }
        Value::Wait(n) if *n > 5 => return None,
        Value::Wait(n) => of_bits(&format!("0{n:03b}")),
        Value::Placed(from, n) => {
            let octets = values.get(*from..from + n).unwrap_or(&[]).to_vec();
            match id {
                19 if by == By::M3ap => [&of_bits(&format!("0{:08b}", octets.len() - 1)), &octets[..]].concat(),
                _ => octets,
            }
        }
    };
    (!o.is_empty() && o.len() <= 8192).then_some(o)
}

/// Whether there is a name that is not allowed; the message, if there is one.
fn model_write(by: By, record: &[u8], values: &[u8]) -> (bool, Option<Vec<u8>>) {
    let Some(said) = said(by, record) else {
        return (false, None);
    };
    let rows = rows(by, said.message);
    for ((id, ..), value) in rows.iter().zip(&said.values) {
        if let (By::M3ap, 19, Some(Value::Placed(from, n))) = (by, id, value) {
            if !allowed(values.get(*from..from + n).unwrap_or(&[])) {
                return (true, None);
            }
        }
    }
    let message = (|| {
        let mut body = vec![0, 0, said.values.iter().flatten().count() as u8];
        for ((id, mandatory, criticality), value) in rows.iter().zip(&said.values) {
            match value {
                Some(value) => {
                    body.extend(id.to_be_bytes());
                    body.push(criticality * 64);
                    body.extend(sized(&encoded(by, *id, value, values)?)?);
                }
                None if *mandatory => return None,
                None => {}
            }
        }
        let (_, kind, procedure, criticality, _) = tables(by)[said.message as usize - 1];
        let message = [&[kind * 32, procedure, criticality * 64], &sized(&body)?[..]].concat();
        (said.criticality < 3 && message.len() <= 8192).then_some(message)
    })();
    (false, message)
}

/// What the writer must answer: whether there is a name that is not allowed, and the message.
fn wanted((misnamed, message): &(bool, Option<Vec<u8>>), room: usize) -> (u8, &[u8]) {
    match message {
        _ if *misnamed => (12, &[]),
        None => (11, &[]),
        Some(message) if message.len() > room => (10, &[]),
        Some(message) => (0, message),
    }
}

/// Writes a record in rooms about as large as its message, and gives each answer to `seen`.
fn writes(by: By, profile: &Profile, record: &[u8], values: &[u8], seen: &mut [usize; 13]) {
    assert_eq!(profile.taken(record, values).is_some(), said(by, record).is_some(), "{}", hex(record));
    let model = model_write(by, record, values);
    let size = model.1.as_ref().map_or(0, Vec::len);
    for room in [8192, size, size.saturating_sub(1), 0] {
        let mut lend = vec![0xa5; room];
        let done = profile.write_record(record, values, &mut lend);
        let (answer, message) = wanted(&model, room);
        assert_eq!((done.answer, hex(&lend[..done.reply])), (answer, hex(message)), "{}", hex(record));
        assert!(lend[done.reply..].iter().all(|&b| b == 0xa5));
        assert_eq!((done.offset, done.wait), (0, 0));
        seen[done.answer as usize] += 1;
    }
}

#[test]
fn writes_agree() {
    let mut seen = [0usize; 13];
    let (mut records, mut requests) = (0, 0);
    let fresh = vec![0; UNIT_OCTETS];
    let mut open = fresh.clone();
    open[OPEN_AT] = 1;
    for seed in 0..8 {
        for (record, values) in Records::new(seed).take(2500) {
            records += said(By::M3ap, &record).is_some() as usize;
            writes(By::M3ap, &M3AP, &record, &values, &mut seen);

            // The setup call: another message is 11, and behind 12 an open request is 13.
            let model = model_write(By::M3ap, &record, &values);
            let size = model.1.as_ref().map_or(0, Vec::len);
            for room in [8192, size, size.saturating_sub(1), 0] {
                let mut lend = vec![0xa5; room];
                let mut unit = fresh.clone();
                let done = setup(&mut unit, &record, &values, &mut lend);
                let is_request = record.first() == Some(&9);
                let (answer, request) = if is_request { wanted(&model, room) } else { (11, &[][..]) };
                assert_eq!((done.answer, hex(&lend[..done.reply])), (answer, hex(request)), "{}", hex(&record));
                assert!(lend[done.reply..].iter().all(|&b| b == 0xa5));
                assert_eq!(unit, if answer == 0 { &open[..] } else { &fresh[..] });
                requests += (answer == 0) as usize;
                let mut unit = open.clone();
                let done = setup(&mut unit, &record, &values, &mut lend);
                assert_eq!((done.answer, done.reply), (if model.0 { 12 } else { 13 }, 0));
                assert_eq!(unit, open);
            }
        }
    }
    assert!(records > 5000 && requests > 200, "{records} {requests}");
    for answer in [0, 10, 11, 12] {
        assert!(seen[answer] > 500, "answer {answer}: {}", seen[answer]);
    }
}

const WARNINGS: [(By, &Profile); 2] = [(By::Sbcap, &SBCAP), (By::Lab, &SBCAP_LAB)];

#[test]
fn warnings_written_agree() {
    // Records that either profile has read, written in either.
    for (_, reader) in WARNINGS {
        for (by, profile) in WARNINGS {
            let mut seen = [0usize; 13];
            for seed in 0..2 {
                for (record, values) in Records::warnings(seed, reader).take(1500) {
                    writes(by, profile, &record, &values, &mut seen);
                }
            }
            for answer in [0, 10, 11] {
                assert!(seen[answer] > 500, "answer {answer}: {seen:?}");
            }
            assert_eq!(seen[12], 0);
        }
    }
}

fn show(n: Option<impl ToString>) -> String {
    n.map_or("-".into(), |n| n.to_string())
}

/// The values of what was read of a message, as in the witnesses.
fn text(said: &Said, message: &[u8]) -> String {
    let pairs = |list: &[Pair]| {
        let list: Vec<String> = list.iter().map(|p| format!("({},{})", show(p.0), show(p.1))).collect();
        format!("[{}]", list.join(","))
    };
    let mut s = String::new();
    for ((id, ..), value) in rows(said.by, said.message).iter().zip(&said.values) {
        let value = match value {
            None => continue,
            Some(Value::Identity(n)) => format!("{n:04x}"),
            Some(Value::Tmgi(o)) => format!("{}.{}", hex(&o[..3]), hex(&o[3..])),
            Some(Value::Session(n)) => format!("{n:02x}"),
            Some(Value::Cause(group, n)) => format!("{group}.{n}"),
            Some(Value::All) => "all".into(),
            Some(Value::Part(list)) => format!("part{}", pairs(list)),
            Some(Value::Acknowledged(list)) => pairs(list),
            Some(Value::Diagnostics([a, b, c], list)) => {
                let entry = |e: &(u8, u16, u8)| format!("{}.{}.{}", e.0, e.1, e.2);
                let list = list.as_ref().map(|l| format!("[{}]", l.iter().map(entry).collect::<Vec<_>>().join(",")));
                format!("{{{},{},{},{}}}", show(*a), show(*b), show(*c), show(list))
            }
            Some(Value::Wait(n) | Value::Number(n)) => n.to_string(),
            Some(Value::Placed(from, n)) => hex(&message[*from..from + n]),
        };
        s += &format!(" {id}:{value}");
    }
    s
}

/// Reads a message into a record, and one octet too small a room: what it says is what the verdict says. The number of the
/// message, 0 if there is no record.
fn reads(by: By, profile: &Profile, message: &[u8]) -> usize {
    let verdict = read_verdict_by(profile, message);
    let mut room = vec![0xa5; RECORD_OCTETS + 3];
    let done = profile.read_record(message, &mut room);
    let (record, behind) = room.split_at(RECORD_OCTETS);
    assert!(behind.iter().all(|&b| b == 0xa5));
    let mut small = vec![0xa5; RECORD_OCTETS - 1];
    let short = profile.read_record(message, &mut small);
    assert!(small.iter().all(|&b| b == 0xa5));
    let at = if matches!(done.answer, 2 | 3) { format!(" offset={}", done.offset) } else { String::new() };
    if done.reply == 0 {
        assert_eq!(short, done);
        assert_eq!(verdict, format!("answer={}{at}", done.answer));
        assert!(record.iter().all(|&b| b == 0xa5));
        return 0;
    }
    assert_eq!((done.reply, done.offset, done.wait), (RECORD_OCTETS, 0, 0));
    assert_eq!((short.answer, short.offset, short.reply, short.wait), (10, 0, 0, 0));
    let said = said(by, record).expect("a record");
    let name = tables(by)[said.message as usize - 1].0;
    let values = text(&said, message);
    let wanted = format!("answer={} {name} frame={}{values} noted=[", done.answer, said.criticality);
    assert!(verdict.starts_with(&wanted), "{verdict}\n{wanted}");
    said.message as usize
}

#[test]
fn reads_agree() {
    let mut put = [0usize; 12];
    for seed in 20..26 {
        for message in Reads::new(seed).take(4000) {
            put[reads(By::M3ap, &M3AP, &message)] += 1;
        }
    }
    assert!(put.iter().all(|&n| n > 100), "{put:?}");
}

#[test]
fn warnings_read_agree() {
    for (by, profile) in WARNINGS {
        let mut put = [0usize; 4];
        for seed in 20..24 {
            for message in Reads::warnings(seed).take(2000) {
                put[reads(by, profile, &message)] += 1;
            }
        }
        assert!(put.iter().all(|&n| n > 500), "{put:?}");
    }
}
