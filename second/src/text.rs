//! Verdicts as text, in the form of the readings' witnesses (see README.md).

use crate::layout::{setup_request, RECORD_OCTETS};
use crate::{call, setup, shown, Done, Entries, Field, Items, Kind, Profile, Read, Record, ResetType};
use crate::{LIMIT, M3AP, OPEN_AT, SBCAP, SBCAP_LAB, UNIT_OCTETS};
use std::fmt::Write;

pub fn hex(octets: &[u8]) -> String {
    let mut s = String::with_capacity(2 * octets.len());
    push_hex(&mut s, octets);
    s
}

pub fn push_hex(s: &mut String, octets: &[u8]) {
    const DIGITS: &[u8; 16] = b"0123456789abcdef";
    for b in octets {
        s.push(DIGITS[(b >> 4) as usize] as char);
        s.push(DIGITS[(b & 15) as usize] as char);
    }
}

/// Octets of hexadecimal text; blanks may stand between them.
pub fn unhex(text: &str) -> Option<Vec<u8>> {
    let mut digits = text.chars().filter(|c| !c.is_whitespace()).map(|c| c.to_digit(16));
    let mut octets = Vec::with_capacity(text.len() / 2);
    while let Some(high) = digits.next() {
        octets.push((high? << 4 | digits.next()??) as u8);
    }
    Some(octets)
}

/// Octets of a case: hexadecimal; blanks may stand between them, `41*150` is 150 such octets, and `.` none.
pub fn octets_of(text: &str) -> Option<Vec<u8>> {
    let mut octets = Vec::new();
    for word in text.split_whitespace().filter(|&word| word != ".") {
        match word.split_once('*') {
            Some((word, times)) => octets.extend(unhex(word)?.repeat(times.parse().ok()?)),
            None => octets.extend(unhex(word)?),
        }
    }
    Some(octets)
}

fn push_items(s: &mut String, items: &Items) {
    s.push('[');
    for (i, item) in items.iter().enumerate() {
        let number = |n: Option<u16>| n.map_or("-".to_string(), |n| n.to_string());
        let comma = if i > 0 { "," } else { "" };
        let _ = write!(s, "{comma}({},{})", number(item.mme), number(item.mce));
    }
    s.push(']');
}

fn push_entries(s: &mut String, entries: &Entries) {
    s.push('[');
    for (i, entry) in entries.iter().enumerate() {
        let comma = if i > 0 { "," } else { "" };
        let _ = write!(s, "{comma}{}.{}.{}", entry.criticality, entry.id, entry.error);
    }
    s.push(']');
}

/// The elements of a record, ` id:value` each, in table order.
pub fn push_record(s: &mut String, record: &Record) {
    for (i, row) in record.table.rows.iter().enumerate() {
        let start = s.len();
        let _ = write!(s, " {}:", row.id);
        let there = match row.field {
            Field::Mme => record.mme.map(|v| write!(s, "{v:04x}")).is_some(),
            Field::Mce => record.mce.map(|v| write!(s, "{v:04x}")).is_some(),
            Field::Tmgi => record
                .tmgi
                .map(|v| {
                    push_hex(s, &v.plmn);
                    s.push('.');
                    push_hex(s, &v.service);
                })
                .is_some(),
            Field::Session => record.session.map(|v| write!(s, "{v:02x}")).is_some(),
            Field::Cause => record.cause.map(|v| write!(s, "{}.{}", v.group, v.number)).is_some(),
            Field::Reset => match &record.reset {
                Some(ResetType::All) => {
                    s.push_str("all");
                    true
                }
                Some(ResetType::Part(items)) => {
                    s.push_str("part");
                    push_items(s, items);
                    true
                }
                None => false,
            },
            Field::Acknowledged => record.acknowledged.map(|v| push_items(s, &v)).is_some(),
            Field::Diagnostics => match &record.diagnostics {
                Some(d) => {
                    let number = |n: Option<u8>| n.map_or("-".to_string(), |n| n.to_string());
                    let _ = write!(s, "{{{},{},{},", number(d.code), number(d.trigger), number(d.criticality));
                    match &d.entries {
                        Some(entries) => push_entries(s, entries),
                        None => s.push('-'),
                    }
                    s.push('}');
                    true
                }
                None => false,
            },
            Field::Name => record.name.map(|v| push_hex(s, v)).is_some(),
            Field::Wait => record.wait.map(|v| write!(s, "{v}")).is_some(),
            Field::MessageIdentifier => record.message_identifier.map(|v| write!(s, "{v:04x}")).is_some(),
            Field::SerialNumber => record.serial_number.map(|v| write!(s, "{v:04x}")).is_some(),
            Field::WarningCause => record.warning_cause.map(|v| write!(s, "{v}")).is_some(),
            Field::Carried => record.carried[i].map(|v| push_hex(s, v)).is_some(),
        };
        if !there {
            s.truncate(start);
        }
    }
}

pub fn name(kind: Kind) -> String {
    format!("{kind:?}")
}

/// The verdict on a message by the reader of M3AP alone.
pub fn read_verdict(octets: &[u8]) -> String {
    read_verdict_by(&M3AP, octets)
}

/// Likewise by the reader of a profile.
pub fn read_verdict_by(profile: &Profile, octets: &[u8]) -> String {
    let reading = match profile.read(octets) {
        Read::TooLong => return "answer=1".into(),
        Read::Faulty(crate::Fault::Encoding(at)) => return format!("answer=2 offset={at}"),
        Read::Faulty(crate::Fault::Extension(at)) => return format!("answer=3 offset={at}"),
        Read::NotOurs => return "answer=4".into(),
        Read::Message(reading) => reading,
    };
    let answer = if reading.rejected.is_some() { 5 } else { 0 };
    let mut s = format!("answer={answer} {} frame={}", name(reading.record.table.kind), reading.frame);
    push_record(&mut s, &reading.record);
    s.push_str(" noted=");
    push_entries(&mut s, &Entries::Noted(reading.noted));
    if let Some(rejection) = reading.rejected {
        let _ = write!(s, " cause={}.{} place=", rejection.cause.group, rejection.cause.number);
        match rejection.place {
            Some(place) => {
                let _ = write!(s, "{place}");
            }
            None => s.push('-'),
        }
    }
    s
}

const FILL: u8 = 0xa5;

/// Lends a unit and room to a call and tells its verdict. Also holds the call to what it may touch:
/// the rest of the room, and the unit where the answer is not 0.
fn verdict(unit: &mut [u8], room: usize, call: impl FnOnce(&mut [u8], &mut [u8]) -> Done) -> String {
    let mut room = vec![FILL; room];
    let before = unit.to_vec();
    let done = call(unit, &mut room);
    assert!(room[done.reply..].iter().all(|&b| b == FILL), "room touched behind the reply");
    assert!(done.answer == 0 || before == unit, "unit changed");
    let number = |there: bool, n: usize| if there { n.to_string() } else { "-".into() };
    let offset = number(matches!(done.answer, 2 | 3), done.offset);
    let wait = number(done.wait > 0, done.wait as usize);
    let (held, open) = match unit.len() {
        UNIT_OCTETS => (u16::from_be_bytes([unit[0], unit[1]]), unit[OPEN_AT]),
        _ => (0, 0),
    };
    let reply = hex(&room[..done.reply]);
    format!("answer={} offset={offset} reply={reply} held={held} open={open} wait={wait}", done.answer)
}

/// Makes a unit call and tells its verdict.
pub fn call_verdict(unit: &mut [u8], offered: u16, room: usize, message: &[u8]) -> String {
    verdict(unit, room, |unit, room| call(unit, message, offered, room))
}

/// The values of an M3 SETUP REQUEST: Global MCE ID, MCE Name, MBMS Service Area List.
#[derive(Clone, Debug)]
pub struct Plate {
    pub global: Option<Vec<u8>>,
    pub name: Option<Vec<u8>>,
    pub areas: Option<Vec<u8>>,
}

impl Plate {
    /// The record for C, and the octets in which its values lie.
    pub fn record(&self) -> (Vec<u8>, Vec<u8>) {
        setup_request(self.global.as_deref(), self.name.as_deref(), self.areas.as_deref())
    }

    /// `GLOBAL NAME AREAS`, the words of a case.
    pub fn text(&self) -> String {
        let word = |value: &Option<Vec<u8>>| match value.as_deref() {
            None => "-".to_string(),
            Some([]) => ".".to_string(),
            Some([first, rest @ ..]) if rest.len() > 300 && rest.iter().all(|b| b == first) => {
                format!("{first:02x}*{}", rest.len() + 1)
            }
            Some(octets) => hex(octets),
        };
        format!("{} {} {}", word(&self.global), word(&self.name), word(&self.areas))
    }
}

/// Makes a setup call and tells its verdict.
pub fn setup_verdict(unit: &mut [u8], room: usize, plate: &Plate) -> String {
    let (record, values) = plate.record();
    verdict(unit, room, |unit, room| setup(unit, &record, &values, room))
}

/// The parts of a line `call OFFERED ROOM HEX`, without the word `call`.
pub fn call_parts(text: &str) -> Option<(u16, usize, Vec<u8>)> {
    let mut parts = text.trim().splitn(3, ' ');
    let offered = parts.next()?.parse().ok()?;
    let room = parts.next()?.parse().ok()?;
    let octets = octets_of(parts.next().unwrap_or(""))?;
    Some((offered, room, octets))
}

/// The parts of a line `setup ROOM GLOBAL NAME AREAS`, without the word `setup`; likewise of `written`.
pub fn setup_parts(text: &str) -> Option<(usize, Plate)> {
    let words: Vec<&str> = text.split_whitespace().collect();
    let [room, global, name, areas] = words[..] else {
        return None;
    };
    let value = |word| if word == "-" { Some(None) } else { octets_of(word).map(Some) };
    Some((room.parse().ok()?, Plate { global: value(global)?, name: value(name)?, areas: value(areas)? }))
}

/// What the writer of a profile makes of a record for C in a room.
fn written(profile: &Profile, record: &[u8], values: &[u8], room: usize) -> String {
    let mut room = vec![FILL; room];
    let done = profile.write_record(record, values, &mut room);
    assert!(room[done.reply..].iter().all(|&b| b == FILL), "room touched behind the message");
    format!("answer={} octets={}", done.answer, hex(&room[..done.reply]))
}

/// What the writer of one profile makes of a message that the reader of another has read with 0.
fn rewritten(reader: &Profile, writer: &Profile, message: &[u8]) -> Option<String> {
    let mut record = [0; RECORD_OCTETS];
    let read = reader.read_record(message, &mut record).answer == 0;
    read.then(|| written(writer, &record, message, LIMIT))
}

/// Runs a case on a unit: its verdict. None if the case is not understood. The cases:
/// `read HEX`, `write HEX`, `written ROOM GLOBAL NAME AREAS`, `call OFFERED ROOM HEX`,
/// `setup ROOM GLOBAL NAME AREAS`, `shown HEX LABEL`; of SBc-AP `sbc HEX`, `lab HEX`, `writesbc HEX`, `writelab HEX`.
pub fn case_verdict(unit: &mut [u8], case: &str) -> Option<String> {
    let (word, text) = case.split_once(' ').unwrap_or((case, ""));
    Some(match word {
        "read" => read_verdict(&octets_of(text)?),
        "sbc" => read_verdict_by(&SBCAP, &octets_of(text)?),
        "lab" => read_verdict_by(&SBCAP_LAB, &octets_of(text)?),
        "write" => rewritten(&M3AP, &M3AP, &octets_of(text)?)?,
        "writesbc" => rewritten(&SBCAP, &SBCAP, &octets_of(text)?)?,
        "writelab" => rewritten(&SBCAP, &SBCAP_LAB, &octets_of(text)?)?,
        "written" => {
            let (room, plate) = setup_parts(text)?;
            let (record, values) = plate.record();
            written(&M3AP, &record, &values, room)
        }
        "call" => {
            let (offered, room, octets) = call_parts(text)?;
            call_verdict(unit, offered, room, &octets)
        }
        "setup" => {
            let (room, plate) = setup_parts(text)?;
            setup_verdict(unit, room, &plate)
        }
        "shown" => {
            let (request, label) = text.trim().rsplit_once(' ')?;
            let (request, label) = (octets_of(request)?, octets_of(label)?);
            let part = shown(&request, &label);
            let of = if part.of_label { &label } else { &request };
            format!("shown={}", hex(&of[part.from..part.from + part.octets]))
        }
        _ => return None,
    })
}
