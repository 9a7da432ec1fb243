//! Comparing with witnesses and with messages another program encoded.

use crate::json::Json;
use crate::layout::RECORD_OCTETS;
use crate::text::{self, case_verdict, push_record, read_verdict_by, unhex};
use crate::{write, Cause, Diagnostics, Entries, Entry, Fault, Field, Item, Items, Kind, Profile, Read, Record, Refused};
use crate::{ResetType, Table, Tmgi, IGNORE, LIMIT, M3AP, NOT_UNDERSTOOD, REJECT, SBCAP, SBCAP_LAB, UNIT_OCTETS};
use std::ops::Range;

/// The words with which a witness begins.
pub const WORDS: [&str; 10] =
    ["read", "write", "written", "call", "setup", "shown", "sbc", "lab", "writesbc", "writelab"];

/// Lines that were run, and a text for each that differs.
#[derive(Default, Debug)]
pub struct Result {
    /// Witnesses of each word.
    pub witnesses: [usize; WORDS.len()],
    /// Messages of vectors; those over the limit and those with an extension that is answered 3 among them.
    pub messages: usize,
    pub over: usize,
    pub extended: usize,
    pub differences: Vec<String>,
}

/// Runs every witness. A line `table` starts a fresh unit; in a text without one each witness does.
pub fn witnesses(name: &str, text: &str, result: &mut Result) {
    let runs = text.lines().any(|line| line.trim() == "table");
    let mut unit = [0; UNIT_OCTETS];
    for (i, line) in text.lines().enumerate() {
        let line = line.trim();
        if line.is_empty() || line.starts_with('#') {
            continue;
        }
        if !runs || line == "table" {
            unit.fill(0);
        }
        if line == "table" {
            continue;
        }
        let word = WORDS.iter().position(|word| line.split(' ').next() == Some(word));
        let run = line.split_once(" => ").and_then(|(case, given)| Some((given, case_verdict(&mut unit, case)?)));
        let (Some(word), Some((given, ours))) = (word, run) else {
            result.differences.push(format!("{name} line {}: no witness: {line}", i + 1));
            continue;
        };
        result.witnesses[word] += 1;
        // The witnesses of calls of 01 say nothing of what came with 2026-01: nothing is open there.
        let held = ours.strip_suffix(" open=0 wait=-");
        if given != ours && (given.contains(" open=") || held != Some(given)) {
            result.differences.push(format!("{name} line {}: {line}\n    ours: {ours}", i + 1));
        }
    }
}

/// Reads and writes every message of a file of vectors.
pub fn vectors(name: &str, text: &str, result: &mut Result) {
    for (i, line) in text.lines().enumerate().filter(|(_, line)| !line.trim().is_empty()) {
        match vector(line) {
            Ok(outcome) => {
                result.messages += 1;
                result.over += (outcome == Outcome::Over) as usize;
                result.extended += (outcome == Outcome::Extended) as usize;
            }
            Err(why) => result.differences.push(format!("{name} line {}: {why}", i + 1)),
        }
    }
}

fn small(v: Option<&Json>) -> Option<u8> {
    v?.number()?.try_into().ok()
}

fn wide(v: &Json) -> Option<u16> {
    v.number()?.try_into().ok()
}

fn items(v: &Json) -> Option<Vec<Item>> {
    v.list()?
        .iter()
        .map(|pair| match pair.list()? {
            [mme, mce] => Some(Item { mme: wide(mme), mce: wide(mce) }),
            _ => None,
        })
        .collect()
}

fn three(v: &Json) -> Option<[u8; 3]> {
    unhex(v.text()?)?.try_into().ok()
}

#[derive(PartialEq)]
enum Outcome {
    /// 0, or 5 for what is unknown.
    Read,
    /// 1
    Over,
    /// 3
    Extended,
}

/// An element of a vector: its id, its criticality, the octets of its value, and what they mean.
struct Element<'a> {
    id: u16,
    criticality: u8,
    octets: Vec<u8>,
    meaning: &'a Json,
}

/// Tags of extensions in what is read, which no reader passes over; and of those beside it, and of unknown elements.
const REFUSED: [&str; 6] = [
    "message-addition",
    "diag-addition",
    "diag-container",
    "diag-entry-addition",
    "diag-entry-container",
    "error-type-new",
];
const PASSED: [&str; 4] = ["message-container", "carried-container", "new-element", "foreign-element"];

type Checked<T> = std::result::Result<T, String>;

fn broken() -> String {
    "not understood".into()
}

fn list<'a>(v: &'a Json, key: &str) -> Checked<&'a [Json]> {
    v.get(key).map_or(Some(&[][..]), Json::list).ok_or_else(broken)
}

/// One message, by its protocol, SBc-AP's in both profiles.
fn vector(line: &str) -> Checked<Outcome> {
    let v = Json::parse(line).ok_or_else(broken)?;
    let octets = v.get("hex").and_then(Json::text).and_then(unhex).ok_or_else(broken)?;
    if v.get("octets").and_then(Json::number) != Some(octets.len() as u64) {
        return Err("octets".into());
    }
    let mut elements = Vec::new();
    for e in list(&v, "elements")? {
        elements.push(Element {
            id: e.get("id").and_then(wide).ok_or_else(broken)?,
            criticality: small(e.get("crit")).ok_or_else(broken)?,
            octets: e.get("hex").and_then(Json::text).and_then(unhex).ok_or_else(broken)?,
            meaning: e,
        });
    }
    let name = v.get("name").and_then(Json::text).ok_or_else(broken)?;
    let kind = match name {
        "Error-Indication" => "WarningErrorIndication".into(),
        _ => name.replace('-', ""),
    };
    let kind = kind.strip_prefix("MBMSSession").or(kind.strip_prefix("M3")).unwrap_or(&kind);
    let profiles: &[&Profile] = if name.contains('-') { &[&SBCAP, &SBCAP_LAB] } else { &[&M3AP] };

    let tags: Vec<&str> = list(&v, "tags")?.iter().map(|tag| tag.text().unwrap_or("")).collect();
    if let Some(tag) = tags.iter().find(|tag| !REFUSED.contains(tag) && !PASSED.contains(tag)) {
        return Err(format!("tag {tag}"));
    }
    if tags.iter().any(|tag| REFUSED.contains(tag)) {
        let places = extended_at(&octets, &elements, &tags).ok_or_else(broken)?;
        for profile in profiles {
            match profile.read(&octets) {
                Read::Faulty(Fault::Extension(at)) if places.contains(&at) => {}
                _ => return Err(format!("not 3 at {places:?}: {}", read_verdict_by(profile, &octets))),
            }
        }
        return Ok(Outcome::Extended);
    }
    for profile in profiles {
        let table = profile.tables.iter().find(|table| text::name(table.kind) == kind).ok_or_else(broken)?;
        let frame = (small(v.get("kind")), small(v.get("procedure")), small(v.get("criticality")));
        let (choice, procedure, criticality) = table.frame;
        if frame != (Some(choice), Some(procedure), Some(criticality)) {
            return Err("frame".into());
        }
        by_profile(profile, table, &octets, &elements, list(&v, "extensions")?)?;
    }
    if name.contains('-') {
        across_profiles(&octets)?;
    }
    Ok(if octets.len() > LIMIT { Outcome::Over } else { Outcome::Read })
}

/// Where the first extension may begin: the message's bit or that of the diagnostics at one octet, those in the
/// diagnostics at any behind it.
fn extended_at(octets: &[u8], elements: &[Element], tags: &[&str]) -> Option<Range<usize>> {
    let behind_length = |at: usize| at + if octets[at] < 0x80 { 1 } else { 2 };
    let start = behind_length(3);
    if tags.contains(&"message-addition") {
        return Some(start..start + 1);
    }
    let mut at = start + 3;
    for e in elements {
        let value = behind_length(at + 3);
        at = value + e.octets.len();
        if e.meaning.get("diagnostics").is_some() {
            let whole = tags.contains(&"diag-addition") || tags.contains(&"diag-container");
            return Some(if whole { value..value + 1 } else { value + 1..at });
        }
    }
    None
}

/// A length and the octets.
fn sized(octets: &[u8]) -> Vec<u8> {
    let n = octets.len();
    let length = if n < 128 { vec![n as u8] } else { vec![0x80 | (n >> 8) as u8, n as u8] };
    [&length, octets].concat()
}

/// The message of these elements alone.
fn assembled(table: &Table, elements: &[(usize, &Element)]) -> Vec<u8> {
    let (choice, procedure, criticality) = table.frame;
    let mut inside = vec![0, (elements.len() >> 8) as u8, elements.len() as u8];
    for (_, e) in elements {
        inside.extend(e.id.to_be_bytes());
        inside.push(e.criticality << 6);
        inside.extend(sized(&e.octets));
    }
    [&[choice << 5, procedure, criticality << 6], &sized(&inside)[..]].concat()
}

/// By one profile: what it knows of the elements, as a record, and the rest, which is unknown with all extensions.
fn by_profile(
    profile: &Profile,
    table: &'static Table,
    octets: &[u8],
    elements: &[Element],
    extensions: &[Json],
) -> Checked<()> {
    let lab = std::ptr::eq(profile, &SBCAP_LAB);
    // The lists first, so that the record can borrow them.
    let (mut list, mut entries) = (Vec::new(), Vec::new());
    let (mut known, mut unknown) = (Vec::new(), Vec::new());
    for e in elements {
        let row = table.rows.iter().position(|row| row.id == e.id);
        // The lab profile knows fewer.
        if !lab && row.is_none() != (e.meaning.get("unknown") == Some(&Json::Bool(true))) {
            return Err(format!("element {}", e.id));
        }
        let Some(row) = row else {
            unknown.push((e.criticality, e.id));
            continue;
        };
        if e.criticality != table.rows[row].criticality {
            return Err(format!("criticality of {}", e.id));
        }
        if let Some(of) = e.meaning.get("reset").or(e.meaning.get("ack")).filter(|v| v.text().is_none()) {
            list = items(of).ok_or_else(broken)?;
        }
        if let Some(of) = e.meaning.get("diagnostics").and_then(|d| d.get("list")).and_then(Json::list) {
            for entry in of {
                match entry.list().ok_or_else(broken)? {
                    [c, id, error] => entries.push(Entry {
                        criticality: small(Some(c)).ok_or_else(broken)?,
                        id: wide(id).ok_or_else(broken)?,
                        error: small(Some(error)).ok_or_else(broken)?,
                    }),
                    _ => return Err(broken()),
                }
            }
        }
        known.push((row, e));
    }
    for extension in extensions {
        match extension.list().ok_or_else(broken)? {
            [id, c, _] => unknown.push((small(Some(c)).ok_or_else(broken)?, wide(id).ok_or_else(broken)?)),
            _ => return Err(broken()),
        }
    }
    let record = record(table, &known, &list, &entries).ok_or_else(broken)?;
    let again = assembled(table, &known);
    if unknown.is_empty() && again != octets {
        return Err("assembled otherwise".into());
    }
    read_and_written(profile, octets, &record, &unknown, &again)
}

/// Read to 0, or to 5 for what is unknown, with all fields equal (1 if it is too long); written, without what is unknown,
/// to these octets again, from what was read, from the vector's own fields, and from the record for C.
fn read_and_written(
    profile: &Profile,
    octets: &[u8],
    record: &Record,
    unknown: &[(u8, u16)],
    again: &[u8],
) -> Checked<()> {
    if octets.len() > LIMIT {
        let ours = read_verdict_by(profile, octets);
        if ours != "answer=1" {
            return Err(format!("read: {ours}"));
        }
        if write(record, &mut [0; 2 * LIMIT]) != Err(Refused::Record) {
            return Err("written".into());
        }
        return Ok(());
    }
    let table = record.table;
    let rejected = unknown.iter().any(|&(criticality, _)| criticality == REJECT);
    let noted: Vec<String> =
        unknown.iter().filter(|&&(c, _)| c != IGNORE).map(|(c, id)| format!("{c}.{id}.{NOT_UNDERSTOOD}")).collect();
    let answer = if rejected { 5 } else { 0 };
    let mut wanted = format!("answer={answer} {} frame={}", text::name(table.kind), table.frame.2);
    push_record(&mut wanted, record);
    wanted += &format!(" noted=[{}]", noted.join(","));
    if rejected {
        wanted += " cause=3.1 place=-";
    }
    let ours = read_verdict_by(profile, octets);
    if wanted != ours {
        return Err(format!("wanted {wanted}\n    ours: {ours}"));
    }
    let Read::Message(reading) = profile.read(octets) else {
        return Err("not read".into());
    };
    for record in [record, &reading.record] {
        let mut room = vec![0; again.len()];
        if write(record, &mut room) != Ok(again.len()) || room != again {
            return Err("written otherwise".into());
        }
        if write(record, &mut room[1..]) != Err(Refused::Room) {
            return Err("written into too small a room".into());
        }
    }
    // The same by the record for C.
    let mut lent = vec![0xa5; RECORD_OCTETS];
    let done = profile.read_record(octets, &mut lent);
    if (done.answer, done.reply) != (answer, RECORD_OCTETS) {
        return Err("no record".into());
    }
    let mut room = vec![0; again.len()];
    let done = profile.write_record(&lent, octets, &mut room);
    if (done.answer, done.reply) != (0, again.len()) || room != again {
        return Err("written otherwise from the record for C".into());
    }
    Ok(())
}

/// The record for C of SBc-AP's ordinary profile under the lab profile: written alike, or 11 where it has other rows.
fn across_profiles(octets: &[u8]) -> Checked<()> {
    let mut lent = vec![0; RECORD_OCTETS];
    SBCAP.read_record(octets, &mut lent);
    let other = lent[0] == Kind::StopWarningRequest.table().number && lent[2 + 2 * 8..].iter().any(|&b| b != 0);
    let [ordinary, lab] = [&SBCAP, &SBCAP_LAB].map(|profile| {
        let mut room = vec![0; LIMIT];
        (profile.write_record(&lent, octets, &mut room), room)
    });
    match other {
        true if (lab.0.answer, lab.0.reply) != (11, 0) => Err("written with rows that the lab profile has not".into()),
        false if lab != ordinary => Err("written otherwise under the lab profile".into()),
        _ => Ok(()),
    }
}

fn record<'a>(
    table: &'static Table,
    elements: &[(usize, &'a Element)],
    list: &'a [Item],
    entries: &'a [Entry],
) -> Option<Record<'a>> {
    let mut record = Record::of(table);
    for &(row, Element { octets, meaning: e, .. }) in elements {
        match table.rows[row].field {
            Field::Mme => record.mme = Some(e.get("mme").and_then(wide)?),
            Field::Mce => record.mce = Some(e.get("mce").and_then(wide)?),
            Field::Tmgi => match e.get("tmgi")?.list()? {
                [plmn, service] => record.tmgi = Some(Tmgi { plmn: three(plmn)?, service: three(service)? }),
                _ => return None,
            },
            Field::Session => record.session = Some(small(e.get("session"))?),
            Field::Cause => match e.get("cause")?.list()? {
                [group, number] => {
                    record.cause = Some(Cause { group: small(Some(group))?, number: small(Some(number))? })
                }
                _ => return None,
            },
            Field::Reset => {
                record.reset = Some(match e.get("reset")?.text() {
                    Some("all") => ResetType::All,
                    Some(_) => return None,
                    None => ResetType::Part(Items::Given(list)),
                })
            }
            Field::Acknowledged => {
                e.get("ack")?;
                record.acknowledged = Some(Items::Given(list));
            }
            Field::Diagnostics => {
                let d = e.get("diagnostics")?;
                record.diagnostics = Some(Diagnostics {
                    code: small(d.get("procedure")),
                    trigger: small(d.get("trigger")),
                    criticality: small(d.get("criticality")),
                    entries: d.get("list").map(|_| Entries::Given(entries)),
                });
            }
            Field::Name => record.name = Some(e.get("text")?.text()?.as_bytes()),
            Field::Wait => record.wait = Some(small(e.get("wait"))?),
            Field::MessageIdentifier => record.message_identifier = Some(e.get("message_identifier").and_then(wide)?),
            Field::SerialNumber => record.serial_number = Some(e.get("serial_number").and_then(wide)?),
            Field::WarningCause => record.warning_cause = Some(small(e.get("cause"))?),
            Field::Carried => record.carried[row] = Some(octets),
        }
    }
    Some(record)
}
