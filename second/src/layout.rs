//! The record of a message for C (docs/LAYOUTS.md), and reading and writing by it.
//! Octets are a record exactly if they are the octets of what they say.

use crate::{bare, be16, faulty, place_in, write};
use crate::{Cause, Diagnostics, Done, Entries, Field, Items, Kind, Read, Reading, Record, Refused, ResetType, Tmgi};
use crate::{Profile, M3AP, MOST, ROWS};

pub const RECORD_OCTETS: usize = ENTRIES_AT + 4 * MOST;
const SLOTS_AT: usize = 2;
const SLOT: usize = 8;
const ITEM_COUNT_AT: usize = SLOTS_AT + SLOT * ROWS;
const ITEMS_AT: usize = ITEM_COUNT_AT + 2;
const ENTRY_COUNT_AT: usize = ITEMS_AT + 6 * MOST;
const ENTRIES_AT: usize = ENTRY_COUNT_AT + 2;

fn two(n: usize) -> [u8; 2] {
    (n as u16).to_be_bytes()
}

fn maybe(v: Option<u8>) -> [u8; 2] {
    v.map_or([0, 0], |v| [1, v])
}

fn put_items(record: &mut [u8], items: &Items) {
    let mut n = 0;
    for (item, at) in items.iter().zip((ITEMS_AT..ENTRY_COUNT_AT).step_by(6)) {
        n += 1;
        for (identity, at) in [(item.mme, at), (item.mce, at + 3)] {
            if let Some(identity) = identity {
                record[at] = 1;
                record[at + 1..at + 3].copy_from_slice(&identity.to_be_bytes());
            }
        }
    }
    record[ITEM_COUNT_AT..ITEMS_AT].copy_from_slice(&two(n));
}

fn put_entries(record: &mut [u8], entries: &Entries) {
    let mut n = 0;
    for (entry, at) in entries.iter().zip((ENTRIES_AT..RECORD_OCTETS).step_by(4)) {
        n += 1;
        let [high, low] = entry.id.to_be_bytes();
        record[at..at + 4].copy_from_slice(&[entry.criticality, high, low, entry.error]);
    }
    record[ENTRY_COUNT_AT..ENTRIES_AT].copy_from_slice(&two(n));
}

/// The octets of the record of what was read of a message: 2,662 of them, all put.
pub fn put(reading: &Reading, message: &[u8], octets: &mut [u8]) {
    let of = &reading.record;
    let octets = &mut octets[..RECORD_OCTETS];
    octets.fill(0);
    octets[0] = of.table.number;
    octets[1] = reading.frame;
    for (i, row) in of.table.rows.iter().enumerate() {
        // The flag, and the value behind it.
        let mut slot = [0; SLOT];
        let mut there = |flag: u8, value: &[u8]| {
            slot[0] = flag;
            slot[1..1 + value.len()].copy_from_slice(value);
        };
        let place = |value: &[u8]| {
            let ([a, b], [c, d]) = (two(place_in(value, message)), two(value.len()));
            [a, b, c, d]
        };
        match row.field {
            Field::Mme => of.mme.into_iter().for_each(|v| there(1, &v.to_be_bytes())),
            Field::Mce => of.mce.into_iter().for_each(|v| there(1, &v.to_be_bytes())),
            Field::Tmgi => {
                if let Some(Tmgi { plmn: [a, b, c], service: [d, e, f] }) = of.tmgi {
                    there(1, &[a, b, c, d, e, f]);
                }
            }
            Field::Session => of.session.into_iter().for_each(|v| there(1, &[v])),
            Field::Cause => of.cause.into_iter().for_each(|v| there(1, &[v.group, v.number])),
            Field::Reset => match &of.reset {
                Some(ResetType::All) => there(1, &[]),
                Some(ResetType::Part(items)) => {
                    there(2, &[]);
                    put_items(octets, items);
                }
                None => {}
            },
            Field::Acknowledged => {
                if let Some(items) = &of.acknowledged {
                    there(1, &[]);
                    put_items(octets, items);
                }
            }
            Field::Diagnostics => {
                if let Some(d) = &of.diagnostics {
                    let ([a, b], [c, e], [f, g]) = (maybe(d.code), maybe(d.trigger), maybe(d.criticality));
                    there(1, &[a, b, c, e, f, g, d.entries.is_some() as u8]);
                    if let Some(entries) = &d.entries {
                        put_entries(octets, entries);
                    }
                }
            }
            Field::Name => of.name.into_iter().for_each(|v| there(1, &place(v))),
            Field::Wait => of.wait.into_iter().for_each(|v| there(1, &[v])),
            Field::MessageIdentifier => of.message_identifier.into_iter().for_each(|v| there(1, &v.to_be_bytes())),
            Field::SerialNumber => of.serial_number.into_iter().for_each(|v| there(1, &v.to_be_bytes())),
            Field::WarningCause => of.warning_cause.into_iter().for_each(|v| there(1, &[v])),
            Field::Carried => of.carried[i].into_iter().for_each(|v| there(1, &place(v))),
        }
        let at = SLOTS_AT + SLOT * i;
        octets[at..at + SLOT].copy_from_slice(&slot);
    }
}

/// What the octets of a record say.
#[derive(Clone, Debug)]
pub struct Taken<'a> {
    /// The frame's, as received.
    pub criticality: u8,
    pub record: Record<'a>,
}

impl Taken<'_> {
    /// A criticality over 2 is a number out of its range, though the table's is written.
    pub fn write(&self, room: &mut [u8]) -> Result<usize, Refused> {
        if self.record.misnamed() {
            Err(Refused::Name)
        } else if self.criticality > 2 {
            Err(Refused::Record)
        } else {
            write(&self.record, room)
        }
    }
}

/// Without a branch for each octet, so that the yardstick is a quick one.
fn zeros(octets: &[u8]) -> bool {
    octets.iter().fold(0, |all, b| all | b) == 0
}

/// 1 and a value, or 0 and zeros.
fn flagged(octets: &[u8]) -> bool {
    octets[0] == 1 || zeros(octets)
}

/// As many rows as the number before them says; zeros behind.
fn rows(octets: &[u8], size: usize) -> Option<&[u8]> {
    let n = be16(octets, 0) as usize;
    if n > MOST {
        return None;
    }
    let (rows, behind) = octets[2..].split_at(size * n);
    zeros(behind).then_some(rows)
}

impl Profile {
    /// What the octets say, values being parts of `values`. None: they are no record.
    /// A place that does not lie in `values` is a value of no octets.
    pub fn taken<'a>(&self, octets: &'a [u8], values: &'a [u8]) -> Option<Taken<'a>> {
        if octets.len() != RECORD_OCTETS {
            return None;
        }
        let table = self.numbered(octets[0])?;
        let items = rows(&octets[ITEM_COUNT_AT..ENTRY_COUNT_AT], 6)?;
        if !items.chunks_exact(3).all(flagged) {
            return None;
        }
        let entries = rows(&octets[ENTRY_COUNT_AT..], 4)?;
        let (mut has_items, mut has_entries) = (false, false);
        let mut record = Record::of(table);
        for (i, slot) in octets[SLOTS_AT..ITEM_COUNT_AT].chunks_exact(SLOT).enumerate() {
            let Some(row) = table.rows.get(i) else {
                if !zeros(slot) {
                    return None;
                }
                continue;
            };
            let (flag, value) = (slot[0], &slot[1..]);
            if flag == 0 {
                if !zeros(value) {
                    return None;
                }
                continue;
            }
            if flag > if row.field == Field::Reset { 2 } else { 1 } {
                return None;
            }
            let at_place = || {
                let (from, n) = (be16(value, 0) as usize, be16(value, 2) as usize);
                values.get(from..from + n).unwrap_or(&[])
            };
            let used = match row.field {
                Field::Mme => {
                    record.mme = Some(be16(value, 0));
                    2
                }
                Field::Mce => {
                    record.mce = Some(be16(value, 0));
                    2
                }
                Field::Tmgi => {
                    record.tmgi =
                        Some(Tmgi { plmn: [value[0], value[1], value[2]], service: [value[3], value[4], value[5]] });
                    6
                }
                Field::Session => {
                    record.session = Some(value[0]);
                    1
                }
                Field::Cause => {
                    record.cause = Some(Cause { group: value[0], number: value[1] });
                    2
                }
                Field::Reset => {
                    has_items = flag == 2;
                    record.reset = Some(if has_items { ResetType::Part(Items::Lent(items)) } else { ResetType::All });
                    0
                }
                Field::Acknowledged => {
                    has_items = true;
                    record.acknowledged = Some(Items::Lent(items));
                    0
                }
                Field::Diagnostics => {
                    if !value[..6].chunks_exact(2).all(flagged) || value[6] > 1 {
                        return None;
                    }
                    has_entries = value[6] == 1;
                    let part = |i: usize| (value[i] == 1).then_some(value[i + 1]);
                    record.diagnostics = Some(Diagnostics {
                        code: part(0),
                        trigger: part(2),
                        criticality: part(4),
                        entries: has_entries.then_some(Entries::Lent(entries)),
                    });
                    7
                }
                Field::Name => {
                    record.name = Some(at_place());
                    4
                }
                Field::Wait => {
                    record.wait = Some(value[0]);
                    1
                }
                Field::MessageIdentifier => {
                    record.message_identifier = Some(be16(value, 0));
                    2
                }
                Field::SerialNumber => {
                    record.serial_number = Some(be16(value, 0));
                    2
                }
                Field::WarningCause => {
                    record.warning_cause = Some(value[0]);
                    1
                }
                Field::Carried => {
                    record.carried[i] = Some(at_place());
                    4
                }
            };
            if !zeros(&value[used..]) {
                return None;
            }
        }
        if (!has_items && !items.is_empty()) || (!has_entries && !entries.is_empty()) {
            return None;
        }
        Some(Taken { criticality: octets[1], record })
    }

    /// Reads a message into a record for C: put with answers 0 and 5, whose place 10 takes.
    #[inline]
    pub fn read_record(&self, message: &[u8], record: &mut [u8]) -> Done {
        let reading = match self.read(message) {
            Read::TooLong => return bare(1),
            Read::Faulty(fault) => return faulty(fault),
            Read::NotOurs => return bare(4),
            Read::Message(reading) => reading,
        };
        if record.len() < RECORD_OCTETS {
            return bare(10);
        }
        put(&reading, message, record);
        Done { reply: RECORD_OCTETS, ..bare(if reading.rejected.is_some() { 5 } else { 0 }) }
    }

    /// Writes the message of a record for C to the front of the room.
    #[inline]
    pub fn write_record(&self, record: &[u8], values: &[u8], room: &mut [u8]) -> Done {
        let written = match &self.taken(record, values) {
            Some(taken) => taken.write(room),
            None => Err(Refused::Record),
        };
        match written {
            Ok(reply) => Done { reply, ..bare(0) },
            Err(refused) => bare(refused.answer()),
        }
    }
}

/// What the octets of a record of M3AP say.
pub fn taken<'a>(octets: &'a [u8], values: &'a [u8]) -> Option<Taken<'a>> {
    M3AP.taken(octets, values)
}

/// What `m3ap_read` is.
pub fn read_record(message: &[u8], record: &mut [u8]) -> Done {
    M3AP.read_record(message, record)
}

/// What `m3ap_write` is.
pub fn write_record(record: &[u8], values: &[u8], room: &mut [u8]) -> Done {
    M3AP.write_record(record, values, room)
}

/// The record of an M3 SETUP REQUEST, and the octets in which its values lie one after the other.
pub fn setup_request(global: Option<&[u8]>, name: Option<&[u8]>, areas: Option<&[u8]>) -> (Vec<u8>, Vec<u8>) {
    let mut record = vec![0; RECORD_OCTETS];
    let mut values = Vec::new();
    record[0] = Kind::SetupRequest as u8 + 1;
    for (i, value) in [global, name, areas].into_iter().enumerate() {
        if let Some(value) = value {
            let at = SLOTS_AT + SLOT * i;
            record[at] = 1;
            record[at + 1..at + 3].copy_from_slice(&two(values.len()));
            record[at + 3..at + 5].copy_from_slice(&two(value.len()));
            values.extend_from_slice(value);
        }
    }
    (record, values)
}
