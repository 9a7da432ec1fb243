//! M3AP at the coordination unit: reader, writer, unit call and setup call for eleven messages, their record
//! for C, the shown name, and what a unit holds. Warnings over SBc-AP: reader, writer and record for C of three
//! messages, in two profiles, by the same functions.
//! Written from the scope paper (01), the change requests (02: 2026-01, 2026-11), their readings, TS 36.444 9.3.3
//! to 9.3.7 and TS 29.168 4.4.3 to 4.4.8 alone.
#![deny(warnings)]
#![forbid(unsafe_code)]

pub mod check;
pub mod json;
pub mod layout;
pub mod make;
pub mod text;

/// Longest message, frame included.
pub const LIMIT: usize = 8192;
/// Most items of a reset, entries of diagnostics, associations of a table.
pub const MOST: usize = 256;
/// Most characters of an MCE Name, and octets of a label that are shown.
pub const NAME_MOST: usize = 150;

pub const REJECT: u8 = 0;
pub const IGNORE: u8 = 1;
pub const NOTIFY: u8 = 2;

pub const NOT_UNDERSTOOD: u8 = 0;
pub const MISSING: u8 = 1;

pub const ID_ITEM: u16 = 14;

// ---------------------------------------------------------------- tables (TS 36.444 9.3.4, TS 29.168 4.4.4)

#[derive(Clone, Copy, PartialEq, Eq, Debug)]
pub enum Kind {
    StartRequest,
    StartResponse,
    StartFailure,
    StopRequest,
    StopResponse,
    Reset,
    ResetAcknowledge,
    ErrorIndication,
    SetupRequest,
    SetupResponse,
    SetupFailure,
    StopWarningRequest,
    StopWarningResponse,
    /// SBc-AP's Error Indication.
    WarningErrorIndication,
}

impl Kind {
    /// Its table in M3AP, or in the ordinary profile of SBc-AP.
    pub fn table(self) -> &'static Table {
        match (self as usize).checked_sub(M3AP_TABLES.len()) {
            None => &M3AP_TABLES[self as usize],
            Some(warning) => &SBCAP_TABLES[warning],
        }
    }
}

#[derive(Clone, Copy, PartialEq, Eq, Debug)]
pub enum Field {
    Mme,
    Mce,
    Tmgi,
    Session,
    Cause,
    Reset,
    Acknowledged,
    Diagnostics,
    /// MCE Name.
    Name,
    /// Time to Wait.
    Wait,
    MessageIdentifier,
    SerialNumber,
    /// SBc-AP's Cause: a number, and no choice.
    WarningCause,
    Carried,
}

#[derive(Clone, Copy, Debug)]
pub struct Row {
    pub id: u16,
    pub mandatory: bool,
    pub criticality: u8,
    pub field: Field,
}

/// A message of a profile.
#[derive(Debug)]
pub struct Table {
    pub kind: Kind,
    /// Its number in a record for C.
    pub number: u8,
    /// Number of the choice in the frame, procedure code, criticality of the procedure.
    pub frame: (u8, u8, u8),
    /// How a message opens: the bit of its first octet that announces an extension container behind the elements,
    /// or 0 if it can have none.
    pub container: u8,
    /// How many values a triggering message has.
    pub triggers: u8,
    pub rows: &'static [Row],
    /// Row of each element id, `UNKNOWN` where the message has none.
    by_id: [u8; IDS],
    /// Rows whose absence rejects the message (and is listed): mandatory and of reject.
    /// No row of a table is of notify, so the two sets are one.
    needed: u16,
}

const UNKNOWN: u8 = 0xff;
const ROWS: usize = 12;
/// Ids of elements that tables have: 0 to 27.
const IDS: usize = 28;

const fn row(id: u16, mandatory: bool, criticality: u8, field: Field) -> Row {
    Row { id, mandatory, criticality, field }
}

const M: bool = true;
const O: bool = false;

const START_REQUEST: &[Row] = &[
    row(0, M, REJECT, Field::Mme),
    row(2, M, REJECT, Field::Tmgi),
    row(3, O, IGNORE, Field::Session),
    row(4, M, REJECT, Field::Carried),
    row(5, M, REJECT, Field::Carried),
    row(6, M, REJECT, Field::Carried),
    row(16, M, REJECT, Field::Carried),
    row(7, M, REJECT, Field::Carried),
    row(21, O, IGNORE, Field::Carried),
    row(23, O, IGNORE, Field::Carried),
    row(24, O, IGNORE, Field::Carried),
    row(25, O, REJECT, Field::Carried),
];
const RESPONSE: &[Row] = &[
    row(0, M, IGNORE, Field::Mme),
    row(1, M, IGNORE, Field::Mce),
    row(8, O, IGNORE, Field::Diagnostics),
];
const START_FAILURE: &[Row] = &[
    row(0, M, IGNORE, Field::Mme),
    row(9, M, IGNORE, Field::Cause),
    row(8, O, IGNORE, Field::Diagnostics),
];
const STOP_REQUEST: &[Row] = &[
    row(0, M, REJECT, Field::Mme),
    row(1, M, REJECT, Field::Mce),
    row(22, O, IGNORE, Field::Carried),
];
const RESET: &[Row] = &[
    row(9, M, IGNORE, Field::Cause),
    row(13, M, REJECT, Field::Reset),
];
const RESET_ACKNOWLEDGE: &[Row] = &[
    row(15, O, IGNORE, Field::Acknowledged),
    row(8, O, IGNORE, Field::Diagnostics),
];
const ERROR_INDICATION: &[Row] = &[
    row(0, O, IGNORE, Field::Mme),
    row(1, O, IGNORE, Field::Mce),
    row(9, O, IGNORE, Field::Cause),
    row(8, O, IGNORE, Field::Diagnostics),
];
const SETUP_REQUEST: &[Row] = &[
    row(18, M, REJECT, Field::Carried),
    row(19, O, IGNORE, Field::Name),
    row(20, M, REJECT, Field::Carried),
];
const SETUP_RESPONSE: &[Row] = &[row(8, O, IGNORE, Field::Diagnostics)];
const SETUP_FAILURE: &[Row] = &[
    row(9, M, IGNORE, Field::Cause),
    row(12, O, IGNORE, Field::Wait),
    row(8, O, IGNORE, Field::Diagnostics),
];

const STOP_WARNING_REQUEST: &[Row] = &[
    row(5, M, REJECT, Field::MessageIdentifier),
    row(11, M, REJECT, Field::SerialNumber),
    row(14, O, REJECT, Field::Carried),
    row(15, O, IGNORE, Field::Carried),
    row(19, O, IGNORE, Field::Carried),
    row(26, O, IGNORE, Field::Carried),
    row(27, O, REJECT, Field::Carried),
];
const STOP_WARNING_RESPONSE: &[Row] = &[
    row(5, M, REJECT, Field::MessageIdentifier),
    row(11, M, REJECT, Field::SerialNumber),
    row(1, M, REJECT, Field::WarningCause),
    row(2, O, IGNORE, Field::Diagnostics),
    row(22, O, IGNORE, Field::Carried),
];
const WARNING_ERROR_INDICATION: &[Row] = &[
    row(1, O, IGNORE, Field::WarningCause),
    row(2, O, IGNORE, Field::Diagnostics),
];

/// A message of M3AP.
const fn table(kind: Kind, number: u8, frame: (u8, u8, u8), rows: &'static [Row]) -> Table {
    let mut by_id = [UNKNOWN; IDS];
    let mut needed = 0;
    let mut i = 0;
    while i < rows.len() {
        by_id[rows[i].id as usize] = i as u8;
        if rows[i].mandatory && rows[i].criticality == REJECT {
            needed |= 1 << i;
        }
        i += 1;
    }
    Table { kind, number, frame, container: 0, triggers: 3, rows, by_id, needed }
}

/// A message of SBc-AP: its triggering message has a fourth value, outcome.
const fn warning(kind: Kind, number: u8, frame: (u8, u8, u8), container: u8, rows: &'static [Row]) -> Table {
    Table { container, triggers: 4, ..table(kind, number, frame, rows) }
}

/// In the order of their numbers in a record for C.
static M3AP_TABLES: [Table; 11] = [
    table(Kind::StartRequest, 1, (0, 0, REJECT), START_REQUEST),
    table(Kind::StartResponse, 2, (1, 0, REJECT), RESPONSE),
    table(Kind::StartFailure, 3, (2, 0, REJECT), START_FAILURE),
    table(Kind::StopRequest, 4, (0, 1, REJECT), STOP_REQUEST),
    table(Kind::StopResponse, 5, (1, 1, REJECT), RESPONSE),
    table(Kind::Reset, 6, (0, 4, REJECT), RESET),
    table(Kind::ResetAcknowledge, 7, (1, 4, REJECT), RESET_ACKNOWLEDGE),
    table(Kind::ErrorIndication, 8, (0, 2, IGNORE), ERROR_INDICATION),
    table(Kind::SetupRequest, 9, (0, 7, REJECT), SETUP_REQUEST),
    table(Kind::SetupResponse, 10, (1, 7, REJECT), SETUP_RESPONSE),
    table(Kind::SetupFailure, 11, (2, 7, REJECT), SETUP_FAILURE),
];
static SBCAP_TABLES: [Table; 3] = warnings(STOP_WARNING_REQUEST);
static LAB_TABLES: [Table; 3] = warnings(STOP_WARNING_REQUEST.split_at(2).0);

/// Likewise, with these rows of a Stop-Warning Request.
const fn warnings(request: &'static [Row]) -> [Table; 3] {
    [
        warning(Kind::StopWarningRequest, 1, (0, 1, REJECT), 0x40, request),
        warning(Kind::StopWarningResponse, 2, (1, 1, REJECT), 0x40, STOP_WARNING_RESPONSE),
        warning(Kind::WarningErrorIndication, 3, (0, 2, IGNORE), 0, WARNING_ERROR_INDICATION),
    ]
}

/// The messages that a reader and a writer go by.
#[derive(Debug)]
pub struct Profile {
    /// In the order of their numbers in a record for C, from 1.
    pub tables: &'static [Table],
    /// By procedure code and choice: the number of the message, 0 where there is none.
    by_frame: [[u8; 3]; 8],
}

const fn profile(tables: &'static [Table]) -> Profile {
    let mut by_frame = [[0; 3]; 8];
    let mut i = 0;
    while i < tables.len() {
        let (choice, procedure, _) = tables[i].frame;
        by_frame[procedure as usize][choice as usize] = i as u8 + 1;
        i += 1;
    }
    Profile { tables, by_frame }
}

pub static M3AP: Profile = profile(&M3AP_TABLES);
/// SBc-AP's ordinary profile.
pub static SBCAP: Profile = profile(&SBCAP_TABLES);
/// Its lab profile: of a Stop-Warning Request, all but Message Identifier and Serial Number is unknown.
pub static SBCAP_LAB: Profile = profile(&LAB_TABLES);

impl Profile {
    /// The message of a frame.
    fn table(&self, choice: u8, procedure: u8) -> Option<&'static Table> {
        self.numbered(self.by_frame.get(procedure as usize)?[choice as usize])
    }

    /// The message of a number in a record for C.
    fn numbered(&self, number: u8) -> Option<&'static Table> {
        self.tables.get((number as usize).checked_sub(1)?)
    }
}

impl Table {
    fn row_of(&self, id: u16) -> u8 {
        *self.by_id.get(id as usize).unwrap_or(&UNKNOWN)
    }
}

// ---------------------------------------------------------------- records

#[derive(Clone, Copy, PartialEq, Eq, Debug)]
pub struct Tmgi {
    pub plmn: [u8; 3],
    pub service: [u8; 3],
}

#[derive(Clone, Copy, PartialEq, Eq, Debug)]
pub struct Cause {
    pub group: u8,
    pub number: u8,
}

/// Root numbers of the five groups: radio, transport, NAS, protocol, miscellaneous.
pub const CAUSES: [u8; 5] = [8, 2, 1, 7, 5];

pub const MME_ID_TAKEN: Cause = Cause { group: 0, number: 0 };
pub const PAIR_UNKNOWN: Cause = Cause { group: 0, number: 2 };
pub const NO_RADIO_RESOURCES: Cause = Cause { group: 0, number: 3 };
pub const SYNTAX_REJECT: Cause = Cause { group: 3, number: 1 };
pub const FALSELY_CONSTRUCTED: Cause = Cause { group: 3, number: 5 };

/// A reset item: the identities it names, if any.
#[derive(Clone, Copy, PartialEq, Eq, Debug)]
pub struct Item {
    pub mme: Option<u16>,
    pub mce: Option<u16>,
}

impl Item {
    fn size(self) -> usize {
        1 + 2 * self.mme.is_some() as usize + 2 * self.mce.is_some() as usize
    }
}

/// A list of reset items: given, or standing in octets that were read and found good.
#[derive(Clone, Copy, Debug)]
pub enum Items<'a> {
    Given(&'a [Item]),
    /// Six octets each, as a record for C has them.
    Lent(&'a [u8]),
    /// All items of the octets (envelopes, behind the number of items).
    Read(&'a [u8]),
    /// Those of them that have an identity.
    Naming(&'a [u8]),
}

impl<'a> Items<'a> {
    pub fn iter(&self) -> ItemsIter<'a> {
        match *self {
            Items::Given(list) => ItemsIter { given: list, lent: &[], octets: &[], all: true },
            Items::Lent(lent) => ItemsIter { given: &[], lent, octets: &[], all: true },
            Items::Read(octets) => ItemsIter { given: &[], lent: &[], octets, all: true },
            Items::Naming(octets) => ItemsIter { given: &[], lent: &[], octets, all: false },
        }
    }
}

#[derive(Clone)]
pub struct ItemsIter<'a> {
    given: &'a [Item],
    lent: &'a [u8],
    octets: &'a [u8],
    all: bool,
}

impl Iterator for ItemsIter<'_> {
    type Item = Item;

    fn next(&mut self) -> Option<Item> {
        if let Some((first, rest)) = self.given.split_first() {
            self.given = rest;
            return Some(*first);
        }
        if let [mme, a, b, mce, c, d, ref rest @ ..] = *self.lent {
            self.lent = rest;
            let identity = |there, high, low| (there != 0).then_some(u16::from_be_bytes([high, low]));
            return Some(Item { mme: identity(mme, a, b), mce: identity(mce, c, d) });
        }
        // Envelope: id, id, criticality, length (1, 3 or 5), then the value.
        while let [_, _, _, n, ref value @ ..] = *self.octets {
            let (value, rest) = value.split_at(n as usize);
            self.octets = rest;
            let item = match (value[0] & 0x40 != 0, value[0] & 0x20 != 0) {
                (true, true) => Item { mme: Some(be16(value, 1)), mce: Some(be16(value, 3)) },
                (true, false) => Item { mme: Some(be16(value, 1)), mce: None },
                (false, true) => Item { mme: None, mce: Some(be16(value, 1)) },
                (false, false) if !self.all => continue,
                (false, false) => Item { mme: None, mce: None },
            };
            return Some(item);
        }
        None
    }
}

#[derive(Clone, Copy, Debug)]
pub enum ResetType<'a> {
    All,
    Part(Items<'a>),
}

/// An entry of a list of diagnostics.
#[derive(Clone, Copy, PartialEq, Eq, Debug)]
pub struct Entry {
    pub criticality: u8,
    pub id: u16,
    pub error: u8,
}

/// A list of diagnostics: given, read, or noted while a message was judged.
#[derive(Clone, Debug)]
pub enum Entries<'a> {
    Given(&'a [Entry]),
    /// Four octets each, as a record for C has them.
    Lent(&'a [u8]),
    /// The 1 + 3n octets of a list that was read and found good.
    Read(&'a [u8]),
    Noted(Noted<'a>),
}

impl<'a> Entries<'a> {
    pub fn len(&self) -> usize {
        match self {
            Entries::Given(list) => list.len(),
            Entries::Lent(lent) => lent.len() / 4,
            Entries::Read(octets) => octets.len() / 3,
            Entries::Noted(noted) => noted.len(),
        }
    }

    pub fn is_empty(&self) -> bool {
        self.len() == 0
    }

    pub fn iter(&self) -> EntriesIter<'a> {
        match self {
            Entries::Given(list) => EntriesIter::Given(list.iter()),
            Entries::Lent(lent) => EntriesIter::Lent(lent),
            Entries::Read(octets) => EntriesIter::Read { octets, shift: 4 },
            Entries::Noted(noted) => EntriesIter::Noted(noted.clone()),
        }
    }
}

#[derive(Clone)]
pub enum EntriesIter<'a> {
    Given(std::slice::Iter<'a, Entry>),
    Lent(&'a [u8]),
    Read { octets: &'a [u8], shift: u8 },
    Noted(Noted<'a>),
}

impl Iterator for EntriesIter<'_> {
    type Item = Entry;

    fn next(&mut self) -> Option<Entry> {
        match self {
            EntriesIter::Given(list) => list.next().copied(),
            EntriesIter::Lent(lent) => {
                let [criticality, high, low, error, ref rest @ ..] = **lent else {
                    return None;
                };
                *lent = rest;
                Some(Entry { criticality, id: u16::from_be_bytes([high, low]), error })
            }
            EntriesIter::Read { octets, shift } => {
                if octets.len() < 4 {
                    return None;
                }
                let entry = Entry {
                    criticality: octets[0] >> *shift & 3,
                    id: be16(octets, 1),
                    error: octets[3] >> 6 & 1,
                };
                *octets = &octets[3..];
                *shift = 2;
                Some(entry)
            }
            EntriesIter::Noted(noted) => noted.next(),
        }
    }
}

#[derive(Clone, Debug)]
pub struct Diagnostics<'a> {
    pub code: Option<u8>,
    pub trigger: Option<u8>,
    pub criticality: Option<u8>,
    pub entries: Option<Entries<'a>>,
}

/// A message by its meaning. Only what the message's table names is read, written or compared;
/// `carried` holds the octets of carried elements at the number of their row.
#[derive(Clone, Debug)]
pub struct Record<'a> {
    pub table: &'static Table,
    pub mme: Option<u16>,
    pub mce: Option<u16>,
    pub tmgi: Option<Tmgi>,
    pub session: Option<u8>,
    pub cause: Option<Cause>,
    pub reset: Option<ResetType<'a>>,
    pub acknowledged: Option<Items<'a>>,
    pub diagnostics: Option<Diagnostics<'a>>,
    /// The characters of the MCE Name.
    pub name: Option<&'a [u8]>,
    /// Time to Wait, its number 0 to 5.
    pub wait: Option<u8>,
    pub message_identifier: Option<u16>,
    pub serial_number: Option<u16>,
    pub warning_cause: Option<u8>,
    pub carried: [Option<&'a [u8]>; ROWS],
}

/// What Time to Wait means, in seconds, by its number.
pub const SECONDS: [u16; 6] = [1, 2, 5, 10, 20, 60];

/// A character of a PrintableString.
pub fn printable(c: u8) -> bool {
    c.is_ascii_alphanumeric() || b" '()+,-./:=?".contains(&c)
}

/// Whether an MCE Name is one: 1 to 150 characters of a PrintableString.
pub fn name_allowed(name: &[u8]) -> bool {
    (1..=NAME_MOST).contains(&name.len()) && name.iter().all(|&c| printable(c))
}

impl Record<'_> {
    pub fn new(kind: Kind) -> Self {
        Record::of(kind.table())
    }

    pub fn of(table: &'static Table) -> Self {
        Record {
            table,
            mme: None,
            mce: None,
            tmgi: None,
            session: None,
            cause: None,
            reset: None,
            acknowledged: None,
            diagnostics: None,
            name: None,
            wait: None,
            message_identifier: None,
            serial_number: None,
            warning_cause: None,
            carried: [None; ROWS],
        }
    }
}

// ---------------------------------------------------------------- reading

/// A fault (answer 2) or an extension (answer 3) and the offset of its octet.
#[derive(Clone, Copy, PartialEq, Eq, Debug)]
pub enum Fault {
    Encoding(usize),
    Extension(usize),
}

use Fault::{Encoding, Extension};

/// By value, though one variant is large: it is made once and never stored.
#[allow(clippy::large_enum_variant)]
#[derive(Clone, Debug)]
pub enum Read<'a> {
    /// 1
    TooLong,
    /// 2 or 3
    Faulty(Fault),
    /// 4
    NotOurs,
    /// 0, or 5 if `rejected`
    Message(Reading<'a>),
}

#[derive(Clone, Debug)]
pub struct Reading<'a> {
    /// Criticality received in the frame.
    pub frame: u8,
    pub record: Record<'a>,
    pub noted: Noted<'a>,
    pub rejected: Option<Rejection>,
}

#[derive(Clone, Copy, PartialEq, Eq, Debug)]
pub struct Rejection {
    pub cause: Cause,
    /// Number, from 0, of the element out of order or repeated.
    pub place: Option<usize>,
}

/// The list of diagnostics of a message, made anew from its octets each time it is walked:
/// unknown elements of reject or notify in message order, then missing rows in table order.
#[derive(Clone, Debug)]
pub struct Noted<'a> {
    table: &'static Table,
    /// Elements that count and may hold unknown ones to list, behind them the container.
    octets: &'a [u8],
    /// How many of the octets, the last, are extensions, which are unknown whatever their ids.
    /// Narrow, as the other numbers are: a record has room for a list, and is copied.
    beside: u16,
    unknown: u16,
    missing: u16,
    left: u16,
}

impl Noted<'_> {
    pub fn len(&self) -> usize {
        self.left as usize
    }

    pub fn is_empty(&self) -> bool {
        self.left == 0
    }
}

impl Iterator for Noted<'_> {
    type Item = Entry;

    fn next(&mut self) -> Option<Entry> {
        if self.left == 0 {
            return None;
        }
        self.left -= 1;
        if self.unknown > 0 {
            self.unknown -= 1;
            loop {
                // The number of extensions stands before them; no element is as short as it.
                if self.octets.len() == self.beside as usize + 2 {
                    self.octets = &self.octets[2..];
                }
                let o = self.octets;
                let id = be16(o, 0);
                let criticality = o[2] >> 6;
                let size = if o[3] < 0x80 { 4 + o[3] as usize } else { 5 + (be16(o, 3) & 0x3fff) as usize };
                self.octets = &o[size..];
                let known = o.len() > self.beside as usize && self.table.row_of(id) != UNKNOWN;
                if criticality != IGNORE && !known {
                    return Some(Entry { criticality, id, error: NOT_UNDERSTOOD });
                }
            }
        }
        let row = &self.table.rows[self.missing.trailing_zeros() as usize];
        self.missing &= self.missing - 1;
        Some(Entry { criticality: row.criticality, id: row.id, error: MISSING })
    }
}

#[inline]
fn be16(o: &[u8], at: usize) -> u16 {
    u16::from_be_bytes([o[at], o[at + 1]])
}

struct Frame {
    choice: u8,
    procedure: u8,
    criticality: u8,
    /// Where the message begins; it ends with the octets.
    start: usize,
}

fn frame(o: &[u8]) -> Result<Frame, Fault> {
    let &first = o.first().ok_or(Encoding(0))?;
    if first & 0x80 != 0 {
        return Err(Extension(0));
    }
    // Kind 3 and pad.
    if first >= 0x60 || first & 0x1f != 0 {
        return Err(Encoding(0));
    }
    let &procedure = o.get(1).ok_or(Encoding(1))?;
    let (criticality, start, end) = envelope(o, 2, o.len())?;
    if end < o.len() {
        return Err(Encoding(end));
    }
    Ok(Frame { choice: first >> 5, procedure, criticality, start })
}

/// Criticality, pad and length at `at`; the value's begin and end.
#[inline]
fn envelope(o: &[u8], at: usize, end: usize) -> Result<(u8, usize, usize), Fault> {
    if at >= end {
        return Err(Encoding(at));
    }
    let criticality = o[at];
    if criticality >= 0xc0 || criticality & 0x3f != 0 {
        return Err(Encoding(at));
    }
    let at = at + 1;
    if at >= end {
        return Err(Encoding(at));
    }
    let (size, start) = match o[at] {
        n @ 0..=0x7f => (n as usize, at + 1),
        n @ 0x80..=0xbf if at + 1 < end => {
            let size = (n as usize & 0x3f) << 8 | o[at + 1] as usize;
            if size < 0x80 {
                return Err(Encoding(at));
            }
            (size, at + 2)
        }
        _ => return Err(Encoding(at)),
    };
    if size == 0 || size > end - start {
        return Err(Encoding(at));
    }
    Ok((criticality >> 6, start, start + size))
}

/// Nothing may be left over at `at`.
#[inline]
fn ends(at: usize, end: usize) -> Result<(), Fault> {
    if at < end {
        Err(Encoding(at))
    } else {
        Ok(())
    }
}

#[inline]
fn two_octets(o: &[u8], at: usize, end: usize) -> Result<u16, Fault> {
    if end - at < 2 {
        return Err(Encoding(at));
    }
    Ok(be16(o, at))
}

fn tmgi(o: &[u8], at: usize, end: usize) -> Result<Tmgi, Fault> {
    if o[at] & 0x80 != 0 {
        return Err(Extension(at));
    }
    if o[at] != 0 {
        return Err(Encoding(at));
    }
    if end - at < 4 {
        return Err(Encoding(at + 1));
    }
    if end - at < 7 {
        return Err(Encoding(at + 4));
    }
    ends(at + 7, end)?;
    Ok(Tmgi { plmn: [o[at + 1], o[at + 2], o[at + 3]], service: [o[at + 4], o[at + 5], o[at + 6]] })
}

fn cause(o: &[u8], at: usize, end: usize) -> Result<Cause, Fault> {
    let b = o[at];
    if b & 0x80 != 0 {
        return Err(Extension(at));
    }
    let group = b >> 4;
    if group > 4 {
        return Err(Encoding(at));
    }
    if b & 0x08 != 0 {
        return Err(Extension(at));
    }
    // Bits of the number: 3, 1, 0, 3, 3; the rest is pad.
    let (number, pad) = match group {
        1 => (b >> 2 & 1, b & 3),
        2 => (0, b & 7),
        _ => (b & 7, 0),
    };
    if number >= CAUSES[group as usize] || pad != 0 {
        return Err(Encoding(at));
    }
    ends(at + 1, end)?;
    Ok(Cause { group, number })
}

fn items(o: &[u8], at: usize, end: usize) -> Result<Items<'_>, Fault> {
    if at >= end {
        return Err(Encoding(at));
    }
    let first = at + 1;
    let mut at = first;
    for _ in 0..=o[first - 1] {
        if end - at < 2 || be16(o, at) != ID_ITEM {
            return Err(Encoding(at));
        }
        let (_, start, stop) = envelope(o, at + 2, end)?;
        at = start;
        let b = o[at];
        if b & 0x90 != 0 {
            return Err(Extension(at));
        }
        if b & 0x0f != 0 {
            return Err(Encoding(at));
        }
        at += 1;
        if b & 0x40 != 0 {
            two_octets(o, at, stop)?;
            at += 2;
        }
        if b & 0x20 != 0 {
            two_octets(o, at, stop)?;
            at += 2;
        }
        ends(at, stop)?;
    }
    ends(at, end)?;
    Ok(Items::Read(&o[first..end]))
}

fn reset_type(o: &[u8], at: usize, end: usize) -> Result<ResetType<'_>, Fault> {
    let b = o[at];
    if b & 0x80 != 0 {
        return Err(Extension(at));
    }
    if b & 0x40 == 0 {
        if b & 0x20 != 0 {
            return Err(Extension(at));
        }
        if b != 0 {
            return Err(Encoding(at));
        }
        ends(at + 1, end)?;
        return Ok(ResetType::All);
    }
    if b & 0x3f != 0 {
        return Err(Encoding(at));
    }
    Ok(ResetType::Part(items(o, at + 1, end)?))
}

/// Criticality Diagnostics with so many triggering messages.
fn diagnostics(o: &[u8], at: usize, end: usize, triggers: u8) -> Result<Diagnostics<'_>, Fault> {
    let octet = |at: usize| if at < end { Ok(o[at]) } else { Err(Encoding(at)) };
    let two = |bits: u8, limit: u8, at: usize| if bits & 3 < limit { Ok(Some(bits & 3)) } else { Err(Encoding(at)) };
    let b = o[at];
    if b & 0x84 != 0 {
        return Err(Extension(at));
    }
    let has = (b & 0x20 != 0, b & 0x10 != 0);
    let mut next = at + 1;
    let (mut code, mut trigger, mut criticality) = (None, None, None);
    if b & 0x40 != 0 {
        if b & 3 != 0 {
            return Err(Encoding(at));
        }
        code = Some(octet(next)?);
        next += 1;
        if has != (false, false) {
            let c = octet(next)?;
            let pad = match has {
                (true, true) => {
                    trigger = two(c >> 6, triggers, next)?;
                    criticality = two(c >> 4, 3, next)?;
                    c & 0x0f
                }
                (true, false) => {
                    trigger = two(c >> 6, triggers, next)?;
                    c & 0x3f
                }
                _ => {
                    criticality = two(c >> 6, 3, next)?;
                    c & 0x3f
                }
            };
            if pad != 0 {
                return Err(Encoding(next));
            }
            next += 1;
        }
    } else {
        match has {
            (false, false) if b & 3 != 0 => return Err(Encoding(at)),
            (false, false) => {}
            (true, false) => trigger = two(b, triggers, at)?,
            (false, true) => criticality = two(b, 3, at)?,
            (true, true) => {
                trigger = two(b, triggers, at)?;
                let c = octet(next)?;
                criticality = two(c >> 6, 3, next)?;
                if c & 0x3f != 0 {
                    return Err(Encoding(next));
                }
                next += 1;
            }
        }
    }
    let mut entries = None;
    if b & 0x08 != 0 {
        let last = octet(next)?;
        let list = next + 1;
        next = list;
        // Two extension bits and criticality stand before the id, behind the type of error
        // of the entry before it.
        let c = octet(next)?;
        if c & 0xc0 != 0 {
            return Err(Extension(next));
        }
        if c >= 0x30 || c & 0x0f != 0 {
            return Err(Encoding(next));
        }
        for n in 0..=last {
            if end - next < 3 {
                return Err(Encoding(next + 1));
            }
            next += 3;
            let c = octet(next)?;
            if c & 0x80 != 0 {
                return Err(Extension(next));
            }
            if n == last {
                if c & 0x3f != 0 {
                    return Err(Encoding(next));
                }
            } else if c & 0x30 != 0 {
                return Err(Extension(next));
            } else if c & 0x0f >= 0x0c || c & 3 != 0 {
                return Err(Encoding(next));
            }
        }
        next += 1;
        entries = Some(Entries::Read(&o[list..next]));
    }
    ends(next, end)?;
    Ok(Diagnostics { code, trigger, criticality, entries })
}

/// Extension bit, eight bits of length less 1 across two octets, seven bits of pad, the characters.
fn name(o: &[u8], at: usize, end: usize) -> Result<&[u8], Fault> {
    if o[at] & 0x80 != 0 {
        return Err(Extension(at));
    }
    // A length that is cut short, has no meaning or reaches past the value is at fault itself.
    if end - at < 2 {
        return Err(Encoding(at));
    }
    let size = (be16(o, at) >> 7) as usize + 1;
    let first = at + 2;
    if size > NAME_MOST || size > end - first {
        return Err(Encoding(at));
    }
    if o[at + 1] & 0x7f != 0 {
        return Err(Encoding(at + 1));
    }
    let characters = &o[first..first + size];
    if let Some(bad) = characters.iter().position(|&c| !printable(c)) {
        return Err(Encoding(first + bad));
    }
    ends(first + size, end)?;
    Ok(characters)
}

/// Extension bit, three bits of number, four of pad.
fn wait(o: &[u8], at: usize, end: usize) -> Result<u8, Fault> {
    if o[at] & 0x80 != 0 {
        return Err(Extension(at));
    }
    let number = o[at] >> 4;
    if number as usize >= SECONDS.len() || o[at] & 0x0f != 0 {
        return Err(Encoding(at));
    }
    ends(at + 1, end)?;
    Ok(number)
}

/// Unknown elements: how many are listed, and whether one rejects.
#[derive(Default)]
struct Unknown {
    listed: u16,
    reject: bool,
}

impl Unknown {
    #[inline]
    fn met(&mut self, criticality: u8) {
        self.listed += (criticality != IGNORE) as u16;
        self.reject |= criticality == REJECT;
    }
}

/// An element or an extension at `at`: its id, its criticality, and the value's begin and end.
#[inline]
fn element(o: &[u8], at: usize, end: usize) -> Result<(u16, u8, usize, usize), Fault> {
    if end - at < 2 {
        return Err(Encoding(at));
    }
    let (criticality, start, stop) = envelope(o, at + 2, end)?;
    Ok((be16(o, at), criticality, start, stop))
}

/// The container that begins at `at` and ends with the message: the number of extensions less 1, and they. Each is an
/// unknown element, if anything there still counts. How many octets they have.
fn extensions(o: &[u8], at: usize, unknown: &mut Unknown, counts: bool) -> Result<usize, Fault> {
    let end = o.len();
    let last = two_octets(o, at, end)?;
    // There are at most 65,535.
    if last == u16::MAX {
        return Err(Encoding(at));
    }
    let first = at + 2;
    let mut at = first;
    for _ in 0..=last {
        let (_, criticality, _, value_end) = element(o, at, end)?;
        at = value_end;
        if counts {
            unknown.met(criticality);
        }
    }
    ends(at, end)?;
    Ok(end - first)
}

/// Reads the message that begins at `start` and ends with the octets, and judges its elements.
fn inside<'a>(o: &'a [u8], start: usize, table: &'static Table, frame: u8) -> Result<Reading<'a>, Fault> {
    let end = o.len();
    let opening = o[start];
    if opening & 0x80 != 0 {
        return Err(Extension(start));
    }
    if opening & !table.container != 0 {
        return Err(Encoding(start));
    }
    if end - start < 3 {
        return Err(Encoding(start + 1));
    }
    let count = be16(o, start + 1) as usize;
    let first = start + 3;
    let mut record = Record::of(table);
    let mut at = first;
    let mut place = None;
    let mut next_row = 0;
    let mut seen = 0u16;
    let mut unknown = Unknown::default();
    for number in 0..count {
        let (id, criticality, value, value_end) = element(o, at, end)?;
        at = value_end;
        let row = table.row_of(id);
        if row == UNKNOWN {
            if place.is_none() {
                unknown.met(criticality);
            }
            continue;
        }
        // Values are checked behind the place too, but no longer kept.
        let counts = place.is_none() && row >= next_row;
        if counts {
            next_row = row + 1;
            seen |= 1 << row;
        } else if place.is_none() {
            place = Some(number);
        }
        match table.rows[row as usize].field {
            Field::Mme => {
                let v = two_octets(o, value, value_end)?;
                ends(value + 2, value_end)?;
                if counts {
                    record.mme = Some(v);
                }
            }
            Field::Mce => {
                let v = two_octets(o, value, value_end)?;
                ends(value + 2, value_end)?;
                if counts {
                    record.mce = Some(v);
                }
            }
            Field::Tmgi => {
                let v = tmgi(o, value, value_end)?;
                if counts {
                    record.tmgi = Some(v);
                }
            }
            Field::Session => {
                ends(value + 1, value_end)?;
                if counts {
                    record.session = Some(o[value]);
                }
            }
            Field::Cause => {
                let v = cause(o, value, value_end)?;
                if counts {
                    record.cause = Some(v);
                }
            }
            Field::Reset => {
                let v = reset_type(o, value, value_end)?;
                if counts {
                    record.reset = Some(v);
                }
            }
            Field::Acknowledged => {
                let v = items(o, value, value_end)?;
                if counts {
                    record.acknowledged = Some(v);
                }
            }
            Field::Diagnostics => {
                let v = diagnostics(o, value, value_end, table.triggers)?;
                if counts {
                    record.diagnostics = Some(v);
                }
            }
            Field::Name => {
                let v = name(o, value, value_end)?;
                if counts {
                    record.name = Some(v);
                }
            }
            Field::Wait => {
                let v = wait(o, value, value_end)?;
                if counts {
                    record.wait = Some(v);
                }
            }
            Field::MessageIdentifier => {
                let v = two_octets(o, value, value_end)?;
                ends(value + 2, value_end)?;
                if counts {
                    record.message_identifier = Some(v);
                }
            }
            Field::SerialNumber => {
                let v = two_octets(o, value, value_end)?;
                ends(value + 2, value_end)?;
                if counts {
                    record.serial_number = Some(v);
                }
            }
            Field::WarningCause => {
                ends(value + 1, value_end)?;
                if counts {
                    record.warning_cause = Some(o[value]);
                }
            }
            Field::Carried => {
                if counts {
                    record.carried[row as usize] = Some(&o[value..value_end]);
                }
            }
        }
    }
    let beside = if opening == 0 {
        ends(at, end)?;
        0
    } else {
        extensions(o, at, &mut unknown, place.is_none())?
    };

    let missing = if place.is_some() { 0 } else { table.needed & !seen };
    let rejected = if place.is_some() {
        Some(Rejection { cause: FALSELY_CONSTRUCTED, place })
    } else if unknown.reject || missing != 0 {
        Some(Rejection { cause: SYNTAX_REJECT, place: None })
    } else {
        None
    };
    let left = (unknown.listed + missing.count_ones() as u16).min(MOST as u16);
    let noted = Noted { table, octets: &o[first..], beside: beside as u16, unknown: unknown.listed, missing, left };
    Ok(Reading { frame, record, noted, rejected })
}

impl Profile {
    /// Reads one message.
    #[inline]
    pub fn read<'a>(&self, o: &'a [u8]) -> Read<'a> {
        if o.len() > LIMIT {
            return Read::TooLong;
        }
        let frame = match frame(o) {
            Ok(frame) => frame,
            Err(fault) => return Read::Faulty(fault),
        };
        let Some(table) = self.table(frame.choice, frame.procedure) else {
            return Read::NotOurs;
        };
        match inside(o, frame.start, table, frame.criticality) {
            Ok(reading) => Read::Message(reading),
            Err(fault) => Read::Faulty(fault),
        }
    }
}

/// Reads one message of M3AP.
pub fn read(o: &[u8]) -> Read<'_> {
    M3AP.read(o)
}

// ---------------------------------------------------------------- writing

#[derive(Clone, Copy, PartialEq, Eq, Debug)]
pub enum Refused {
    /// 10
    Room,
    /// 11
    Record,
    /// 12
    Name,
}

impl Refused {
    pub fn answer(self) -> u8 {
        match self {
            Refused::Room => 10,
            Refused::Record => 11,
            Refused::Name => 12,
        }
    }
}

fn size_of_length(n: usize) -> usize {
    if n < 0x80 {
        1
    } else {
        2
    }
}

fn items_size(items: &Items) -> Result<usize, Refused> {
    let (mut n, mut size) = (0, 1);
    for item in items.iter().take(MOST + 1) {
        n += 1;
        size += 4 + item.size();
    }
    if n == 0 || n > MOST {
        return Err(Refused::Record);
    }
    Ok(size)
}

fn diagnostics_size(d: &Diagnostics, triggers: u8) -> Result<usize, Refused> {
    if d.trigger.is_some_and(|v| v >= triggers) || d.criticality.is_some_and(|v| v > 2) {
        return Err(Refused::Record);
    }
    let twos = d.trigger.is_some() as usize + d.criticality.is_some() as usize;
    let mut size = if d.code.is_some() { 2 + twos.min(1) } else { 1 + twos / 2 };
    if let Some(entries) = &d.entries {
        let n = entries.len();
        if n == 0 || n > MOST || entries.iter().any(|e| e.criticality > 2 || e.error > 1) {
            return Err(Refused::Record);
        }
        size += 2 + 3 * n;
    }
    Ok(size)
}

impl Record<'_> {
    /// Whether it is an M3 SETUP REQUEST with a name that is not allowed.
    fn misnamed(&self) -> bool {
        self.table.kind == Kind::SetupRequest && self.name.is_some_and(|name| !name_allowed(name))
    }

    /// Octets of the value of a row, none if it is absent.
    fn size(&self, number: usize, field: Field) -> Result<Option<usize>, Refused> {
        Ok(match field {
            Field::Mme => self.mme.map(|_| 2),
            Field::Mce => self.mce.map(|_| 2),
            Field::Tmgi => self.tmgi.map(|_| 7),
            Field::Session => self.session.map(|_| 1),
            Field::Cause => match self.cause {
                Some(c) if c.group > 4 || c.number >= CAUSES[c.group as usize] => return Err(Refused::Record),
                c => c.map(|_| 1),
            },
            Field::Reset => match &self.reset {
                Some(ResetType::Part(items)) => Some(1 + items_size(items)?),
                Some(ResetType::All) => Some(1),
                None => None,
            },
            Field::Acknowledged => match &self.acknowledged {
                Some(items) => Some(items_size(items)?),
                None => None,
            },
            Field::Diagnostics => match &self.diagnostics {
                Some(d) => Some(diagnostics_size(d, self.table.triggers)?),
                None => None,
            },
            // Judged before.
            Field::Name => self.name.map(|name| 2 + name.len()),
            Field::Wait => match self.wait {
                Some(n) if n as usize >= SECONDS.len() => return Err(Refused::Record),
                n => n.map(|_| 1),
            },
            Field::MessageIdentifier => self.message_identifier.map(|_| 2),
            Field::SerialNumber => self.serial_number.map(|_| 2),
            Field::WarningCause => self.warning_cause.map(|_| 1),
            Field::Carried => match self.carried[number] {
                Some(octets) if octets.is_empty() || octets.len() > LIMIT => return Err(Refused::Record),
                octets => octets.map(<[u8]>::len),
            },
        })
    }
}

struct Out<'r> {
    room: &'r mut [u8],
    at: usize,
}

impl Out<'_> {
    #[inline]
    fn octet(&mut self, b: u8) {
        self.room[self.at] = b;
        self.at += 1;
    }

    #[inline]
    fn number(&mut self, n: u16) {
        self.octets(&n.to_be_bytes());
    }

    #[inline]
    fn octets(&mut self, octets: &[u8]) {
        self.room[self.at..self.at + octets.len()].copy_from_slice(octets);
        self.at += octets.len();
    }

    fn length(&mut self, n: usize) {
        if n < 0x80 {
            self.octet(n as u8);
        } else {
            self.number(0x8000 | n as u16);
        }
    }

    fn items(&mut self, items: &Items, criticality: u8) {
        let counted = self.at;
        self.octet(0);
        let mut n = 0;
        for item in items.iter() {
            n += 1;
            let [high, low] = ID_ITEM.to_be_bytes();
            let c = criticality << 6;
            match (item.mme.map(u16::to_be_bytes), item.mce.map(u16::to_be_bytes)) {
                (Some([a, b]), Some([d, e])) => self.octets(&[high, low, c, 5, 0x60, a, b, d, e]),
                (Some([a, b]), None) => self.octets(&[high, low, c, 3, 0x40, a, b]),
                (None, Some([d, e])) => self.octets(&[high, low, c, 3, 0x20, d, e]),
                (None, None) => self.octets(&[high, low, c, 1, 0]),
            }
        }
        self.room[counted] = (n - 1) as u8;
    }

    fn diagnostics(&mut self, d: &Diagnostics) {
        let flags = (d.code.is_some() as u8) << 6
            | (d.trigger.is_some() as u8) << 5
            | (d.criticality.is_some() as u8) << 4
            | (d.entries.is_some() as u8) << 3;
        match (d.code, d.trigger, d.criticality) {
            (Some(code), None, None) => self.octets(&[flags, code]),
            (Some(code), Some(v), None) | (Some(code), None, Some(v)) => self.octets(&[flags, code, v << 6]),
            (Some(code), Some(t), Some(c)) => self.octets(&[flags, code, t << 6 | c << 4]),
            (None, None, None) => self.octet(flags),
            (None, Some(v), None) | (None, None, Some(v)) => self.octet(flags | v),
            (None, Some(t), Some(c)) => self.octets(&[flags | t, c << 6]),
        }
        if let Some(entries) = &d.entries {
            self.octet((entries.len() - 1) as u8);
            let (mut before, mut shift) = (0, 4);
            for entry in entries.iter() {
                self.octet(before | entry.criticality << shift);
                self.number(entry.id);
                before = entry.error << 6;
                shift = 2;
            }
            self.octet(before);
        }
    }
}

/// Writes a record to the front of the room; the number of octets written. The rest of the
/// room, and all of it when refused, keeps its octets.
pub fn write(record: &Record, room: &mut [u8]) -> Result<usize, Refused> {
    if record.misnamed() {
        return Err(Refused::Name);
    }
    let rows = record.table.rows;
    let mut sizes = [0; ROWS];
    let (mut body, mut count) = (3, 0);
    for (i, row) in rows.iter().enumerate() {
        match record.size(i, row.field)? {
            Some(size) => {
                sizes[i] = size;
                body += 3 + size_of_length(size) + size;
                count += 1;
            }
            None if row.mandatory => return Err(Refused::Record),
            None => {}
        }
    }
    let total = 3 + size_of_length(body) + body;
    if total > LIMIT {
        return Err(Refused::Record);
    }
    if total > room.len() {
        return Err(Refused::Room);
    }

    let (choice, procedure, criticality) = record.table.frame;
    let mut out = Out { room: &mut room[..total], at: 0 };
    out.octets(&[choice << 5, procedure, criticality << 6]);
    out.length(body);
    out.octet(0);
    out.number(count);
    for (i, row) in rows.iter().enumerate() {
        if sizes[i] == 0 {
            continue;
        }
        out.number(row.id);
        out.octet(row.criticality << 6);
        out.length(sizes[i]);
        match row.field {
            Field::Mme => out.number(record.mme.unwrap_or(0)),
            Field::Mce => out.number(record.mce.unwrap_or(0)),
            Field::Tmgi => {
                if let Some(tmgi) = &record.tmgi {
                    out.octet(0);
                    out.octets(&tmgi.plmn);
                    out.octets(&tmgi.service);
                }
            }
            Field::Session => out.octet(record.session.unwrap_or(0)),
            Field::Cause => {
                if let Some(c) = record.cause {
                    out.octet(c.group << 4 | if c.group == 1 { c.number << 2 } else { c.number });
                }
            }
            Field::Reset => match &record.reset {
                Some(ResetType::Part(items)) => {
                    out.octet(0x40);
                    out.items(items, REJECT);
                }
                _ => out.octet(0),
            },
            Field::Acknowledged => {
                if let Some(items) = &record.acknowledged {
                    out.items(items, IGNORE);
                }
            }
            Field::Diagnostics => {
                if let Some(d) = &record.diagnostics {
                    out.diagnostics(d);
                }
            }
            Field::Name => {
                if let Some(name) = record.name {
                    out.number((name.len() as u16 - 1) << 7);
                    out.octets(name);
                }
            }
            Field::Wait => out.octet(record.wait.unwrap_or(0) << 4),
            Field::MessageIdentifier => out.number(record.message_identifier.unwrap_or(0)),
            Field::SerialNumber => out.number(record.serial_number.unwrap_or(0)),
            Field::WarningCause => out.octet(record.warning_cause.unwrap_or(0)),
            Field::Carried => out.octets(record.carried[i].unwrap_or(&[])),
        }
    }
    debug_assert_eq!(out.at, total);
    Ok(total)
}

// ---------------------------------------------------------------- the unit call

/// Octets of the table at the front of a lent unit: the number of associations, high octet first,
/// then 256 rows of 12 octets in order of starting, zeros behind the last. A row: MME identity, MCE
/// identity (high first), PLMN, service, then 1 and the Session Identity, or 0 and 0.
pub const TABLE_OCTETS: usize = 2 + MOST * ROW_OCTETS;
pub const ROW_OCTETS: usize = 12;
/// Octets of a lent unit: the table, and behind it marks.
pub const UNIT_OCTETS: usize = TABLE_OCTETS + 14;
/// The one mark that may be set: 1 if a setup request is open, else 0.
pub const OPEN_AT: usize = 3076;

const fn row_at(row: usize) -> usize {
    2 + row * ROW_OCTETS
}

/// What a call answered: number, place (for 2 and 3, else 0), octets put at the front of the room
/// (0: none), and beside 0 of an M3 SETUP FAILURE with Time to Wait its seconds, else 0.
#[derive(Clone, Copy, PartialEq, Eq, Debug)]
pub struct Done {
    pub answer: u8,
    pub offset: usize,
    pub reply: usize,
    pub wait: u16,
}

/// Finds rows of a unit by one of their identities: open addressing, 512 places for at most
/// 256 rows, each holding the row's number plus 1.
struct Index {
    places: [u16; 512],
    identities: [u16; MOST],
}

impl Index {
    fn new() -> Self {
        Index { places: [0; 512], identities: [0; MOST] }
    }

    #[inline]
    fn slot(&self, identity: u16) -> usize {
        let mut slot = (identity.wrapping_mul(0x9e37) >> 7) as usize;
        loop {
            let row = self.places[slot & 511] as usize;
            if row == 0 || self.identities[(row - 1) & 255] == identity {
                return slot & 511;
            }
            slot += 1;
        }
    }

    fn find(&self, identity: u16) -> Option<usize> {
        (self.places[self.slot(identity)] as usize).checked_sub(1)
    }

    /// Whether the identity is new.
    fn insert(&mut self, identity: u16, row: usize) -> bool {
        let slot = self.slot(identity);
        if self.places[slot] != 0 {
            return false;
        }
        self.places[slot] = row as u16 + 1;
        self.identities[row] = identity;
        true
    }
}

struct Held {
    count: usize,
    open: bool,
    mme: Index,
    mce: Index,
}

/// The associations of a unit, or none if the octets are no unit.
fn held(unit: &[u8]) -> Option<Held> {
    if unit.len() != UNIT_OCTETS {
        return None;
    }
    let (table, marks) = unit.split_at(TABLE_OCTETS);
    for (i, &mark) in marks.iter().enumerate() {
        if mark > (i == OPEN_AT - TABLE_OCTETS) as u8 {
            return None;
        }
    }
    let open = unit[OPEN_AT] == 1;
    let count = be16(table, 0) as usize;
    if count > MOST {
        return None;
    }
    if table[row_at(count)..].iter().fold(0, |all, b| all | b) != 0 {
        return None;
    }
    let mut held = Held { count, open, mme: Index::new(), mce: Index::new() };
    for (number, row) in table[2..].chunks_exact(ROW_OCTETS).take(count).enumerate() {
        if row[10] > 1 || (row[10] == 0 && row[11] != 0) {
            return None;
        }
        if !held.mme.insert(be16(row, 0), number) || !held.mce.insert(be16(row, 2), number) {
            return None;
        }
    }
    Some(held)
}

impl Held {
    /// The row an item names.
    fn named(&self, item: Item) -> Option<usize> {
        match (item.mme, item.mce) {
            (Some(mme), None) => self.mme.find(mme),
            (None, Some(mce)) => self.mce.find(mce),
            (Some(mme), Some(mce)) => self.mme.find(mme).filter(|&row| self.mce.identities[row] == mce),
            (None, None) => None,
        }
    }
}

fn set_count(unit: &mut [u8], count: usize) {
    unit[..2].copy_from_slice(&(count as u16).to_be_bytes());
}

/// Removes the rows marked in `gone`; the others keep their order.
fn remove(unit: &mut [u8], count: usize, gone: &[bool; MOST]) {
    let mut kept = 0;
    for (row, &gone) in gone.iter().enumerate().take(count) {
        if gone {
            continue;
        }
        if kept != row {
            unit.copy_within(row_at(row)..row_at(row + 1), row_at(kept));
        }
        kept += 1;
    }
    unit[row_at(kept)..row_at(count)].fill(0);
    set_count(unit, kept);
}

fn bare(answer: u8) -> Done {
    Done { answer, offset: 0, reply: 0, wait: 0 }
}

fn faulty(fault: Fault) -> Done {
    match fault {
        Encoding(offset) => Done { offset, ..bare(2) },
        Extension(offset) => Done { offset, ..bare(3) },
    }
}

/// Writes a reply, with diagnostics if something is listed or it is answer 5's ERROR INDICATION;
/// in an ERROR INDICATION they tell what was received in the frame.
fn finish<'a>(answer: u8, mut reply: Record<'a>, frame: &Frame, listed: Option<Entries<'a>>, room: &mut [u8]) -> Done {
    let indication = reply.table.kind == Kind::ErrorIndication;
    if listed.is_some() || (indication && answer == 5) {
        reply.diagnostics = Some(Diagnostics {
            code: indication.then_some(frame.procedure),
            trigger: indication.then_some(frame.choice),
            criticality: indication.then_some(frame.criticality),
            entries: listed,
        });
    }
    match write(&reply, room) {
        Ok(reply) => Done { reply, ..bare(answer) },
        Err(refused) => bare(refused.answer()),
    }
}

/// Takes one message on a lent unit: the new unit stands in the old one's place (unchanged
/// unless the answer is 0), the reply at the front of the room.
pub fn call(unit: &mut [u8], message: &[u8], offered: u16, room: &mut [u8]) -> Done {
    let Some(held) = held(unit) else {
        return bare(21);
    };
    if message.len() > LIMIT {
        return bare(1);
    }
    let frame = match frame(message) {
        Ok(frame) => frame,
        Err(fault) => return faulty(fault),
    };
    let Some(table) = M3AP.table(frame.choice, frame.procedure) else {
        return bare(4);
    };
    let kind = table.kind;
    match kind {
        Kind::SetupRequest => return bare(4),
        Kind::SetupResponse | Kind::SetupFailure if held.open => {}
        Kind::SetupResponse | Kind::SetupFailure => return bare(14),
        _ if frame.choice == 0 => {}
        _ => return bare(4),
    }
    let Reading { record, noted, rejected, .. } = match inside(message, frame.start, table, frame.criticality) {
        Ok(reading) => reading,
        Err(fault) => return faulty(fault),
    };
    if kind == Kind::ErrorIndication {
        return bare(if rejected.is_some() { 5 } else { 0 });
    }

    let listed = (!noted.is_empty()).then_some(Entries::Noted(noted));
    let finish = |answer, reply, room| finish(answer, reply, &frame, listed, room);

    if let Some(Rejection { cause, .. }) = rejected {
        let mut reply = Record::new(match (kind, record.mme) {
            (Kind::StartRequest, Some(_)) => Kind::StartFailure,
            _ => Kind::ErrorIndication,
        });
        reply.mme = record.mme;
        reply.mce = record.mce;
        reply.cause = Some(cause);
        return finish(5, reply, room);
    }

    match kind {
        // Neither has a reply.
        Kind::SetupResponse => {
            unit[..row_at(held.count)].fill(0);
            unit[OPEN_AT] = 0;
            bare(0)
        }
        Kind::SetupFailure => {
            unit[OPEN_AT] = 0;
            Done { wait: record.wait.map_or(0, |n| SECONDS[n as usize]), ..bare(0) }
        }
        Kind::StartRequest => {
            // Read with no element rejected: its mandatory ones are there.
            let (Some(mme), Some(tmgi)) = (record.mme, record.tmgi) else {
                return bare(5);
            };
            let refused = if held.mme.find(mme).is_some() {
                Some((6, MME_ID_TAKEN))
            } else if held.mce.find(offered).is_some() {
                return bare(7);
            } else if held.count == MOST {
                Some((9, NO_RADIO_RESOURCES))
            } else {
                None
            };
            if let Some((answer, cause)) = refused {
                let mut reply = Record::new(Kind::StartFailure);
                reply.mme = Some(mme);
                reply.cause = Some(cause);
                return finish(answer, reply, room);
            }
            let mut reply = Record::new(Kind::StartResponse);
            reply.mme = Some(mme);
            reply.mce = Some(offered);
            let done = finish(0, reply, room);
            if done.answer == 0 {
                let at = row_at(held.count);
                let row = &mut unit[at..at + ROW_OCTETS];
                row[0..2].copy_from_slice(&mme.to_be_bytes());
                row[2..4].copy_from_slice(&offered.to_be_bytes());
                row[4..7].copy_from_slice(&tmgi.plmn);
                row[7..10].copy_from_slice(&tmgi.service);
                row[10] = record.session.is_some() as u8;
                row[11] = record.session.unwrap_or(0);
                set_count(unit, held.count + 1);
            }
            done
        }
        Kind::StopRequest => {
            let pair = Item { mme: record.mme, mce: record.mce };
            let found = held.named(pair);
            let mut reply = Record::new(if found.is_some() { Kind::StopResponse } else { Kind::ErrorIndication });
            reply.mme = pair.mme;
            reply.mce = pair.mce;
            let Some(row) = found else {
                reply.cause = Some(PAIR_UNKNOWN);
                return finish(8, reply, room);
            };
            let done = finish(0, reply, room);
            if done.answer == 0 {
                unit.copy_within(row_at(row + 1)..row_at(held.count), row_at(row));
                unit[row_at(held.count - 1)..row_at(held.count)].fill(0);
                set_count(unit, held.count - 1);
            }
            done
        }
        _ => {
            let mut reply = Record::new(Kind::ResetAcknowledge);
            let part = match record.reset {
                Some(ResetType::Part(items)) => Some(items),
                _ => None,
            };
            if let Some(Items::Read(octets)) = part {
                let naming = Items::Naming(octets);
                reply.acknowledged = naming.iter().next().map(|_| naming);
            }
            let done = finish(0, reply, room);
            if done.answer != 0 {
                return done;
            }
            match part {
                None => unit[..row_at(held.count)].fill(0),
                Some(items) => {
                    let mut gone = [false; MOST];
                    let mut any = false;
                    for item in items.iter() {
                        if let Some(row) = held.named(item) {
                            gone[row] = true;
                            any = true;
                        }
                    }
                    if any {
                        remove(unit, held.count, &gone);
                    }
                }
            }
            done
        }
    }
}

// ---------------------------------------------------------------- setup, and the name that is shown

/// Writes the M3 SETUP REQUEST of a record for C, whose values lie in `values`, to the front of the
/// room, and opens it. Only answer 0 changes the unit or the room.
pub fn setup(unit: &mut [u8], record: &[u8], values: &[u8], room: &mut [u8]) -> Done {
    let Some(held) = held(unit) else {
        return bare(21);
    };
    let taken = layout::taken(record, values);
    if taken.as_ref().is_some_and(|taken| taken.record.misnamed()) {
        return bare(12);
    }
    if held.open {
        return bare(13);
    }
    let written = match taken.filter(|taken| taken.record.table.kind == Kind::SetupRequest) {
        Some(taken) => taken.write(room),
        None => Err(Refused::Record),
    };
    match written {
        Ok(reply) => {
            unit[OPEN_AT] = 1;
            Done { reply, ..bare(0) }
        }
        Err(refused) => bare(refused.answer()),
    }
}

/// A part of the request or of the label.
#[derive(Clone, Copy, PartialEq, Eq, Debug)]
pub struct Part {
    pub of_label: bool,
    pub from: usize,
    pub octets: usize,
}

/// Where a part of octets begins in them.
fn place_in(part: &[u8], octets: &[u8]) -> usize {
    part.as_ptr() as usize - octets.as_ptr() as usize
}

/// The name to show: that of the request, if it is read with 0 as an M3 SETUP REQUEST that has one,
/// else the first 150 octets at most of the label.
pub fn shown(request: &[u8], label: &[u8]) -> Part {
    match read(request) {
        // No other message has a name.
        Read::Message(Reading { record: Record { name: Some(name), .. }, rejected: None, .. }) => {
            Part { of_label: false, from: place_in(name, request), octets: name.len() }
        }
        _ => Part { of_label: true, from: 0, octets: label.len().min(NAME_MOST) },
    }
}

// ---------------------------------------------------------------- what a unit holds

#[derive(Clone, Copy, PartialEq, Eq, Debug)]
pub struct Association {
    pub mme: u16,
    pub mce: u16,
    pub tmgi: Tmgi,
    pub session: Option<u8>,
}

/// The rows that are held, of octets that are a unit.
fn rows(unit: &[u8], count: usize) -> impl Iterator<Item = Association> + '_ {
    unit[2..].chunks_exact(ROW_OCTETS).take(count).map(|row| Association {
        mme: be16(row, 0),
        mce: be16(row, 2),
        tmgi: Tmgi { plmn: [row[4], row[5], row[6]], service: [row[7], row[8], row[9]] },
        session: (row[10] == 1).then_some(row[11]),
    })
}

/// How many associations a unit holds, and the k-th of them, from 0, if there is one. None: no unit.
pub fn row_in(unit: &[u8], k: u32) -> Option<(usize, Option<Association>)> {
    let count = held(unit)?.count;
    let association = rows(unit, count).nth(k as usize);
    Some((count, association))
}

/// How many associations of a unit have the TMGI. None: no unit.
pub fn count_in(unit: &[u8], tmgi: Tmgi) -> Option<usize> {
    let count = held(unit)?.count;
    Some(rows(unit, count).filter(|row| row.tmgi == tmgi).count())
}

/// All that a unit remembers beside its rows.
#[derive(Clone, Copy, PartialEq, Eq, Debug)]
pub struct Marks {
    /// Associations of each link.
    pub held: [usize; 2],
    /// Whether a setup request is open on each link.
    pub open: [bool; 2],
    pub edition: u32,
    pub rooms: u32,
    pub next: u16,
    pub settings: u16,
}

/// The marks of a unit: but for how many are held and whether a request is open, those of a fresh one.
/// None: no unit.
pub fn marks(unit: &[u8]) -> Option<Marks> {
    let Held { count, open, .. } = held(unit)?;
    Some(Marks { held: [count, 0], open: [open, false], edition: 18, rooms: MOST as u32, next: 0, settings: 0 })
}

// ---------------------------------------------------------------- the capture program

/// Plays a capture and appends what the capture program writes.
pub fn capture(input: &[u8], out: &mut String) {
    use std::fmt::Write;
    let mut unit = vec![0; UNIT_OCTETS];
    let mut room = vec![0; LIMIT];
    let mut rest = input;
    let mut messages = 0;
    let mut cut = 0;
    while !rest.is_empty() {
        if rest.len() < 4 || rest.len() - 4 < be16(rest, 2) as usize {
            cut = 1;
            break;
        }
        let offered = be16(rest, 0);
        let (message, behind) = rest[4..].split_at(be16(rest, 2) as usize);
        rest = behind;
        messages += 1;
        let done = call(&mut unit, message, offered, &mut room);
        let (answer, reply, held) = (done.answer, done.reply, be16(&unit, 0));
        let _ = writeln!(out, "message={messages}\nanswer={answer}\nreply={reply}\nheld={held}");
    }
    let _ = writeln!(out, "messages={messages}\ncut={cut}");
}
