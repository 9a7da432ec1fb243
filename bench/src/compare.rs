//! Both programs on the same seeded cases, octet for octet.
use crate::ours::{self, Answer, Association, Counted, Marks, Part, Row, Tmgi};
use second::layout::{read_record, write_record, RECORD_OCTETS};
use second::make::{Calls, Reads, Records, Rng, Step};
use second::text::hex;
use second::{Done, Kind as Message, Profile, LIMIT, MOST, OPEN_AT, ROW_OCTETS, TABLE_OCTETS, UNIT_OCTETS};
use std::collections::BTreeMap;
use std::fmt::Debug;

/// What lent octets hold before a call, so that it is seen which of them were written.
const FILL: u8 = 0xA5;
/// How many octets behind what is lent are looked at.
const BEHIND: usize = 16;
/// A room in which any message leaves octets.
const LARGE: usize = LIMIT + 100;

/// `M3AP_VERSION` of the header that `ours` is written from.
const VERSION: u32 = 3;

// Where things stand in a record (`struct m3ap_record`, `struct sbcap_record`): slots, the number of items and they, the number of entries and they.
const SLOTS: usize = 2;
const SLOT: usize = 8;
const ITEM_COUNT: usize = SLOTS + 12 * SLOT;
const ITEMS: usize = ITEM_COUNT + 2;
const ITEM: usize = 6;
const ENTRY_COUNT: usize = ITEMS + MOST * ITEM;
const ENTRIES: usize = ENTRY_COUNT + 2;
const ENTRY: usize = 4;
/// The slot of an M3 SETUP REQUEST's name.
const NAME: usize = SLOTS + SLOT;

/// How many cases of a kind were equal, and with which answers.
struct Kind {
    name: String,
    answers: BTreeMap<u32, usize>,
}

impl Kind {
    fn new(name: impl Into<String>) -> Self {
        Kind { name: name.into(), answers: BTreeMap::new() }
    }

    fn cases(&self) -> usize {
        self.answers.values().sum()
    }

    /// One case: answers and octets of both, ours first.
    fn case(&mut self, ours: (Answer, &[&[u8]]), second: (Answer, &[&[u8]]), inputs: &[(&str, &[u8])]) -> Result<(), String> {
        if ours == second {
            *self.answers.entry(ours.0.answer).or_default() += 1;
            return Ok(());
        }
        let mut text = format!("{}: case {} differs\nours   {:?}\nsecond {:?}", self.name, self.cases() + 1, ours.0, second.0);
        for (a, b) in ours.1.iter().zip(second.1) {
            if let Some(at) = (0..a.len().max(b.len())).find(|&at| a.get(at) != b.get(at)) {
                text += &format!("\nfirst octet that differs: {at}\nours   {}\nsecond {}", hex(a), hex(b));
            }
        }
        for (name, octets) in inputs {
            text += &format!("\n{name} ({} octets): {}", octets.len(), hex(octets));
        }
        Err(text)
    }

    /// One case of what is said of octets, a unit or a request, which is asked for by `of`.
    fn said<T: PartialEq + Debug>(&mut self, answer: u32, ours: T, second: T, octets: &[u8], of: &dyn Debug) -> Result<(), String> {
        if ours == second {
            *self.answers.entry(answer).or_default() += 1;
            return Ok(());
        }
        let at = self.cases() + 1;
        Err(format!("{}: case {at} differs\nours   {ours:?}\nsecond {second:?}\nof {of:?}\nin {} octets: {}", self.name, octets.len(), hex(octets)))
    }

    fn print(&self) {
        let by_answer: Vec<String> = self.answers.iter().map(|(answer, n)| format!("{answer}: {n}")).collect();
        println!("{}: {}, equal (answer {})", self.name, self.cases(), by_answer.join(", "));
    }
}

// ---- the second program, by the header

fn answered(done: Done) -> Answer {
    Answer { answer: done.answer.into(), place: done.offset as u32, octets: done.reply as u32, bit: 0, wait: done.wait }
}

pub fn read_by_second(message: &[u8], record: &mut [u8]) -> Answer {
    answered(read_record(message, record))
}

pub fn write_by_second(record: &[u8], values: &[u8], room: &mut [u8]) -> Answer {
    answered(write_record(record, values, room))
}

/// A reader and a writer, ours and the second program's, and the profile that they go by.
pub struct By {
    pub profile: &'static Profile,
    pub read: [Read; 2],
    pub write: [Write; 2],
}

type Read = fn(&[u8], &mut [u8]) -> Answer;
type Write = fn(&[u8], &[u8], &mut [u8]) -> Answer;

pub static M3AP: By = By { profile: &second::M3AP, read: [ours::read, read_by_second], write: [ours::write, write_by_second] };

pub static SBCAP: By = By {
    profile: &second::SBCAP,
    read: [ours::read_warning, |message, record| answered(second::SBCAP.read_record(message, record))],
    write: [ours::write_warning, |record, values, room| answered(second::SBCAP.write_record(record, values, room))],
};

pub static SBCAP_LAB: By = By {
    profile: &second::SBCAP_LAB,
    read: [ours::read_warning_lab, |message, record| answered(second::SBCAP_LAB.read_record(message, record))],
    write: [ours::write_warning_lab, |record, values, room| answered(second::SBCAP_LAB.write_record(record, values, room))],
};

pub fn call_by_second(unit: &mut [u8], message: &[u8], offered: u16, room: &mut [u8]) -> Answer {
    answered(second::call(unit, message, offered, room))
}

pub fn setup_by_second(unit: &mut [u8], record: &[u8], values: &[u8], room: &mut [u8]) -> Answer {
    answered(second::setup(unit, record, values, room))
}

pub fn shown_by_second(request: &[u8], label: &[u8]) -> Part {
    let part = second::shown(request, label);
    Part { of_label: part.of_label.into(), from: part.from as u32, octets: part.octets as u32 }
}

pub fn row_by_second(unit: &[u8], k: u32) -> Row {
    let Some((held, row)) = second::row_in(unit, k) else {
        return Row { answer: 21, ..Row::default() };
    };
    let association = row.map_or(Association::default(), |a| Association {
        mme: a.mme,
        mce: a.mce,
        tmgi: Tmgi { plmn: a.tmgi.plmn, service: a.tmgi.service },
        has_session: a.session.is_some().into(),
        session: a.session.unwrap_or(0),
        link: 0,
    });
    Row { answer: 0, held: held as u32, association }
}

pub fn count_by_second(unit: &[u8], tmgi: Tmgi) -> Counted {
    match second::count_in(unit, second::Tmgi { plmn: tmgi.plmn, service: tmgi.service }) {
        Some(count) => Counted { answer: 0, count },
        None => Counted { answer: 21, count: 0 },
    }
}

pub fn marks_by_second(unit: &[u8]) -> Marks {
    match second::marks(unit) {
        None => Marks { answer: 21, ..Marks::default() },
        Some(m) => Marks {
            answer: 0,
            held: m.held[0] as u32,
            held_1: m.held[1] as u32,
            open: m.open[0].into(),
            open_1: m.open[1].into(),
            edition: m.edition,
            rooms: m.rooms,
            next: m.next.into(),
            settings: m.settings.into(),
        },
    }
}

// ---- reading and writing

/// Two rooms. A room's size is two octets in a call's case.
fn rooms() -> [Vec<u8>; 2] {
    [vec![FILL; usize::from(u16::MAX) + BEHIND], vec![FILL; usize::from(u16::MAX) + BEHIND]]
}

/// The front of both rooms as it is before a call: what is lent, and some octets behind it.
fn front(rooms: &mut [Vec<u8>; 2], lent: usize) -> (&mut [u8], &mut [u8]) {
    let [a, b] = rooms;
    let (a, b) = (&mut a[..lent + BEHIND], &mut b[..lent + BEHIND]);
    a.fill(FILL);
    b.fill(FILL);
    (a, b)
}

struct Messages {
    by: &'static By,
    rng: Rng,
    reads: Kind,
    small: Kind,
    /// By room: large, exact, an octet short.
    writes: [Kind; 3],
    damaged: Kind,
    rooms: [Vec<u8>; 2],
}

impl Messages {
    fn new(by: &'static By, of: &str, seed: u64) -> Self {
        let kind = |name: &str| Kind::new(format!("{of}{name}"));
        Messages {
            by,
            rng: Rng::new(!seed),
            reads: kind("reads"),
            small: kind("reads, room too small"),
            writes: ["writes, large room", "writes, exact room", "writes, room an octet short"].map(kind),
            damaged: kind("writes of damaged records"),
            rooms: rooms(),
        }
    }

    fn message(&mut self, message: &[u8]) -> Result<(), String> {
        let size = RECORD_OCTETS + if self.rng.percent(50) { 0 } else { self.rng.below(RECORD_OCTETS) };
        let [ours, second] = self.by.read;
        let (a, b) = front(&mut self.rooms, size);
        let got = ours(message, &mut a[..size]);
        let due = second(message, &mut b[..size]);
        self.reads.case((got, &[a]), (due, &[b]), &[("message", message)])?;
        let record = (due.octets > 0).then(|| b[..RECORD_OCTETS].to_vec());

        // One octet short, or any number of them.
        let size = if self.rng.percent(50) { RECORD_OCTETS - 1 } else { self.rng.below(RECORD_OCTETS) };
        let (a, b) = front(&mut self.rooms, size);
        let got = ours(message, &mut a[..size]);
        let due = second(message, &mut b[..size]);
        self.small.case((got, &[a]), (due, &[b]), &[("message", message)])?;

        if let Some(record) = record {
            self.write(&record, message)?;
            self.damage(record, message)?;
        }
        Ok(())
    }

    /// How many octets the second program writes in a room that is large enough.
    fn written(&mut self, record: &[u8], values: &[u8]) -> usize {
        self.by.profile.write_record(record, values, &mut self.rooms[1]).reply
    }

    fn write(&mut self, record: &[u8], values: &[u8]) -> Result<(), String> {
        let size = self.written(record, values);
        for (kind, size) in self.writes.iter_mut().zip([LARGE, size, size.saturating_sub(1)]) {
            one_write(kind, self.by, &mut self.rooms, size, record, values)?;
        }
        Ok(())
    }

    /// Octets of a record with some of them changed, and values that are not all there: what they are, if they are a record still, or 11 or 12.
    fn damage(&mut self, mut record: Vec<u8>, message: &[u8]) -> Result<(), String> {
        let rng = &mut self.rng;
        let mut values = message.to_vec();
        if record[0] == Message::SetupRequest as u8 + 1 && rng.percent(60) {
            spoil_name(rng, &mut record, &mut values);
        } else if rng.one_in(4) {
            spoil_lists(rng, &mut record);
        } else {
            for _ in 0..rng.pick(&[1, 1, 1, 2, 3]) {
                let at = place_in_record(rng, &record);
                record[at] = changed(rng, record[at]);
            }
        }
        // Now and then fewer values, so that carried ones lie outside; and octets that are too few or too many for a record.
        if rng.one_in(8) {
            values.truncate(rng.below(message.len() + 1));
        }
        if rng.one_in(50) {
            let size = rng.pick(&[0, 1, RECORD_OCTETS - 1, RECORD_OCTETS + 1, 2 * RECORD_OCTETS]);
            record.resize(size, 0);
        }
        self.any_room(record, values)
    }

    fn any_room(&mut self, record: Vec<u8>, values: Vec<u8>) -> Result<(), String> {
        let size = self.written(&record, &values);
        let size = self.rng.pick(&[LARGE, size, size.saturating_sub(1), 0]);
        one_write(&mut self.damaged, self.by, &mut self.rooms, size, &record, &values)
    }

    fn print(&self) {
        for kind in [&self.reads, &self.small].into_iter().chain(&self.writes).chain([&self.damaged]) {
            kind.print();
        }
    }
}

fn one_write(kind: &mut Kind, by: &By, rooms: &mut [Vec<u8>; 2], room: usize, record: &[u8], values: &[u8]) -> Result<(), String> {
    let [ours, second] = by.write;
    let (a, b) = front(rooms, room);
    let got = ours(record, values, &mut a[..room]);
    let due = second(record, values, &mut b[..room]);
    kind.case((got, &[a]), (due, &[b]), &[("record", record), ("values", values)])
}

/// What is shown of a request, with a label of none, a few or about 150 octets.
fn show(kind: &mut Kind, rng: &mut Rng, request: &[u8]) -> Result<(), String> {
    let size = match rng.below(4) {
        0 => rng.pick(&[0, 149, 150, 151, 300]),
        _ => rng.below(12),
    };
    let label: Vec<u8> = (0..size).map(|_| rng.word() as u8).collect();
    let part = ours::shown(request, &label);
    kind.said(part.of_label, part, shown_by_second(request, &label), request, &label)
}

/// Another place or length of a name, or other characters where it lies: mostly one that is not allowed.
fn spoil_name(rng: &mut Rng, record: &mut [u8], values: &mut [u8]) {
    let number = |at: usize| u16::from_be_bytes([record[at], record[at + 1]]) as usize;
    let (from, size) = (number(NAME + 1), number(NAME + 3));
    if record[NAME] == 0 || rng.percent(40) {
        let from = rng.below(values.len() + 2);
        let size = rng.pick(&[0, 1, 2, size, size + 1, 150, 151, values.len(), values.len().saturating_sub(from), 65535]);
        record[NAME] = 1;
        record[NAME + 1..NAME + 3].copy_from_slice(&(from as u16).to_be_bytes());
        record[NAME + 3..NAME + 5].copy_from_slice(&(size as u16).to_be_bytes());
    } else {
        let at = from + rng.below(size);
        values[at] = if rng.percent(50) { changed(rng, values[at]) } else { rng.word() as u8 };
    }
    if rng.one_in(6) {
        let at = place_in_record(rng, record);
        record[at] = changed(rng, record[at]);
    }
}

/// Lists that the slots do not announce, or announced ones that are cut, too long or gone.
fn spoil_lists(rng: &mut Rng, octets: &mut [u8]) {
    let (count, first, row) = rng.pick(&[(ITEM_COUNT, ITEMS, ITEM), (ENTRY_COUNT, ENTRIES, ENTRY)]);
    let said = u16::from_be_bytes([octets[count], octets[count + 1]]) as usize;
    let n = rng.pick(&[0, 1, 2, 5, 255, 256, 257, 512, 65535, said, said + 1, said.saturating_sub(1)]);
    octets[count..count + 2].copy_from_slice(&(n as u16).to_be_bytes());
    for at in 0..n.min(256) {
        // Rows that a list of this kind can have; those that stand there already are left alone.
        let octets = &mut octets[first + row * at..][..row];
        if octets.iter().all(|&o| o == 0) && rng.percent(70) {
            let value = [1, rng.below(4) as u8, rng.word() as u8, (row == ITEM) as u8, 0, 0];
            octets.copy_from_slice(&value[..row]);
        }
    }
    match rng.below(6) {
        // A slot that announces, or no longer does.
        0 => octets[SLOTS + SLOT * rng.below(4)] = rng.below(3) as u8,
        // The flag of a list of diagnostics.
        1 => octets[SLOTS + SLOT * rng.below(4) + 7] ^= 1,
        _ => {}
    }
}

/// A place in a record's octets, mostly where something is said or where it ends.
fn place_in_record(rng: &mut Rng, octets: &[u8]) -> usize {
    let number = |at: usize| u16::from_be_bytes([octets[at], octets[at + 1]]) as usize;
    let (items, entries) = (number(ITEM_COUNT).min(255), number(ENTRY_COUNT).min(255));
    let there: Vec<usize> = (0..12).map(|slot| SLOTS + SLOT * slot).filter(|&at| octets[at] != 0).collect();
    match rng.below(20) {
        0 => 0,
        1 => 1,
        2..=6 if !there.is_empty() => rng.pick(&there) + rng.between(1, 4),
        7 | 8 if !there.is_empty() => rng.pick(&there) + rng.below(SLOT),
        9 => SLOTS + SLOT * rng.below(12),
        10 => rng.between(SLOTS, ITEM_COUNT - 1),
        11 => rng.between(ITEM_COUNT, ITEM_COUNT + 1),
        12..=14 => ITEMS + rng.below((items + 1) * ITEM),
        15 => rng.between(ENTRY_COUNT, ENTRY_COUNT + 1),
        16..=18 => ENTRIES + rng.below((entries + 1) * ENTRY),
        _ => rng.below(RECORD_OCTETS),
    }
}

/// Another octet: a small one, one that is near, or any.
fn changed(rng: &mut Rng, octet: u8) -> u8 {
    let other = match rng.below(4) {
        0 => rng.below(4) as u8,
        1 => octet ^ 1 << rng.below(8),
        2 => octet.wrapping_add(rng.pick(&[1, 255])),
        _ => rng.word() as u8,
    };
    if other == octet { octet ^ 1 } else { other }
}

// ---- calls, and what a unit says

struct Units {
    rng: Rng,
    calls: Kind,
    setups: Kind,
    damaged: Kind,
    damaged_setups: Kind,
    shown: Kind,
    rows: Kind,
    counts: Kind,
    marks: Kind,
    units: [Vec<u8>; 2],
    rooms: [Vec<u8>; 2],
}

impl Units {
    /// A step of a run, on a damaged unit first.
    fn step(&mut self, step: Step) -> Result<(), String> {
        let mut spoilt = spoil(&mut self.rng, &self.units[0]);
        self.look(&spoilt)?;
        let two = [&mut spoilt.clone(), &mut spoilt];
        let [a, b] = &mut self.units;
        match step {
            Step::Fresh => {
                a.fill(0);
                b.fill(0);
            }
            Step::Call { offered, room, message, .. } => {
                one_call(&mut self.damaged, two, &mut self.rooms, offered, room.into(), &message)?;
                one_call(&mut self.calls, [a, b], &mut self.rooms, offered, room.into(), &message)?;
            }
            Step::Setup { room, plate, .. } => {
                let (record, values) = plate.record();
                one_setup(&mut self.damaged_setups, two, &mut self.rooms, room.into(), &record, &values)?;
                let put = one_setup(&mut self.setups, [a, b], &mut self.rooms, room.into(), &record, &values)?;
                show(&mut self.shown, &mut self.rng, &self.rooms[0][..put])?;
            }
        }
        let unit = self.units[0].clone();
        self.look(&unit)
    }

    /// A setup by any record, on a unit that is often open, or on a damaged one.
    fn set_up(&mut self, record: &[u8], values: &[u8]) -> Result<(), String> {
        let mut unit = vec![0; UNIT_OCTETS];
        unit[OPEN_AT] = self.rng.one_in(4).into();
        if self.rng.one_in(8) {
            unit = spoil(&mut self.rng, &unit);
        }
        let size = second::setup(&mut [0; UNIT_OCTETS], record, values, &mut self.rooms[1]).reply;
        let room = self.rng.pick(&[LARGE, size, size.saturating_sub(1), 0]);
        one_setup(&mut self.damaged_setups, [&mut unit.clone(), &mut unit], &mut self.rooms, room, record, values)?;
        Ok(())
    }

    /// What both say of a unit, or of octets that are none.
    fn look(&mut self, unit: &[u8]) -> Result<(), String> {
        let k = number_of_row(&mut self.rng, unit);
        let row = ours::row(unit, k);
        self.rows.said(row.answer, row, row_by_second(unit, k), unit, &k)?;
        let tmgi = tmgi_of(&mut self.rng, unit);
        let counted = ours::count_in(unit, tmgi);
        self.counts.said(counted.answer.into(), counted, count_by_second(unit, tmgi), unit, &tmgi)?;
        let marks = ours::marks(unit);
        self.marks.said(marks.answer, marks, marks_by_second(unit), unit, &())
    }
}

/// A call by both, on units that are equal.
fn one_call(kind: &mut Kind, [x, y]: [&mut Vec<u8>; 2], rooms: &mut [Vec<u8>; 2], offered: u16, room: usize, message: &[u8]) -> Result<(), String> {
    let before = x.clone();
    let (a, b) = front(rooms, room);
    let got = ours::call(x, message, offered, &mut a[..room]);
    let due = call_by_second(y, message, offered, &mut b[..room]);
    kind.case((got, &[x, a]), (due, &[y, b]), &[("unit", &before), ("offered", &offered.to_be_bytes()), ("message", message)])
}

/// A setup by both, likewise. How many octets the request has.
fn one_setup(kind: &mut Kind, [x, y]: [&mut Vec<u8>; 2], rooms: &mut [Vec<u8>; 2], room: usize, record: &[u8], values: &[u8]) -> Result<usize, String> {
    let before = x.clone();
    let (a, b) = front(rooms, room);
    let got = ours::setup(x, record, values, &mut a[..room]);
    let due = setup_by_second(y, record, values, &mut b[..room]);
    kind.case((got, &[x, a]), (due, &[y, b]), &[("unit", &before), ("record", record), ("values", values)])?;
    Ok(due.octets as usize)
}

/// How many rows the octets say that there are, as far as they have room for them.
fn said_held(unit: &[u8]) -> usize {
    let said = unit.get(..2).map_or(0, |n| u16::from_be_bytes([n[0], n[1]]).into());
    unit.len().saturating_sub(2).min(said * ROW_OCTETS) / ROW_OCTETS
}

/// The number of a row: mostly of one that is held, or of the first that is not; or a number that is such a one if it is cut.
fn number_of_row(rng: &mut Rng, unit: &[u8]) -> u32 {
    let held = said_held(unit);
    let k = rng.below(held + 1) as u32;
    match rng.below(8) {
        0 => held as u32,
        1 => rng.pick(&[255, 256, 257, 65535, 65536, u32::MAX]),
        2 => k + (1 << rng.pick(&[8, 16, 31])),
        3 => rng.word() as u32,
        _ => k,
    }
}

/// A TMGI: mostly one that is held, or that differs from it in an octet; or zeros.
fn tmgi_of(rng: &mut Rng, unit: &[u8]) -> Tmgi {
    let held = said_held(unit);
    let mut octets = [0; 6];
    if held > 0 && !rng.one_in(8) {
        octets.copy_from_slice(&unit[2 + ROW_OCTETS * rng.below(held) + 4..][..6]);
    }
    if rng.one_in(4) {
        let at = rng.below(6);
        octets[at] = changed(rng, octets[at]);
    }
    let [a, b, c, d, e, f] = octets;
    Tmgi { plmn: [a, b, c], service: [d, e, f] }
}

/// A unit with some octets changed, an identity put in another row too, a mark set, or of another size: mostly none, and now and then another unit.
fn spoil(rng: &mut Rng, unit: &[u8]) -> Vec<u8> {
    let mut unit = unit.to_vec();
    let held = u16::from_be_bytes([unit[0], unit[1]]) as usize;
    match rng.below(16) {
        0 => {
            let size = rng.pick(&[0, 1, 2, TABLE_OCTETS - 1, TABLE_OCTETS, TABLE_OCTETS + 1, UNIT_OCTETS - ROW_OCTETS, UNIT_OCTETS - 1, UNIT_OCTETS + 1, 2 * UNIT_OCTETS]);
            unit.resize(size, 0);
        }
        1 => {
            let at = rng.below(2);
            unit[at] = changed(rng, unit[at]);
        }
        2 | 3 if held > 1 => {
            let series = 2 * rng.below(2);
            let (from, to) = (2 + ROW_OCTETS * rng.below(held) + series, 2 + ROW_OCTETS * rng.below(held) + series);
            unit.copy_within(from..from + 2, to);
        }
        4 | 5 if held > 0 => {
            // The flag of a Session Identity, or the identity.
            let at = 2 + ROW_OCTETS * rng.below(held) + rng.between(10, 11);
            unit[at] = changed(rng, unit[at]);
        }
        6..=8 if held > 0 => {
            let at = 2 + rng.below(ROW_OCTETS * held);
            unit[at] = changed(rng, unit[at]);
        }
        9 if held < 256 => {
            let at = 2 + ROW_OCTETS * held + rng.below(ROW_OCTETS);
            unit[at] = changed(rng, unit[at]);
        }
        10 | 11 => {
            let at = rng.between(TABLE_OCTETS, UNIT_OCTETS - 1);
            unit[at] = changed(rng, unit[at]);
        }
        12 | 13 => unit[OPEN_AT] = rng.pick(&[unit[OPEN_AT] ^ 1, 2, 3, 255]),
        _ => {
            let at = rng.below(UNIT_OCTETS);
            unit[at] = changed(rng, unit[at]);
        }
    }
    unit
}

/// At least `count` cases of each kind, but of setups in runs, of which there are as many as the runs of calls have: messages are made until that many
/// records were read.
pub fn compare(seed: u64, count: usize) -> Result<(), String> {
    if ours::version() != VERSION {
        return Err(format!("the archive is of version {}, not {VERSION}", ours::version()));
    }
    let mut m = Messages::new(&M3AP, "", seed);
    let mut shown = Kind::new("shown names (0) and labels (1)");
    for message in Reads::new(seed) {
        if m.writes[0].cases() >= count {
            break;
        }
        m.message(&message)?;
        show(&mut shown, &mut m.rng, &message)?;
    }
    for (record, values) in Records::new(seed).take(count) {
        m.any_room(record, values)?;
    }
    m.print();
    shown.print();
    for (by, of) in [(&SBCAP, "SBc-AP: "), (&SBCAP_LAB, "SBc-AP, lab: ")] {
        let mut m = Messages::new(by, of, seed);
        for message in Reads::warnings(seed) {
            if m.writes[0].cases() >= count {
                break;
            }
            m.message(&message)?;
        }
        // Records as either profile reads them: the lab profile has no rows for some of the other's.
        for reader in [&second::SBCAP, &second::SBCAP_LAB] {
            for (record, values) in Records::warnings(seed, reader).take(count) {
                m.any_room(record, values)?;
            }
        }
        m.print();
    }
    let mut u = Units {
        rng: Rng::new(!seed),
        calls: Kind::new("calls"),
        setups: Kind::new("setups among them"),
        damaged: Kind::new("calls on damaged units"),
        damaged_setups: Kind::new("setups on damaged units or by damaged records"),
        shown: Kind::new("shown names (0) and labels (1) of what setups wrote"),
        rows: Kind::new("rows of units, good and damaged"),
        counts: Kind::new("counts by TMGI, likewise"),
        marks: Kind::new("marks, likewise"),
        units: [vec![0; UNIT_OCTETS], vec![0; UNIT_OCTETS]],
        rooms: rooms(),
    };
    for step in Calls::new(seed) {
        if u.calls.cases() >= count {
            break;
        }
        u.step(step)?;
    }
    // Of records of other messages, which are 11, only some.
    let request = |record: &[u8]| record[0] == Message::SetupRequest as u8 + 1;
    let mut others = Rng::new(seed);
    for (record, values) in Records::new(!seed).filter(|(record, _)| request(record) || others.one_in(50)).take(count) {
        u.set_up(&record, &values)?;
    }
    for kind in [&u.calls, &u.setups, &u.damaged, &u.damaged_setups, &u.shown, &u.rows, &u.counts, &u.marks] {
        kind.print();
    }
    Ok(())
}
