//! Seeded cases: messages, mostly damaged, of M3AP and of SBc-AP, runs of unit calls and setup calls, and records for C.
//! The messages are put together bit by bit here, without the writer.

use crate::layout::RECORD_OCTETS;
use crate::text::{call_verdict, hex, read_verdict, read_verdict_by, setup_verdict, Plate};
use crate::{call, setup, Field, Item, Kind, Profile, Table, CAUSES, ID_ITEM, LIMIT, M3AP, OPEN_AT, ROW_OCTETS};
use crate::{SBCAP, SBCAP_LAB, UNIT_OCTETS};
use std::collections::VecDeque;
use std::io::{self, Write};

/// splitmix64
pub struct Rng(u64);

impl Rng {
    pub fn new(seed: u64) -> Self {
        Rng(seed)
    }

    pub fn word(&mut self) -> u64 {
        self.0 = self.0.wrapping_add(0x9e37_79b9_7f4a_7c15);
        let z = (self.0 ^ (self.0 >> 30)).wrapping_mul(0xbf58_476d_1ce4_e5b9);
        let z = (z ^ (z >> 27)).wrapping_mul(0x94d0_49bb_1331_11eb);
        z ^ (z >> 31)
    }

    /// 0 to n - 1.
    pub fn below(&mut self, n: usize) -> usize {
        (((self.word() >> 32) * n as u64) >> 32) as usize
    }

    pub fn between(&mut self, low: usize, high: usize) -> usize {
        low + self.below(high - low + 1)
    }

    pub fn percent(&mut self, p: usize) -> bool {
        self.below(100) < p
    }

    pub fn one_in(&mut self, n: usize) -> bool {
        n != 0 && self.below(n) == 0
    }

    pub fn pick<T: Copy>(&mut self, from: &[T]) -> T {
        from[self.below(from.len())]
    }

    /// A message of a profile.
    fn table(&mut self, profile: &Profile) -> &'static Table {
        &profile.tables[self.below(profile.tables.len())]
    }

    fn octets(&mut self, n: usize) -> Vec<u8> {
        (0..n).map(|_| self.word() as u8).collect()
    }

    /// An MCE Name: mostly of a few characters, now and then of 1 or of about 150.
    fn name(&mut self) -> Vec<u8> {
        const CHARACTERS: &[u8; 74] = b"ABCDEFGHIJKLMNOPQRSTUVWXYZabcdefghijklmnopqrstuvwxyz0123456789 '()+,-./:=?";
        let n = match self.below(16) {
            0 | 1 => 1,
            2 => 150,
            3 => self.between(124, 150),
            4 => self.between(20, 123),
            _ => self.between(2, 12),
        };
        (0..n).map(|_| self.pick(CHARACTERS)).collect()
    }

    /// A character that a PrintableString has not: often a neighbour of one that it has.
    fn bad_character(&mut self) -> u8 {
        const BAD: &[u8; 24] = b"\x00\x1f!\"#$%&*;<>@[\\]^_`{|~\x7f\x80";
        if self.percent(80) {
            self.pick(BAD)
        } else {
            0x80 | self.word() as u8
        }
    }

    fn shuffle<T>(&mut self, list: &mut [T]) {
        for i in (1..list.len()).rev() {
            list.swap(i, self.below(i + 1));
        }
    }
}

/// Where identities come from: a small or the full range, and what the unit holds.
struct Pool {
    span: Span,
    held: Vec<(u16, u16)>,
}

#[derive(Clone, Copy)]
enum Span {
    Small,
    Edge,
    Full,
}

const SPANS: [Span; 3] = [Span::Small, Span::Edge, Span::Full];

impl Pool {
    fn new(span: Span) -> Self {
        Pool { span, held: Vec::new() }
    }

    fn identity(&self, rng: &mut Rng) -> u16 {
        const EDGES: [u16; 14] =
            [0, 1, 2, 0x7f, 0x80, 0xff, 0x100, 0x1ff, 0x200, 0x7fff, 0x8000, 0xff00, 0xfffe, 0xffff];
        match self.span {
            Span::Small => rng.below(10) as u16,
            Span::Edge => rng.pick(&EDGES),
            Span::Full => rng.word() as u16,
        }
    }

    /// Often both of one association, sometimes of two.
    fn pair(&self, rng: &mut Rng) -> (u16, u16) {
        if self.held.is_empty() || rng.percent(25) {
            return (self.identity(rng), self.identity(rng));
        }
        let (mme, mce) = rng.pick(&self.held);
        match rng.below(10) {
            0 => (mme, rng.pick(&self.held).1),
            1 => (mce, mme),
            2 => (mme, self.identity(rng)),
            3 => (self.identity(rng), mce),
            _ => (mme, mce),
        }
    }

    fn item(&self, rng: &mut Rng) -> Item {
        let (mme, mce) = self.pair(rng);
        let which = rng.below(9);
        Item { mme: (which < 6).then_some(mme), mce: (which < 3 || (6..8).contains(&which)).then_some(mce) }
    }

    fn items(&self, rng: &mut Rng) -> Vec<Item> {
        let n = match rng.below(40) {
            0 => 256,
            1 => rng.between(200, 255),
            2..=4 => rng.between(20, 60),
            _ => rng.between(1, 6),
        };
        (0..n).map(|_| self.item(rng)).collect()
    }
}

#[derive(Default)]
struct Bits {
    octets: Vec<u8>,
    /// Bits used of the last octet, 0 if all.
    used: usize,
}

impl Bits {
    fn put(&mut self, value: u64, width: usize) {
        for i in (0..width).rev() {
            if self.used == 0 {
                self.octets.push(0);
            }
            let last = self.octets.len() - 1;
            self.octets[last] |= ((value >> i & 1) as u8) << (7 - self.used);
            self.used = (self.used + 1) % 8;
        }
    }
}

/// How a message departs from a plain one; percentages, and one field in `wild` damaged (0: none).
#[derive(Clone, Copy)]
struct Style {
    wild: usize,
    missing: usize,
    unknown: usize,
    order: usize,
    /// Unknown elements may be of reject.
    reject: bool,
}

const PLAIN: Style = Style { wild: 0, missing: 0, unknown: 0, order: 0, reject: false };

/// Values a message must have; else they are drawn.
#[derive(Default)]
struct Want {
    mme: Option<u16>,
    mce: Option<u16>,
    items: Option<Vec<Item>>,
    all: bool,
}

struct Element {
    id: u16,
    criticality: u8,
    value: Vec<u8>,
}

struct Maker<'a> {
    rng: &'a mut Rng,
    pool: &'a Pool,
    style: Style,
}

impl Maker<'_> {
    fn wild(&mut self) -> bool {
        self.rng.one_in(self.style.wild)
    }

    fn field(&mut self, bits: &mut Bits, value: u64, width: usize) {
        let value = if self.wild() { self.rng.word() & ((1 << width) - 1) } else { value };
        bits.put(value, width);
    }

    fn pad(&mut self, bits: &mut Bits) {
        let width = (8 - bits.used) % 8;
        if width > 0 {
            let value = if self.wild() { 1 << self.rng.below(width) } else { 0 };
            bits.put(value, width);
        }
    }

    /// A length and the value.
    fn open(&mut self, bits: &mut Bits, value: &[u8]) {
        let n = value.len();
        if self.wild() {
            let said = match self.rng.below(4) {
                0 => n.saturating_sub(1),
                1 => n + 1,
                2 => 0,
                _ => self.rng.below(300),
            };
            match self.rng.below(4) {
                0 => bits.put(0xc000 | said as u64, 16),
                1 => bits.put(0x8000 | n as u64, 16),
                _ if said < 128 => bits.put(said as u64, 8),
                _ => bits.put(0x8000 | said as u64, 16),
            }
        } else if n < 128 {
            bits.put(n as u64, 8);
        } else {
            bits.put(0x8000 | n as u64, 16);
        }
        bits.octets.extend_from_slice(value);
    }

    fn envelope(&mut self, bits: &mut Bits, id: u16, criticality: u8, value: &[u8]) {
        self.field(bits, id as u64, 16);
        self.field(bits, criticality as u64, 2);
        self.pad(bits);
        self.open(bits, value);
    }

    /// Ends a value: pad, and now and then too little or too much of it.
    fn end(&mut self, mut bits: Bits) -> Vec<u8> {
        self.pad(&mut bits);
        let mut value = bits.octets;
        if self.wild() {
            match self.rng.below(4) {
                0 => value.push(0),
                1 => value.push(self.rng.word() as u8),
                2 => {
                    value.pop();
                }
                _ => value.truncate(self.rng.below(value.len() + 1)),
            }
        }
        value
    }

    fn item(&mut self, item: Item) -> Vec<u8> {
        let mut bits = Bits::default();
        self.field(&mut bits, 0, 1);
        self.field(&mut bits, item.mme.is_some() as u64, 1);
        self.field(&mut bits, item.mce.is_some() as u64, 1);
        self.field(&mut bits, 0, 1);
        self.pad(&mut bits);
        for identity in [item.mme, item.mce].into_iter().flatten() {
            self.field(&mut bits, identity as u64, 16);
        }
        self.end(bits)
    }

    fn items(&mut self, bits: &mut Bits, items: &[Item], criticality: u8) {
        let n = items.len() - 1;
        let n = if self.wild() { self.rng.pick(&[n + 1, n.saturating_sub(1), 255]) } else { n };
        self.field(bits, n as u64 & 255, 8);
        for &item in items {
            let value = self.item(item);
            let criticality = if self.rng.percent(10) { self.rng.below(3) as u8 } else { criticality };
            self.envelope(bits, ID_ITEM, criticality, &value);
        }
    }

    fn diagnostics(&mut self, table: &Table) -> Vec<u8> {
        let mut bits = Bits::default();
        let has: [bool; 4] = std::array::from_fn(|_| self.rng.percent(50));
        self.field(&mut bits, 0, 1);
        for there in has {
            self.field(&mut bits, there as u64, 1);
        }
        self.field(&mut bits, 0, 1);
        if has[0] {
            self.pad(&mut bits);
            let code = self.rng.pick(&[0, 1, 2, 4, 7, 255]);
            self.field(&mut bits, code, 8);
        }
        for (there, limit) in [(has[1], table.triggers), (has[2], 3)] {
            if there {
                let value = self.rng.below(limit as usize) as u64;
                self.field(&mut bits, value, 2);
            }
        }
        if has[3] {
            self.pad(&mut bits);
            let n = if self.rng.one_in(25) { 256 } else { self.rng.between(1, 5) };
            let said = if self.wild() { n } else { n - 1 };
            self.field(&mut bits, said as u64 & 255, 8);
            for _ in 0..n {
                self.field(&mut bits, 0, 1);
                self.field(&mut bits, 0, 1);
                let criticality = self.rng.below(3) as u64;
                self.field(&mut bits, criticality, 2);
                self.pad(&mut bits);
                let id = if self.rng.percent(70) { self.rng.below(30) as u64 } else { self.rng.word() & 0xffff };
                self.field(&mut bits, id, 16);
                self.field(&mut bits, 0, 1);
                let error = self.rng.below(2) as u64;
                self.field(&mut bits, error, 1);
            }
        }
        self.end(bits)
    }

    fn value(&mut self, table: &Table, field: Field, want: &Want) -> Vec<u8> {
        let mut bits = Bits::default();
        match field {
            Field::Mme => {
                let (mme, _) = self.pool.pair(self.rng);
                self.field(&mut bits, want.mme.unwrap_or(mme) as u64, 16);
            }
            Field::Mce => {
                let (_, mce) = self.pool.pair(self.rng);
                self.field(&mut bits, want.mce.unwrap_or(mce) as u64, 16);
            }
            Field::Tmgi => {
                self.field(&mut bits, 0, 1);
                self.pad(&mut bits);
                let plmn = self.rng.pick(&[0, 0x010203, 0x00f110, 0xffffff]);
                self.field(&mut bits, plmn, 24);
                let service = self.rng.word() & 0xffffff;
                self.field(&mut bits, service, 24);
            }
            Field::Session => {
                let session = self.rng.word() & 255;
                self.field(&mut bits, session, 8);
            }
            Field::Cause => {
                let group = self.rng.below(5);
                let number = self.rng.below(CAUSES[group] as usize) as u64;
                self.field(&mut bits, 0, 1);
                self.field(&mut bits, group as u64, 3);
                self.field(&mut bits, 0, 1);
                self.field(&mut bits, number, [3, 1, 0, 3, 3][group]);
            }
            Field::Reset => {
                let drawn = want.items.is_none() && !want.all;
                let all = want.all || (drawn && self.rng.percent(20));
                self.field(&mut bits, 0, 1);
                self.field(&mut bits, !all as u64, 1);
                if all {
                    self.field(&mut bits, 0, 1);
                } else {
                    let items = match &want.items {
                        Some(items) => items.clone(),
                        None => self.pool.items(self.rng),
                    };
                    self.pad(&mut bits);
                    self.items(&mut bits, &items, 0);
                }
            }
            Field::Acknowledged => {
                let items = self.pool.items(self.rng);
                self.items(&mut bits, &items, 1);
            }
            Field::Diagnostics => return self.diagnostics(table),
            Field::Name => {
                let mut name = self.rng.name();
                let odd = if self.rng.one_in(6) { self.rng.below(8) } else { 8 };
                match odd {
                    0 => name.resize(151, b'a'),
                    1 => name.resize(self.rng.between(152, 257), b' '),
                    2 | 3 => {
                        let at = self.rng.below(name.len());
                        name[at] = self.rng.bad_character();
                    }
                    _ => {}
                }
                // A length that lies: by one, or anything.
                let said = match odd {
                    4 => name.len(),
                    5 => name.len().saturating_sub(2),
                    6 => self.rng.below(256),
                    _ => name.len() - 1,
                };
                self.field(&mut bits, (odd == 7) as u64, 1);
                self.field(&mut bits, said as u64 & 255, 8);
                self.pad(&mut bits);
                bits.octets.extend(name);
            }
            Field::Wait => {
                let number = if self.rng.percent(85) { self.rng.below(6) } else { self.rng.below(8) };
                let extended = self.rng.one_in(20);
                self.field(&mut bits, extended as u64, 1);
                self.field(&mut bits, number as u64, 3);
            }
            Field::MessageIdentifier | Field::SerialNumber => {
                let number = self.pool.identity(self.rng);
                self.field(&mut bits, number as u64, 16);
            }
            Field::WarningCause => {
                let number = self.rng.pick(&[0, 1, 16, 18, 19, 127, 128, 255]);
                self.field(&mut bits, number, 8);
            }
            Field::Carried => {
                let n = match self.rng.below(50) {
                    0 => self.rng.between(120, 140),
                    1 => self.rng.between(256, 600),
                    _ => self.rng.between(1, 9),
                };
                let short = table.kind == Kind::StartRequest && self.style.wild == 0;
                return self.rng.octets(if short { n.min(3) } else { n });
            }
        }
        self.end(bits)
    }

    fn unknown(&mut self, table: &Table) -> Element {
        let id = loop {
            let id = match self.rng.below(4) {
                0 => self.rng.below(26) as u16,
                1 => self.rng.between(26, 40) as u16,
                2 => 99,
                _ => self.rng.word() as u16,
            };
            if table.rows.iter().all(|row| row.id != id) {
                break id;
            }
        };
        let criticality = if self.style.reject { self.rng.below(3) as u8 } else { self.rng.between(1, 2) as u8 };
        let n = if self.rng.one_in(40) { self.rng.between(126, 300) } else { self.rng.between(1, 4) };
        Element { id, criticality, value: self.rng.octets(n) }
    }

    fn elements(&mut self, table: &Table, want: &Want) -> Vec<Element> {
        let mut elements = Vec::new();
        for row in table.rows {
            if if row.mandatory { self.rng.percent(self.style.missing) } else { self.rng.percent(50) } {
                continue;
            }
            let value = self.value(table, row.field, want);
            let other = self.style.order > 0 && self.rng.percent(10);
            let criticality = if other { self.rng.below(3) as u8 } else { row.criticality };
            elements.push(Element { id: row.id, criticality, value });
        }
        if self.rng.percent(self.style.order) && !elements.is_empty() {
            // A repeat, elsewhere or at once; or a change of places.
            let from = self.rng.below(elements.len());
            if self.rng.percent(60) {
                let id = elements[from].id;
                let field = table.rows.iter().find(|row| row.id == id).map(|row| row.field);
                let value = match field {
                    Some(field) if self.rng.percent(70) => self.value(table, field, want),
                    _ => elements[from].value.clone(),
                };
                let criticality = self.rng.below(3) as u8;
                let to = self.rng.between(from, elements.len());
                elements.insert(to, Element { id, criticality, value });
            } else {
                let to = self.rng.below(elements.len());
                elements.swap(from, to);
            }
        }
        if self.rng.percent(self.style.unknown) {
            let n = if self.rng.one_in(50) { self.rng.between(250, 300) } else { self.rng.between(1, 4) };
            for _ in 0..n {
                let mut element = self.unknown(table);
                if n > 4 {
                    element.value.truncate(1);
                    if self.rng.percent(90) {
                        element.criticality = 2;
                    }
                }
                let to = self.rng.below(elements.len() + 1);
                elements.insert(to, element);
            }
        }
        elements
    }

    /// Extensions beside the elements, if the message may have a container: of any id, also one of its table.
    fn extensions(&mut self, table: &Table) -> Vec<Element> {
        if table.container == 0 || self.rng.percent(60) {
            return Vec::new();
        }
        let n = if self.rng.one_in(25) { self.rng.between(250, 300) } else { self.rng.between(1, 4) };
        let mut extensions = Vec::new();
        for _ in 0..n {
            let id = match self.rng.below(4) {
                0 => table.rows[self.rng.below(table.rows.len())].id,
                1 => self.rng.below(40) as u16,
                2 => self.rng.pick(&[0, 99, 0xffff]),
                _ => self.rng.word() as u16,
            };
            let criticality = if self.style.reject { self.rng.below(3) as u8 } else { self.rng.between(1, 2) as u8 };
            let size = match self.rng.below(30) {
                0 if n < 5 => self.rng.between(126, 129),
                1 if n < 5 => self.rng.between(255, 600),
                _ => self.rng.between(1, 4),
            };
            extensions.push(Element { id, criticality, value: self.rng.octets(size) });
        }
        extensions
    }

    fn body(&mut self, table: &Table, elements: &[Element], extensions: &[Element]) -> Vec<u8> {
        let mut bits = Bits::default();
        self.field(&mut bits, 0, 1);
        if table.container != 0 {
            self.field(&mut bits, !extensions.is_empty() as u64, 1);
        }
        self.pad(&mut bits);
        let n = elements.len();
        let n = if self.wild() { self.rng.pick(&[n + 1, n.saturating_sub(1), 0, n + 256]) } else { n };
        self.field(&mut bits, n as u64, 16);
        for element in elements {
            self.envelope(&mut bits, element.id, element.criticality, &element.value);
        }
        if let Some(last) = extensions.len().checked_sub(1) {
            let others = [last + 1, last.saturating_sub(1), last + 256, 0xfffe, 0xffff, 0xffff];
            let last = if self.wild() { self.rng.pick(&others) } else { last };
            self.field(&mut bits, last as u64, 16);
            for extension in extensions {
                self.envelope(&mut bits, extension.id, extension.criticality, &extension.value);
            }
        }
        bits.octets
    }

    fn frame(&mut self, table: &Table, body: &[u8]) -> Vec<u8> {
        let (choice, procedure, criticality) = table.frame;
        let criticality = if self.rng.percent(15) { self.rng.below(3) as u8 } else { criticality };
        let mut bits = Bits::default();
        self.field(&mut bits, 0, 1);
        self.field(&mut bits, choice as u64, 2);
        self.pad(&mut bits);
        self.field(&mut bits, procedure as u64, 8);
        self.field(&mut bits, criticality as u64, 2);
        self.pad(&mut bits);
        self.open(&mut bits, body);
        bits.octets
    }

    fn message(&mut self, table: &Table, want: &Want) -> Vec<u8> {
        let elements = self.elements(table, want);
        let extensions = self.extensions(table);
        let body = self.body(table, &elements, &extensions);
        self.frame(table, &body)
    }

    /// A message whose inside has from `least` to `most` octets, filled by an element or an extension that is not read and
    /// has at least `filler` octets.
    fn filled(&mut self, table: &Table, filler: usize, least: usize, most: usize) -> Vec<u8> {
        self.style.wild = 0;
        let mut elements = self.elements(table, &Want::default());
        let mut extensions = self.extensions(table);
        let beside = !extensions.is_empty() && self.rng.percent(50);
        let list = if beside { &mut extensions } else { &mut elements };
        let at = self.rng.below(list.len() + 1);
        list.insert(at, Element { id: 4711, criticality: 1, value: vec![0x55; filler] });
        let body = self.body(table, &elements, &extensions);
        let Some(more) = self.rng.between(least, most).checked_sub(body.len()) else {
            return self.frame(table, &body);
        };
        let list = if beside { &mut extensions } else { &mut elements };
        list[at].value = self.rng.octets(filler + more);
        let body = self.body(table, &elements, &extensions);
        self.frame(table, &body)
    }

    /// A whole number of octets near the limit. Both lengths stay in two octets, so the rest of the frame is 5.
    fn big(&mut self, table: &Table) -> Vec<u8> {
        self.filled(table, 300, LIMIT - 2 - 5, LIMIT + 3 - 5)
    }

    /// About as many octets as make the frame's length one octet longer; the filler's stays in one.
    fn middling(&mut self, table: &Table) -> Vec<u8> {
        self.filled(table, 1, 126, 129)
    }
}

/// Damage that knows nothing of fields.
fn damage(rng: &mut Rng, octets: &mut Vec<u8>) {
    for _ in 0..rng.pick(&[1, 1, 1, 2, 3]) {
        let n = octets.len();
        match rng.below(7) {
            0 | 1 if n > 0 => octets[rng.below(n)] ^= 1 << rng.below(8),
            2 => octets.truncate(rng.below(n + 1)),
            3 => {
                let at = rng.below(n + 1);
                for _ in 0..rng.between(1, 3) {
                    let b = if rng.percent(50) { 0 } else { rng.word() as u8 };
                    octets.insert(at, b);
                }
            }
            4 if n > 0 => {
                octets.remove(rng.below(n));
            }
            5 if n > 0 => octets[rng.below(n)] = rng.pick(&[0, 1, 0x0e, 0x20, 0x40, 0x7f, 0x80, 0x81, 0xc0, 0xff]),
            _ => octets.push(rng.word() as u8),
        }
    }
}

/// Messages for the reader, without end.
pub struct Reads {
    rng: Rng,
    profile: &'static Profile,
}

impl Reads {
    pub fn new(seed: u64) -> Self {
        Reads { rng: Rng::new(seed), profile: &M3AP }
    }

    /// Messages of SBc-AP, by the ordinary profile.
    pub fn warnings(seed: u64) -> Self {
        Reads { rng: Rng::new(seed), profile: &SBCAP }
    }
}

impl Iterator for Reads {
    type Item = Vec<u8>;

    fn next(&mut self) -> Option<Vec<u8>> {
        let rng = &mut self.rng;
        let table = rng.table(self.profile);
        let pool = Pool::new(rng.pick(&SPANS));
        let plan = rng.below(100);
        if plan == 0 {
            let n = rng.below(14);
            let mut octets = rng.octets(n);
            if let (Some(first), true) = (octets.first_mut(), rng.percent(60)) {
                *first &= 0x60;
            }
            return Some(octets);
        }
        let style = Style {
            // Half of the messages with damaged fields, about one each.
            wild: if plan < 55 { rng.pick(&[12, 25, 50, 90]) } else { 0 },
            missing: rng.pick(&[0, 0, 5, 20]),
            unknown: 35,
            order: rng.pick(&[0, 15, 40]),
            reject: rng.percent(60),
        };
        let mut maker = Maker { rng, pool: &pool, style };
        if plan == 99 && maker.rng.percent(40) {
            return Some(maker.big(table));
        }
        // M3AP's cases are kept as they are.
        if plan == 99 && table.container != 0 {
            return Some(maker.middling(table));
        }
        let elements = maker.elements(table, &Want::default());
        let extensions = maker.extensions(table);
        let mut body = maker.body(table, &elements, &extensions);
        if (45..70).contains(&plan) {
            damage(maker.rng, &mut body);
        }
        let mut octets = maker.frame(table, &body);
        if (65..80).contains(&plan) {
            damage(maker.rng, &mut octets);
        }
        Some(octets)
    }
}

/// Records for C, many damaged, with the octets in which their values lie, without end.
pub struct Records {
    reads: Reads,
    profile: &'static Profile,
}

impl Records {
    pub fn new(seed: u64) -> Self {
        Records { reads: Reads::new(seed), profile: &M3AP }
    }

    /// Records of SBc-AP, as a profile reads them.
    pub fn warnings(seed: u64, profile: &'static Profile) -> Self {
        Records { reads: Reads::warnings(seed), profile }
    }

    /// Octets that the layout has something to say of: the front, the lists' numbers, their first and last rows.
    fn place(rng: &mut Rng) -> usize {
        match rng.below(10) {
            0..=5 => rng.below(2 + 8 * 4),
            6 => rng.below(100),
            7 => rng.pick(&[98, 99, 1636, 1637]),
            8 => rng.pick(&[100, 1638]) + rng.below(24),
            _ => rng.below(RECORD_OCTETS),
        }
    }
}

impl Iterator for Records {
    type Item = (Vec<u8>, Vec<u8>);

    fn next(&mut self) -> Option<(Vec<u8>, Vec<u8>)> {
        let mut record = vec![0; RECORD_OCTETS];
        let mut values = loop {
            let message = self.reads.next()?;
            if matches!(self.profile.read_record(&message, &mut record).answer, 0 | 5) {
                break message;
            }
        };
        let rng = &mut self.reads.rng;
        if record[0] == Kind::SetupRequest as u8 + 1 && rng.percent(40) {
            // A name that is not allowed, somewhere in the values.
            let (from, n) = (rng.below(values.len()), rng.pick(&[0, 1, 5, 150, 151, 9000]));
            record[10] = 1;
            record[11..13].copy_from_slice(&(from as u16).to_be_bytes());
            record[13..15].copy_from_slice(&(n as u16).to_be_bytes());
        }
        for _ in 0..rng.pick(&[0, 0, 1, 1, 1, 2, 3]) {
            let at = Records::place(rng);
            record[at] = match rng.below(4) {
                0 => rng.word() as u8,
                1 => record[at] ^ 1 << rng.below(8),
                _ => rng.pick(&[0, 0, 1, 1, 2, 3, 5, 6, 9, 10, 11, 12, 255]),
            };
        }
        match rng.below(40) {
            0 => {
                record.pop();
            }
            1 => record.push(0),
            2 => values.truncate(rng.below(values.len())),
            3 => values.resize(9000, 0x41),
            _ => {}
        }
        Some((record, values))
    }
}

/// A step of a run of calls.
pub enum Step {
    /// A fresh unit.
    Fresh,
    /// A call, its verdict, and the digest of the unit afterwards.
    Call { offered: u16, room: u16, message: Vec<u8>, verdict: String, digest: u64 },
    /// A setup call, likewise.
    Setup { room: u16, plate: Plate, verdict: String, digest: u64 },
}

/// FNV-1a, 64 bits.
pub fn digest(octets: &[u8]) -> u64 {
    octets.iter().fold(0xcbf2_9ce4_8422_2325, |h, &b| (h ^ b as u64).wrapping_mul(0x0100_0000_01b3))
}

/// Runs of calls, without end.
pub struct Calls {
    rng: Rng,
    unit: Vec<u8>,
    pool: Pool,
    steps: VecDeque<Step>,
}

impl Iterator for Calls {
    type Item = Step;

    fn next(&mut self) -> Option<Step> {
        while self.steps.is_empty() {
            self.run();
        }
        self.steps.pop_front()
    }
}

impl Calls {
    pub fn new(seed: u64) -> Self {
        let unit = vec![0; UNIT_OCTETS];
        Calls { rng: Rng::new(seed), unit, pool: Pool::new(Span::Small), steps: VecDeque::new() }
    }

    fn run(&mut self) {
        self.pool.span = self.rng.pick(&SPANS);
        match self.rng.below(15) {
            0 => self.fill(),
            1..=3 => self.dealt(),
            4..=6 => self.swapped(),
            7..=9 => self.setups(),
            _ => {
                self.empty();
                for _ in 0..self.rng.between(20, 80) {
                    self.any();
                }
            }
        }
    }

    fn empty(&mut self) {
        self.unit.fill(0);
        self.pool.held.clear();
        self.steps.push_back(Step::Fresh);
    }

    fn make(&mut self, kind: Kind, want: Want, style: Style) -> Vec<u8> {
        Maker { rng: &mut self.rng, pool: &self.pool, style }.message(kind.table(), &want)
    }

    fn play(&mut self, offered: u16, room: usize, message: Vec<u8>) {
        let verdict = call_verdict(&mut self.unit, offered, room, &message);
        let count = u16::from_be_bytes([self.unit[0], self.unit[1]]) as usize;
        self.pool.held.clear();
        for row in self.unit[2..].chunks(ROW_OCTETS).take(count) {
            self.pool.held.push((u16::from_be_bytes([row[0], row[1]]), u16::from_be_bytes([row[2], row[3]])));
        }
        let digest = digest(&self.unit);
        self.steps.push_back(Step::Call { offered, room: room as u16, message, verdict, digest });
    }

    /// A room: mostly ample, else about the size of the reply, small or none.
    fn room(&mut self, offered: u16, message: &[u8]) -> usize {
        if self.rng.percent(75) {
            return LIMIT;
        }
        let reply = call(&mut self.unit.clone(), message, offered, &mut [0; LIMIT]).reply;
        match self.rng.below(6) {
            0 | 1 => reply,
            2 | 3 => reply.saturating_sub(1),
            4 => self.rng.below(64),
            _ => 0,
        }
    }

    fn offered(&mut self) -> u16 {
        self.pool.pair(&mut self.rng).1
    }

    fn is_open(&self) -> bool {
        self.unit[OPEN_AT] == 1
    }

    /// What a setup call is to ask for: mostly a good request.
    fn plate(&mut self) -> Plate {
        let rng = &mut self.rng;
        let carried = |rng: &mut Rng| match rng.below(30) {
            0 => None,
            1 => Some(vec![]),
            2 => {
                let n = rng.between(120, 140);
                Some(rng.octets(n))
            }
            _ => {
                let n = rng.between(1, 7);
                Some(rng.octets(n))
            }
        };
        let (global, mut areas) = (carried(rng), carried(rng));
        let name = match rng.below(24) {
            0..=6 => None,
            7 => Some(vec![]),
            8 => Some(vec![b'a'; rng.pick(&[151, 151, 256, 300, 8192])]),
            9 | 10 => {
                let mut name = rng.name();
                let at = rng.below(name.len());
                name[at] = rng.bad_character();
                Some(name)
            }
            _ => Some(rng.name()),
        };
        // Now and then at about 8,192 octets in all: with a name, its element takes 5 or 6 octets and itself.
        if rng.one_in(60) {
            let front = global.as_ref().map_or(0, |v| 3 + v.len() + if v.len() < 128 { 1 } else { 2 });
            let named = name.as_ref().map_or(0, |v| 5 + v.len() + if v.len() < 126 { 1 } else { 2 });
            let rest = (5 + 3 + 5) + front + named;
            areas = Some(vec![rng.word() as u8; rng.between(LIMIT - 2, LIMIT + 2).saturating_sub(rest)]);
        }
        Plate { global, name, areas }
    }

    fn setup(&mut self) {
        let plate = self.plate();
        let (record, values) = plate.record();
        let mut fresh = [0; UNIT_OCTETS];
        let size = setup(&mut fresh, &record, &values, &mut [0; LIMIT]).reply;
        let room = match self.rng.below(12) {
            0 => size,
            1 => size.saturating_sub(1),
            2 => self.rng.below(40),
            3 => 0,
            // A long request is in the way of whoever reads the cases.
            _ if size > 2000 => self.rng.pick(&[0, size - 1, size - 1]),
            _ => LIMIT,
        };
        let verdict = setup_verdict(&mut self.unit, room, &plate);
        let digest = digest(&self.unit);
        self.steps.push_back(Step::Setup { room: room as u16, plate, verdict, digest });
    }

    /// A response or a failure, mostly a good one.
    fn outcome(&mut self) {
        let kind = self.rng.pick(&[Kind::SetupResponse, Kind::SetupFailure]);
        let style = match self.rng.below(10) {
            0 => Style { wild: self.rng.pick(&[4, 12]), missing: 20, unknown: 30, order: 20, reject: true },
            1 => Style { wild: 0, missing: 20, unknown: 70, order: 50, reject: true },
            2 => Style { unknown: 100, missing: 50, ..PLAIN },
            _ => PLAIN,
        };
        let message = self.make(kind, Want::default(), style);
        let room = self.room(0, &message);
        self.play(0, room, message);
    }

    /// Setup calls, responses and failures among starts, stops and resets.
    fn setups(&mut self) {
        self.empty();
        for _ in 0..self.rng.between(12, 40) {
            match self.rng.below(20) {
                0..=5 => self.setup(),
                6..=11 => self.outcome(),
                12..=16 => {
                    let (mme, mce) = (self.pool.identity(&mut self.rng), self.pool.identity(&mut self.rng));
                    self.start(mme, mce);
                }
                _ => self.any(),
            }
        }
        // What a response leaves behind, from open or not.
        if self.is_open() || self.rng.percent(30) {
            let kind = self.rng.pick(&[Kind::SetupResponse, Kind::SetupFailure]);
            for _ in 0..2 {
                let message = self.make(kind, Want::default(), PLAIN);
                self.play(0, LIMIT, message);
            }
        }
    }

    /// Any call.
    fn any(&mut self) {
        match self.rng.below(100) {
            0..=4 => return self.setup(),
            5..=8 => return self.outcome(),
            _ => {}
        }
        let style = match self.rng.below(10) {
            0 => Style { wild: self.rng.pick(&[15, 40]), missing: 5, unknown: 30, order: 10, reject: true },
            1 => Style { wild: 0, missing: 10, unknown: 50, order: 40, reject: true },
            2 | 3 => Style { unknown: 100, ..PLAIN },
            _ => PLAIN,
        };
        let (mme, mce) = self.pool.pair(&mut self.rng);
        let want = Want { mme: Some(mme), mce: Some(mce), ..Want::default() };
        let mut message = match self.rng.below(100) {
            0..=39 => {
                // Fresh more often than held, or the unit would stay small.
                let mme = if self.rng.percent(70) { self.pool.identity(&mut self.rng) } else { mme };
                self.make(Kind::StartRequest, Want { mme: Some(mme), ..want }, style)
            }
            40..=62 => self.make(Kind::StopRequest, want, style),
            63..=85 => {
                let items = Some(self.pool.items(&mut self.rng));
                self.make(Kind::Reset, Want { items, ..want }, style)
            }
            86..=87 => self.make(Kind::Reset, Want { all: true, ..want }, style),
            88..=92 => self.make(Kind::ErrorIndication, want, style),
            93..=97 => {
                let kind = self.rng.table(&M3AP).kind;
                self.make(kind, want, style)
            }
            _ => {
                let n = self.rng.below(12);
                self.rng.octets(n)
            }
        };
        if self.rng.percent(5) {
            damage(&mut self.rng, &mut message);
        }
        let offered = if self.rng.percent(80) { self.pool.identity(&mut self.rng) } else { self.offered() };
        let room = self.room(offered, &message);
        self.play(offered, room, message);
    }

    fn start(&mut self, mme: u16, offered: u16) {
        let unknown = if self.rng.percent(5) { 100 } else { 0 };
        let message =
            self.make(Kind::StartRequest, Want { mme: Some(mme), ..Want::default() }, Style { unknown, ..PLAIN });
        let room = if self.rng.percent(3) { self.room(offered, &message) } else { LIMIT };
        self.play(offered, room, message);
    }

    fn stop(&mut self, mme: u16, mce: u16) {
        let message = self.make(Kind::StopRequest, Want { mme: Some(mme), mce: Some(mce), ..Want::default() }, PLAIN);
        self.play(0, LIMIT, message);
    }

    fn reset(&mut self, items: Vec<Item>) {
        let message = self.make(Kind::Reset, Want { items: Some(items), ..Want::default() }, PLAIN);
        self.play(0, LIMIT, message);
    }

    /// Fills the unit to 256 and on, thins it out, and fills it again.
    fn fill(&mut self) {
        self.empty();
        let mut next = {
            let (a, b) = (self.rng.word() as u16, self.rng.word() as u16);
            let (da, db) = (self.rng.word() as u16 | 1, self.rng.pick(&[1, 3, 255, 257, 0x8001]));
            let mut n = 0u16;
            move || {
                n += 1;
                (a.wrapping_add(n.wrapping_mul(da)), b.wrapping_add(n.wrapping_mul(db)))
            }
        };
        for round in 0..self.rng.between(1, 3) {
            for _ in 0..600 {
                if self.pool.held.len() == 256 {
                    break;
                }
                let (mme, mce) = next();
                self.start(mme, mce);
                if self.rng.percent(2) {
                    let (held_mme, held_mce) = self.rng.pick(&[(mme, mce), (mme, mce.wrapping_add(1))]);
                    self.start(held_mme, held_mce);
                }
            }
            for _ in 0..self.rng.between(4, 10) {
                let (mme, mce) = next();
                let (held_mme, held_mce) = self.rng.pick(&self.pool.held);
                let (mme, mce) = self.rng.pick(&[(mme, mce), (held_mme, mce), (mme, held_mce), (held_mme, held_mce)]);
                let message = self.make(Kind::StartRequest, Want { mme: Some(mme), ..Want::default() }, PLAIN);
                let room = self.room(mce, &message);
                self.play(mce, room, message);
            }
            match (round + self.rng.below(4)) % 4 {
                0 => {
                    for _ in 0..self.rng.between(1, 12) {
                        let (mme, mce) = self.rng.pick(&self.pool.held);
                        self.stop(mme, mce);
                    }
                }
                1 => {
                    let items = (0..256).map(|_| self.pool.item(&mut self.rng)).collect();
                    self.reset(items);
                }
                2 => {
                    // All of it, each by what was drawn for it, in any order.
                    let mut items: Vec<Item> = self.pool.held.iter().map(|&(mme, mce)| both(mme, mce)).collect();
                    for item in &mut items {
                        match self.rng.below(3) {
                            0 => item.mme = None,
                            1 => item.mce = None,
                            _ => {}
                        }
                    }
                    self.rng.shuffle(&mut items);
                    items.truncate(self.rng.pick(&[1, 100, 255, 256]));
                    self.reset(items);
                }
                _ => {
                    for _ in 0..self.rng.between(2, 8) {
                        let n = self.rng.between(1, 30);
                        let items = (0..n).map(|_| self.pool.item(&mut self.rng)).collect();
                        self.reset(items);
                    }
                }
            }
        }
        for _ in 0..self.rng.between(5, 20) {
            self.any();
        }
    }

    /// Draws distinct pairs and starts them on a fresh unit.
    fn pairs(&mut self, n: usize) -> Vec<(u16, u16)> {
        let mut pairs: Vec<(u16, u16)> = Vec::new();
        for _ in 0..4 * n {
            let (mme, mce) = (self.pool.identity(&mut self.rng), self.pool.identity(&mut self.rng));
            if pairs.len() < n && pairs.iter().all(|p| p.0 != mme && p.1 != mce) {
                pairs.push((mme, mce));
            }
        }
        pairs
    }

    fn start_all(&mut self, pairs: &[(u16, u16)]) {
        self.empty();
        for &(mme, mce) in pairs {
            let message = self.make(Kind::StartRequest, Want { mme: Some(mme), ..Want::default() }, PLAIN);
            self.play(mce, LIMIT, message);
        }
    }

    /// Stops all that may be held: which are answered 0 shows what the unit held.
    fn probe(&mut self, pairs: &[(u16, u16)]) {
        for &(mme, mce) in pairs {
            self.stop(mme, mce);
        }
    }

    /// The same items over several messages in several orders.
    fn dealt(&mut self) {
        let n = self.rng.between(4, 16);
        let pairs = self.pairs(n);
        self.pool.held = pairs.clone();
        let n = self.rng.between(2, 12);
        let mut items: Vec<Item> = (0..n).map(|_| self.pool.item(&mut self.rng)).collect();
        for deal in 0..3 {
            self.start_all(&pairs);
            let mut rest = items.clone();
            while !rest.is_empty() {
                let n = match deal {
                    0 => rest.len(),
                    1 => 1,
                    _ => self.rng.between(1, rest.len().min(5)),
                };
                let behind = rest.split_off(n);
                self.reset(rest);
                rest = behind;
            }
            self.probe(&pairs);
            self.rng.shuffle(&mut items);
        }
    }

    /// A start or stop, and a reset, in both orders.
    fn swapped(&mut self) {
        let n = self.rng.between(3, 10);
        let mut pairs = self.pairs(n);
        self.pool.held = pairs.clone();
        let (mme, mce) = self.pool.pair(&mut self.rng);
        let fresh = (self.pool.identity(&mut self.rng), self.pool.identity(&mut self.rng));
        let (offered, single) = if self.rng.percent(60) {
            let mme = if self.rng.percent(50) { mme } else { fresh.0 };
            let offered = if self.rng.percent(50) { mce } else { fresh.1 };
            let single = self.make(Kind::StartRequest, Want { mme: Some(mme), ..Want::default() }, PLAIN);
            self.pool.held.push((mme, offered));
            (offered, single)
        } else {
            let want = Want { mme: Some(mme), mce: Some(mce), ..Want::default() };
            (0, self.make(Kind::StopRequest, want, PLAIN))
        };
        let last = self.pool.held.last().copied();
        let all = self.rng.one_in(8);
        let items = (!all).then(|| {
            let n = self.rng.between(1, 5);
            let mut items: Vec<Item> = (0..n).map(|_| self.pool.item(&mut self.rng)).collect();
            if let (Some((mme, mce)), true) = (last, self.rng.percent(50)) {
                items.push(both(mme, mce));
            }
            items
        });
        let reset = self.make(Kind::Reset, Want { items, all, ..Want::default() }, PLAIN);
        let started = pairs.clone();
        pairs.extend(last);
        for reset_first in [false, true] {
            self.start_all(&started);
            if reset_first {
                self.play(offered, LIMIT, reset.clone());
            }
            self.play(offered, LIMIT, single.clone());
            if !reset_first {
                self.play(offered, LIMIT, reset.clone());
            }
            self.probe(&pairs);
        }
    }
}

fn both(mme: u16, mce: u16) -> Item {
    Item { mme: Some(mme), mce: Some(mce) }
}

/// Writes `count` lines `HEX => verdict`.
pub fn reads(seed: u64, count: usize, out: &mut impl Write) -> io::Result<()> {
    for octets in Reads::new(seed).take(count) {
        writeln!(out, "{} => {}", hex(&octets), read_verdict(&octets))?;
    }
    Ok(())
}

/// Writes lines `sbc HEX => verdict` and `lab HEX => verdict`, of `count` messages.
pub fn warnings(seed: u64, count: usize, out: &mut impl Write) -> io::Result<()> {
    for octets in Reads::warnings(seed).take(count) {
        for (word, profile) in [("sbc", &SBCAP), ("lab", &SBCAP_LAB)] {
            writeln!(out, "{word} {} => {}", hex(&octets), read_verdict_by(profile, &octets))?;
        }
    }
    Ok(())
}

#[derive(Clone, Copy, PartialEq, Eq)]
pub enum Form {
    Text,
    /// Text with the digest of the unit behind each call.
    Digest,
    Binary,
}

/// Writes runs of calls, `count` calls in all.
pub fn calls(seed: u64, count: usize, form: Form, out: &mut impl Write) -> io::Result<()> {
    let mut left = count;
    for step in Calls::new(seed) {
        if left == 0 {
            break;
        }
        match step {
            Step::Fresh if form == Form::Binary => out.write_all(&[0, 0, 0, 0, 0xff, 0xff])?,
            Step::Fresh => writeln!(out, "table")?,
            Step::Setup { room, plate, verdict, digest } => {
                left -= 1;
                match form {
                    Form::Binary => {
                        for n in [0, room, 0xfffe] {
                            out.write_all(&n.to_be_bytes())?;
                        }
                        for value in [&plate.global, &plate.name, &plate.areas] {
                            let size = value.as_ref().map_or(0xffff, |value| value.len() as u16);
                            out.write_all(&size.to_be_bytes())?;
                            out.write_all(value.as_deref().unwrap_or(&[]))?;
                        }
                    }
                    Form::Text => writeln!(out, "setup {room} {} => {verdict}", plate.text())?,
                    Form::Digest => writeln!(out, "setup {room} {} => {verdict} unit={digest:016x}", plate.text())?,
                }
            }
            Step::Call { offered, room, message, verdict, digest } => {
                left -= 1;
                match form {
                    Form::Binary => {
                        for n in [offered, room, message.len() as u16] {
                            out.write_all(&n.to_be_bytes())?;
                        }
                        out.write_all(&message)?;
                    }
                    Form::Text => writeln!(out, "call {offered} {room} {} => {verdict}", hex(&message))?,
                    Form::Digest => {
                        writeln!(out, "call {offered} {room} {} => {verdict} unit={digest:016x}", hex(&message))?
                    }
                }
            }
        }
    }
    Ok(())
}
