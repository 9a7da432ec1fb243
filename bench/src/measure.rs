//! Times, as ratios to the second program. Both take turns on the same octets and the same rooms, which the rounds before have warmed; the least round counts.
use crate::compare::{call_by_second, count_by_second, marks_by_second, read_by_second, row_by_second, setup_by_second, shown_by_second, By, M3AP, SBCAP};
use crate::made::{acknowledge, evening, identities, reset, set_up, set_up_failed, start, stop, stop_warning, stop_warning_answered, CHOSEN};
use crate::ours::{self, Answer, Tmgi};
use second::layout::RECORD_OCTETS;
use second::{LIMIT, UNIT_OCTETS};
use std::cell::RefCell;
use std::hint::black_box;
use std::time::Instant;

/// Many short rounds: some of them are not disturbed by other work of the machine.
const ROUNDS: usize = 200;
const ROUND_NS: f64 = 5e5;

/// Nanoseconds a turn.
fn timed(turns: usize, turn: &mut dyn FnMut()) -> f64 {
    let from = Instant::now();
    for _ in 0..turns {
        turn();
    }
    from.elapsed().as_secs_f64() * 1e9 / turns as f64
}

/// The least of the rounds. How many turns make a round is found first, which warms.
fn row(name: &str, per: usize, ours: &mut dyn FnMut(), second: &mut dyn FnMut()) {
    let turns = |turn: &mut dyn FnMut()| (ROUND_NS / timed(20, turn).max(1.0)).ceil() as usize;
    let (a, b) = (turns(ours), turns(second));
    let (mut x, mut y) = (f64::MAX, f64::MAX);
    for _ in 0..ROUNDS {
        x = x.min(timed(a, ours));
        y = y.min(timed(b, second));
    }
    println!("| {name} | {:.0} | {:.0} | {:.2} |", x / per as f64, y / per as f64, x / y);
}

fn head(title: &str) {
    println!("{title}\n\n| | ours, ns | second, ns | ratio |\n|---|---|---|---|");
}

// ---- reading and writing

fn read_rows(name: &str, by: &By, message: &[u8]) {
    let (mut room, mut record) = ([0; RECORD_OCTETS], [0; RECORD_OCTETS]);
    let [ours, second] = by.read;
    assert_eq!(ours(message, &mut room).answer, 0);
    assert_eq!(second(message, &mut record).answer, 0);
    assert_eq!(room, record);
    let name = format!("read {name} ({} octets)", message.len());
    let mut ours = || {
        black_box(ours(black_box(message), &mut room));
    };
    row(&format!("{name}; second: `read`, record octets made"), 1, &mut ours, &mut || {
        black_box(second(black_box(message), &mut record));
    });
    row(&format!("{name}; second: `read` alone"), 1, &mut ours, &mut || {
        black_box(by.profile.read(black_box(message)));
    });
}

fn write_rows(name: &str, by: &By, message: &[u8]) {
    let mut octets = [0; RECORD_OCTETS];
    let (mut room, mut other) = ([0; LIMIT], [0; LIMIT]);
    let [ours, second] = by.write;
    assert_eq!(by.read[1](message, &mut octets).answer, 0);
    let written = Answer { octets: message.len() as u32, ..CARRIED_OUT };
    assert_eq!(ours(&octets, message, &mut room), written);
    assert_eq!(second(&octets, message, &mut other), written);
    assert_eq!(room, other);
    let name = format!("write {name} ({} octets)", message.len());
    let mut ours = || {
        black_box(ours(black_box(&octets), message, &mut room));
    };
    row(&format!("{name}; second: record octets taken, `write`"), 1, &mut ours, &mut || {
        black_box(second(black_box(&octets), message, &mut other));
    });
    let record = by.profile.taken(&octets, message).expect("a record").record;
    row(&format!("{name}; second: `write` alone"), 1, &mut ours, &mut || {
        let _ = black_box(second::write(black_box(&record), &mut other));
    });
}

// ---- calls

/// Answer 0 without a reply.
const CARRIED_OUT: Answer = Answer { answer: 0, place: 0, octets: 0, bit: 0, wait: 0 };

type Call = fn(&mut [u8], &[u8], u16, &mut [u8]) -> Answer;
type Setup = fn(&mut [u8], &[u8], &[u8], &mut [u8]) -> Answer;

/// The same turn by both. It gives its last answer.
fn call_row(name: &str, per: usize, mut turn: impl FnMut(Call) -> Answer) {
    assert_eq!(turn(ours::call), turn(call_by_second));
    let turn = RefCell::new(turn);
    let by = |call: Call| {
        black_box((turn.borrow_mut())(call));
    };
    row(name, per, &mut || by(ours::call), &mut || by(call_by_second));
}

/// A unit of the first n associations.
fn held(n: u16) -> Vec<u8> {
    holding(&(0..n).map(identities).collect::<Vec<_>>())
}

fn holding(pairs: &[(u16, u16)]) -> Vec<u8> {
    let mut unit = vec![0; UNIT_OCTETS];
    for &(m, c) in pairs {
        assert_eq!(call_by_second(&mut unit, &start(m), c, &mut [0; LIMIT]).answer, 0);
    }
    unit
}

/// A reset, on a unit that is put back each time (for both).
fn reset_row(items: &[(u16, u16)], n: u16) {
    let full = held(n);
    let mut unit = full.clone();
    let mut room = [0; LIMIT];
    let message = reset(items);
    let plural = if items.len() == 1 { "" } else { "s" };
    call_row(&format!("call RESET, {} item{plural} ({} octets), {n} held", items.len(), message.len()), 1, |call| {
        unit.copy_from_slice(&full);
        call(&mut unit, black_box(&message), 0, &mut room)
    });
}

fn call_rows(items: &[(u16, u16)]) {
    let mut room = [0; LIMIT];
    for n in [0, 16, 255] {
        let mut unit = held(n);
        let (a, z) = (start(300), stop(300, 300));
        call_row(&format!("call START REQUEST, then STOP REQUEST, {n} held"), 1, |call| {
            black_box(call(&mut unit, black_box(&a), 300, &mut room));
            call(&mut unit, black_box(&z), 0, &mut room)
        });
    }
    reset_row(items, 256);
    reset_row(items, 0);
    let mut unit = held(255);
    let one = reset(&[identities(300)]);
    call_row("call RESET, 1 item that is not held, 255 held", 1, |call| {
        call(&mut unit, black_box(&one), 0, &mut room)
    });
    let entries = evening(2000);
    call_row(&format!("capture of {} entries by calls, per entry", entries.len()), entries.len(), |call| {
        unit.fill(0);
        entries.iter().fold(CARRIED_OUT, |_, (offered, message)| black_box(call(&mut unit, message, *offered, &mut room)))
    });
}

/// A setup and a failure, which leave the unit as it was; and the name that is shown of the request.
fn setup_rows() {
    let (request, failure) = (set_up(b"North Hall, plate 7"), set_up_failed());
    let (mut record, mut room) = ([0; RECORD_OCTETS], [0; LIMIT]);
    assert_eq!(read_by_second(&request, &mut record).answer, 0);
    for n in [0, 16, 256] {
        let mut unit = held(n);
        assert_eq!(ours::setup(&mut unit.clone(), &record, &request, &mut room), setup_by_second(&mut unit.clone(), &record, &request, &mut room));
        let name = format!("setup ({} octets), then call M3 SETUP FAILURE, {n} held", request.len());
        let turn = RefCell::new(|setup: Setup, call: Call| {
            black_box(setup(&mut unit, black_box(&record), &request, &mut room));
            black_box(call(&mut unit, black_box(&failure), 0, &mut room))
        });
        let by = |setup: Setup, call: Call| (turn.borrow_mut())(setup, call);
        assert_eq!(by(ours::setup, ours::call), by(setup_by_second, call_by_second));
        row(&name, 1, &mut || _ = by(ours::setup, ours::call), &mut || _ = by(setup_by_second, call_by_second));
    }
    let shown = || black_box(&request[..]);
    assert_eq!(ours::shown(shown(), b"unit"), shown_by_second(shown(), b"unit"));
    let (mut a, mut b) = (|| _ = black_box(ours::shown(shown(), b"unit")), || _ = black_box(shown_by_second(shown(), b"unit")));
    row(&format!("shown name, request of {} octets", request.len()), 1, &mut a, &mut b);
}

/// What is said of a unit: all of it is checked first, by both.
fn view_rows() {
    let tmgi = Tmgi { plmn: [1, 2, 3], service: [4, 5, 6] };
    for n in [0, 16, 256] {
        let unit = held(n);
        let k = u32::from(n.saturating_sub(1));
        assert_eq!(ours::row(&unit, k), row_by_second(&unit, k));
        assert_eq!(ours::count_in(&unit, tmgi), count_by_second(&unit, tmgi));
        assert_eq!(count_by_second(&unit, tmgi).count, usize::from(n));
        assert_eq!(ours::marks(&unit), marks_by_second(&unit));
        let unit = || black_box(&unit[..]);
        let (mut a, mut b) = (|| _ = black_box(ours::row(unit(), k)), || _ = black_box(row_by_second(unit(), k)));
        row(&format!("row {k}, {n} held"), 1, &mut a, &mut b);
        let (mut a, mut b) = (|| _ = black_box(ours::count_in(unit(), tmgi)), || _ = black_box(count_by_second(unit(), tmgi)));
        row(&format!("count by TMGI, {n} held"), 1, &mut a, &mut b);
        let (mut a, mut b) = (|| _ = black_box(ours::marks(unit())), || _ = black_box(marks_by_second(unit())));
        row(&format!("marks, {n} held"), 1, &mut a, &mut b);
    }
}

fn growth(items: &[(u16, u16)]) {
    let mut room = [0; LIMIT];
    let (m, c) = identities(300);
    let message = stop(m, c);
    for n in [0, 1, 4, 16, 64, 256] {
        let mut unit = held(n);
        call_row(&format!("call STOP REQUEST, not held, {n} held"), 1, |call| {
            call(&mut unit, black_box(&message), 0, &mut room)
        });
    }
    for n in [1, 4, 16, 64, 256] {
        reset_row(&items[..n], 256);
    }
}

/// Identities that a peer chooses: 255 held, a start and its stop; 256 held, a reset of all of them.
fn chosen() {
    let mut room = [0; LIMIT];
    for (how, identity) in CHOSEN {
        let pairs: Vec<_> = (0..256).map(|k| (identity(k), identity(k))).collect();
        let (m, _) = pairs[255];
        let (a, z) = (start(m), stop(m, m));
        let mut unit = holding(&pairs[..255]);
        call_row(&format!("call START REQUEST, then STOP REQUEST, 255 held, identities {how}"), 1, |call| {
            black_box(call(&mut unit, black_box(&a), m, &mut room));
            call(&mut unit, black_box(&z), 0, &mut room)
        });
        let full = holding(&pairs);
        let message = reset(&pairs);
        let mut unit = full.clone();
        call_row(&format!("call RESET, 256 items, 256 held, identities {how}"), 1, |call| {
            unit.copy_from_slice(&full);
            call(&mut unit, black_box(&message), 0, &mut room)
        });
    }
}

pub fn measure() {
    let items: Vec<_> = (0..256).map(identities).collect();
    head("### Times");
    read_rows("START REQUEST", &M3AP, &start(300));
    read_rows("STOP REQUEST", &M3AP, &stop(300, 300));
    read_rows("RESET of 256 items", &M3AP, &reset(&items));
    read_rows("M3 SETUP REQUEST", &M3AP, &set_up(b"North Hall, plate 7"));
    write_rows("START REQUEST", &M3AP, &start(300));
    write_rows("M3 SETUP REQUEST", &M3AP, &set_up(b"North Hall, plate 7"));
    write_rows("RESET ACKNOWLEDGE of 256 items", &M3AP, &acknowledge(&items));
    call_rows(&items);
    println!();
    head("### How the cost grows");
    growth(&items);
    println!();
    head("### Identities that a peer chooses");
    chosen();
    println!();
    head("### Setup");
    setup_rows();
    println!();
    head("### Looking at a unit");
    view_rows();
    println!();
    head("### Warnings over SBc-AP");
    for (name, message) in [("Stop-Warning Request", stop_warning()), ("Stop-Warning Response with diagnostics", stop_warning_answered())] {
        read_rows(name, &SBCAP, &message);
        write_rows(name, &SBCAP, &message);
    }
}
