//! The witnesses, the outside encoder's messages, the scope paper's bench examples, and what no case of these reaches.
#![deny(warnings)]

use second::check;
use second::layout::{read_record, setup_request, write_record, RECORD_OCTETS};
use second::text::{call_verdict, hex, octets_of, read_verdict, read_verdict_by, unhex};
use second::*;
use std::slice::from_ref;

#[test]
fn witnesses() {
    let run = |text: &str| {
        let mut result = check::Result::default();
        check::witnesses("witnesses", text, &mut result);
        result
    };
    let first = include_str!("../../tools/witnesses.txt");
    let second = include_str!("../../tools/witnesses-02.txt");
    for (text, counts) in [(first, [53, 0, 0, 15, 0, 0, 0, 0, 0, 0]), (second, [14, 1, 4, 21, 24, 4, 21, 3, 1, 2])] {
        let result = run(text);
        assert!(result.differences.is_empty(), "{:#?}", result.differences);
        assert_eq!(result.witnesses, counts);
        // And a changed verdict is seen, on each line.
        for (i, line) in text.lines().enumerate() {
            let changed = [("=> answer=1", "=> answer=2"), ("=> answer=", "=> answer=1"), ("=> shown=", "=> shown=00")];
            if let Some((from, to)) = changed.into_iter().find(|(from, _)| line.contains(from)) {
                let lines: Vec<String> = text
                    .lines()
                    .enumerate()
                    .map(|(k, l)| if k == i { l.replace(from, to) } else { l.into() })
                    .collect();
                assert_eq!(run(&lines.join("\n")).differences.len(), 1, "{line}");
            }
        }
        for (from, to) in [(" offset=", " offset=1"), (" held=", " held=1"), (" reply=", " reply=00")] {
            assert!(!run(&text.replace(from, to)).differences.is_empty());
        }
    }
    for (from, to) in [(" open=0", " open=1"), (" wait=-", " wait=1"), (" octets=", " octets=00"), ("table", "# ")] {
        assert!(!run(&second.replace(from, to)).differences.is_empty());
    }
}

#[test]
fn vectors() {
    let mut result = check::Result::default();
    for (name, text) in [
        ("base", include_str!("../../tools/outside/base.jsonl")),
        ("big", include_str!("../../tools/outside/big.jsonl")),
        ("setup", include_str!("../../tools/outside/setup.jsonl")),
        ("sbcap", include_str!("../../tools/outside/sbcap.jsonl")),
        ("sbcap_ext", include_str!("../../tools/outside/sbcap_ext.jsonl")),
    ] {
        check::vectors(name, text, &mut result);
    }
    assert!(result.differences.is_empty(), "{:#?}", result.differences);
    assert_eq!((result.messages, result.over, result.extended), (734, 1, 57));
    // What is changed is seen, on each line that is read: a field, an extension's id and criticality, an unknown element;
    // and on each of its tag, a tag of another answer or place.
    let text = include_str!("../../tools/outside/sbcap_ext.jsonl");
    let read = |line: &str| !["addition", "diag-", "error-type"].iter().any(|tag| line.contains(tag));
    for (from, to) in [
        (r#""serial_number":"#, r#""serial_number":1"#),
        (r#""extensions":[[256,2"#, r#""extensions":[[257,2"#),
        (r#""extensions":[[256,2"#, r#""extensions":[[256,0"#),
        (r#""unknown":true"#, r#""unknown":false"#),
        (r#""tags":["message-container"]"#, r#""tags":["message-addition"]"#),
        (r#""tags":["message-addition"]"#, r#""tags":["message-container"]"#),
        (r#""tags":["diag-container"]"#, r#""tags":["diag-entry-container"]"#),
        (r#""tags":["diag-entry-container"]"#, r#""tags":["diag-container"]"#),
    ] {
        let lines = text.lines().filter(|line| line.contains(from) && (from.contains("tags") || read(line)));
        let lines: Vec<String> = lines.map(|line| line.replace(from, to)).collect();
        let mut result = check::Result::default();
        check::vectors("changed", &lines.join("\n"), &mut result);
        assert!(!lines.is_empty() && result.differences.len() == lines.len(), "{from}: {result:#?}");
    }
}

fn h(text: &str) -> Vec<u8> {
    unhex(text).unwrap()
}

const RESET_1_2: &str = "00 04 00 17 00 00 02 00 09 40 01 42 00 0d 00 0b 40 00 00 0e 00 05 60 00 01 00 02";
const ACKNOWLEDGE_1_2: &str = "20 04 00 11 00 00 01 00 0f 40 0a 00 00 0e 40 05 60 00 01 00 02";

fn written(record: &Record) -> Result<String, Refused> {
    let mut room = [0; 8192];
    write(record, &mut room).map(|n| hex(&room[..n]))
}

#[test]
fn bench() {
    let verdict = read_verdict(&h(RESET_1_2));
    assert_eq!(verdict, "answer=0 Reset frame=0 9:4.2 13:part[(1,2)] noted=[]");
    let items = [Item { mme: Some(1), mce: Some(2) }];
    let mut reset = Record::new(Kind::Reset);
    reset.cause = Some(Cause { group: 4, number: 2 });
    reset.reset = Some(ResetType::Part(Items::Given(&items)));
    assert_eq!(written(&reset), Ok(hex(&h(RESET_1_2))));

    let reply = hex(&h(ACKNOWLEDGE_1_2));
    // Held (1, 3): removes nothing and is acknowledged. Held (1, 2): removed.
    for (mce, held) in [(3, 1), (2, 0)] {
        let mut unit = [0; UNIT_OCTETS];
        unit[1] = 1;
        unit[3] = 1;
        unit[5] = mce;
        let verdict = call_verdict(&mut unit, 0, 21, &h(RESET_1_2));
        assert_eq!(verdict, format!("answer=0 offset=- reply={reply} held={held} open=0 wait=-"));
    }
    let verdict = call_verdict(&mut [0; UNIT_OCTETS], 0, 20, &h(RESET_1_2));
    assert_eq!(verdict, "answer=10 offset=- reply= held=0 open=0 wait=-");
}

#[test]
fn refused_records() {
    let plain = || {
        let mut reset = Record::new(Kind::Reset);
        reset.cause = Some(Cause { group: 4, number: 2 });
        reset.reset = Some(ResetType::All);
        reset
    };
    assert_eq!(written(&plain()).unwrap(), "0004000d0000020009400142000d000100");
    let refused = |change: &dyn Fn(&mut Record)| {
        let mut record = plain();
        change(&mut record);
        assert_eq!(written(&record), Err(Refused::Record));
        assert_eq!(write(&record, &mut []), Err(Refused::Record));
    };
    refused(&|r| r.cause = None);
    refused(&|r| r.reset = None);
    refused(&|r| r.cause = Some(Cause { group: 0, number: 8 }));
    refused(&|r| r.cause = Some(Cause { group: 2, number: 1 }));
    refused(&|r| r.cause = Some(Cause { group: 5, number: 0 }));
    refused(&|r| r.reset = Some(ResetType::Part(Items::Given(&[]))));
    refused(&|r| r.reset = Some(ResetType::Part(Items::Given(&[Item { mme: None, mce: None }; 257]))));
    refused(&|r| {
        r.table = Kind::ResetAcknowledge.table();
        r.acknowledged = Some(Items::Given(&[]));
    });
    let diagnostics = |d: Diagnostics<'static>| {
        let mut record = Record::new(Kind::ErrorIndication);
        record.diagnostics = Some(d);
        written(&record)
    };
    let none = Diagnostics { code: None, trigger: None, criticality: None, entries: None };
    assert_eq!(diagnostics(none.clone()).unwrap(), "0002400800000100084001".to_string() + "00");
    assert!(diagnostics(Diagnostics { trigger: Some(3), ..none.clone() }).is_err());
    assert!(diagnostics(Diagnostics { criticality: Some(3), ..none.clone() }).is_err());
    assert!(diagnostics(Diagnostics { entries: Some(Entries::Given(&[])), ..none.clone() }).is_err());
    const ENTRY: Entry = Entry { criticality: 2, id: 1, error: 1 };
    assert!(diagnostics(Diagnostics { entries: Some(Entries::Given(&[ENTRY; 256])), ..none.clone() }).is_ok());
    assert!(diagnostics(Diagnostics { entries: Some(Entries::Given(&[ENTRY; 257])), ..none.clone() }).is_err());
    const BAD: [Entry; 2] = [Entry { criticality: 3, ..ENTRY }, Entry { error: 2, ..ENTRY }];
    assert!(diagnostics(Diagnostics { entries: Some(Entries::Given(&BAD[..1])), ..none.clone() }).is_err());
    assert!(diagnostics(Diagnostics { entries: Some(Entries::Given(&BAD[1..])), ..none }).is_err());

    // A carried value of no octets; 8,192 and 8,193 octets in all.
    let octets = [7; 20_000];
    let mut stop = Record::new(Kind::StopRequest);
    (stop.mme, stop.mce) = (Some(1), Some(2));
    for (size, good) in [(0, false), (1, true), (8167, true), (8168, false), (16_384, false), (20_000, false)] {
        stop.carried[2] = Some(&octets[..size]);
        let text = written(&stop);
        assert_eq!(text.is_ok(), good, "{size}");
        if size == 8167 {
            assert_eq!(text.unwrap().len(), 2 * 8192);
        }
    }
}

/// A unit of two associations.
fn two_held() -> Vec<u8> {
    let mut unit = vec![0; UNIT_OCTETS];
    unit[1] = 2;
    unit[2..14].copy_from_slice(&[0, 1, 0, 1, 9, 9, 9, 8, 8, 8, 1, 0]);
    unit[14..26].copy_from_slice(&[0, 2, 0, 2, 9, 9, 9, 8, 8, 8, 0, 0]);
    unit
}

#[test]
fn no_units() {
    let good = two_held();
    // Whatever looks at a unit says the same of octets that are none.
    let answer = |unit: &[u8]| {
        let mut after = unit.to_vec();
        let mut room = [0xa5; 7];
        let done = call(&mut after, &h("00 02 40 03 00 00 00"), 0, &mut room);
        assert_eq!((unit, [0xa5; 7]), (&after[..], room));
        let good = done.answer == 0;
        assert_eq!(row_in(unit, 0).is_some(), good);
        assert_eq!(count_in(unit, Tmgi { plmn: [9; 3], service: [8; 3] }).is_some(), good);
        assert_eq!(marks(unit).is_some(), good);
        let (record, values) = setup_request(Some(b"g"), Some(b"n"), Some(b"a"));
        let set_up = setup(&mut after, &record, &values, &mut room).answer;
        assert_eq!(
            set_up,
            if good && marks(unit).unwrap().open[0] {
                13
            } else if good {
                10
            } else {
                21
            }
        );
        // 21 before 12.
        let (record, values) = setup_request(None, Some(b"@"), None);
        let set_up = setup(&mut after, &record, &values, &mut room).answer;
        assert_eq!((set_up, unit, [0xa5; 7]), (if good { 12 } else { 21 }, &after[..], room));
        done.answer
    };
    assert_eq!(answer(&good), 0);
    for (at, value) in [(0, 1), (1, 3), (1, 1), (24, 2), (25, 1), (15, 1), (17, 1), (26, 1), (TABLE_OCTETS - 1, 1)] {
        let mut unit = good.clone();
        unit[at] = value;
        // A count of 3 names a row of zeros, which is one: identities 0 and 0.
        assert_eq!(answer(&unit), if (at, value) == (1, 3) { 0 } else { 21 }, "{at} {value}");
    }
    // No mark may be set but that of an open request, to 1, on a fresh unit or another.
    for at in TABLE_OCTETS..UNIT_OCTETS {
        for unit in [&good, &vec![0; UNIT_OCTETS]] {
            for value in [1, 2, 3, 128, 129, 255] {
                let mut unit = unit.clone();
                unit[at] = value;
                assert_eq!(answer(&unit), if (at, value) == (OPEN_AT, 1) { 0 } else { 21 }, "{at} {value}");
            }
        }
    }
    assert_eq!(answer(&[0; UNIT_OCTETS]), 0);
    for size in [0, 1, TABLE_OCTETS - 1, TABLE_OCTETS, TABLE_OCTETS + 1, UNIT_OCTETS - 1] {
        assert_eq!(answer(&good[..size]), 21, "{size}");
    }
    let longer = [&good[..], &[0]].concat();
    assert_eq!(answer(&longer), 21);
    // 21 comes before 1.
    assert_eq!(call(&mut [], &[0; 9000], 0, &mut []).answer, 21);
    assert_eq!(call(&mut [0; TABLE_OCTETS], &[0; 9000], 0, &mut []).answer, 21);
    assert_eq!(call(&mut [0; UNIT_OCTETS], &[0; 9000], 0, &mut []).answer, 1);
}

#[test]
fn what_a_unit_holds() {
    let mut unit = two_held();
    let tmgi = Tmgi { plmn: [9; 3], service: [8; 3] };
    let first = Association { mme: 1, mce: 1, tmgi, session: Some(0) };
    let second = Association { mme: 2, mce: 2, tmgi, session: None };
    assert_eq!(row_in(&unit, 0), Some((2, Some(first))));
    assert_eq!(row_in(&unit, 1), Some((2, Some(second))));
    for k in [2, 255, 256, 65536, 1 << 31, u32::MAX] {
        assert_eq!(row_in(&unit, k), Some((2, None)), "{k}");
    }
    assert_eq!(count_in(&unit, tmgi), Some(2));
    for other in [Tmgi { plmn: [9, 9, 8], ..tmgi }, Tmgi { service: [9, 8, 8], ..tmgi }] {
        assert_eq!(count_in(&unit, other), Some(0));
    }
    // Rows that are not held are not counted.
    let fresh = [0; UNIT_OCTETS];
    assert_eq!(count_in(&fresh, Tmgi { plmn: [0; 3], service: [0; 3] }), Some(0));
    assert_eq!(row_in(&fresh, 0), Some((0, None)));
    let marked = Marks { held: [0, 0], open: [false; 2], edition: 18, rooms: 256, next: 0, settings: 0 };
    assert_eq!(marks(&fresh), Some(marked));
    assert_eq!(marks(&unit), Some(Marks { held: [2, 0], ..marked }));
    for (unit, held) in [(&mut unit[..], 2), (&mut [0; UNIT_OCTETS], 0)] {
        unit[OPEN_AT] = 1;
        assert_eq!(marks(unit), Some(Marks { held: [held, 0], open: [true, false], ..marked }));
        assert_eq!(row_in(unit, 0).unwrap().0, held);
    }
}

/// A SETUP REQUEST with this value of its name.
fn named(value: &[u8]) -> Vec<u8> {
    let elements = [&h("0012 00 01 aa 0013 40")[..], &length(value.len()), value, &h("0014 00 01 aa")].concat();
    [&h("00 07 00")[..], &length(3 + elements.len()), &h("00 00 03"), &elements].concat()
}

fn length(n: usize) -> Vec<u8> {
    if n < 128 {
        vec![n as u8]
    } else {
        vec![128 + (n / 256) as u8, (n % 256) as u8]
    }
}

#[test]
fn names() {
    let allowed = "abcdefghijklmnopqrstuvwxyzABCDEFGHIJKLMNOPQRSTUVWXYZ0123456789 '()+,-./:=?";
    assert_eq!(allowed.len(), 74);
    // Each character, alone and as the last of 150; read where it is written, refused where it is not.
    for c in 0..=255u8 {
        let good = allowed.as_bytes().contains(&c);
        for n in [1, 2, 150] {
            let mut name = vec![b'x'; n];
            name[n - 1] = c;
            let (record, values) = setup_request(Some(&[0xaa]), Some(&name), Some(&[0xaa]));
            let mut room = [0; 400];
            let done = write_record(&record, &values, &mut room);
            assert_eq!(done.answer, if good { 0 } else { 12 }, "{c} {n}");
            let length = ((n as u16 - 1) << 7).to_be_bytes();
            let request = named(&[&length, &name[..]].concat());
            let front = request.len() - 5 - n;
            if good {
                assert_eq!(room[..done.reply], request);
                let part = Part { of_label: false, from: front, octets: n };
                assert_eq!(shown(&request, b"label"), part);
            } else {
                assert_eq!(read_verdict(&request), format!("answer=2 offset={}", front + n - 1));
                assert!(shown(&request, b"label").of_label);
            }
        }
    }
    // The length less 1: 0 to 149, each with as many characters; beside fewer and more.
    for said in 0..256usize {
        for n in [said, said + 1, said + 2] {
            let value = [&((said as u16) << 7).to_be_bytes(), &vec![b'x'; n][..]].concat();
            let request = named(&value);
            let at = request.len() - 5 - value.len();
            let wanted = match n as i32 - said as i32 {
                _ if said > 149 => format!("answer=2 offset={at}"),
                0 => format!("answer=2 offset={at}"),
                1 => format!("answer=0 SetupRequest frame=0 18:aa 19:{} 20:aa noted=[]", "78".repeat(n)),
                _ => format!("answer=2 offset={}", at + 3 + said),
            };
            assert_eq!(read_verdict(&request), wanted, "{said} {n}");
        }
    }
    // Cut in its length; pad; the extension bit first, a length that reaches past before the pad, this before a
    // character.
    let fault = |value: &str| {
        let request = named(&h(value));
        let at = request.len() - 5 - h(value).len();
        read_verdict(&request).replace(&format!("offset={at}"), "0").replace(&format!("offset={}", at + 1), "1")
    };
    for (value, wanted) in [
        ("00", "answer=2 0"),
        ("80", "answer=3 0"),
        ("ff ff", "answer=3 0"),
        ("7f ff", "answer=2 0"),
        ("00 01 41", "answer=2 1"),
        ("00 40 41", "answer=2 1"),
        ("00 01", "answer=2 0"),
        ("00 81 41", "answer=2 0"),
        ("00 01 40", "answer=2 1"),
        ("00 00", "answer=2 0"),
    ] {
        assert_eq!(fault(value), wanted, "{value}");
    }
}

#[test]
fn waits() {
    let failure = |value: &str| [&h("40 07 00 0d 00 00 02 00 09 40 01 42 00 0c 40 01")[..], &h(value)].concat();
    for b in 0..=255u8 {
        let message = failure(&hex(&[b]));
        let mut unit = [0; UNIT_OCTETS];
        assert_eq!(call(&mut unit, &message, 0, &mut []).answer, 14);
        unit[OPEN_AT] = 1;
        let done = call(&mut unit, &message, 0, &mut []);
        let seconds = [1, 2, 5, 10, 20, 60].get(b as usize / 16).filter(|_| b % 16 == 0);
        let (answer, offset) = match (seconds, b) {
            (Some(_), _) => (0, 0),
            (None, 128..) => (3, 16),
            _ => (2, 16),
        };
        let wait = seconds.copied().unwrap_or(0);
        assert_eq!(done, Done { answer, offset, reply: 0, wait }, "{b}");
        assert_eq!(unit[OPEN_AT], (answer != 0) as u8);
    }
    let mut record = Record::new(Kind::SetupFailure);
    record.cause = Some(Cause { group: 4, number: 2 });
    for n in 0..=255 {
        record.wait = Some(n);
        let wanted = if n < 6 { Ok(hex(&failure(&format!("{n}0")))) } else { Err(Refused::Record) };
        assert_eq!(written(&record), wanted);
    }
}

#[test]
fn setups() {
    let (good, values) = setup_request(Some(b"global"), Some(b"name"), Some(b"areas"));
    let (misnamed, bad_values) = setup_request(Some(b"global"), Some(b"n@me"), Some(b"areas"));
    let fresh = vec![0; UNIT_OCTETS];
    let mut open = two_held();
    open[OPEN_AT] = 1;
    // On a fresh unit, and on one that has a request open; what is written alone.
    let answers = |record: &[u8], values: &[u8], size: usize| {
        let answer = |unit: &[u8]| {
            let (mut after, mut room) = (unit.to_vec(), vec![0xa5; size]);
            let done = setup(&mut after, record, values, &mut room);
            assert_eq!((done.offset, done.wait), (0, 0));
            if done.answer == 0 {
                assert_eq!(done.reply, size);
                assert_eq!((after[OPEN_AT], unit[OPEN_AT]), (1, 0));
                after[OPEN_AT] = 0;
            } else {
                assert_eq!((done.reply, room), (0, vec![0xa5; size]));
            }
            assert_eq!(after, unit);
            done.answer
        };
        let mut room = vec![0xa5; size];
        let done = write_record(record, values, &mut room);
        assert!(done.answer == 0 || room.iter().all(|&b| b == 0xa5));
        [answer(&fresh), answer(&open), done.answer]
    };
    let size = 3 + 1 + 3 + 4 + 6 + 4 + 6 + 4 + 5;
    assert_eq!(answers(&good, &values, size), [0, 13, 0]);
    assert_eq!(answers(&good, &values, size - 1), [10, 13, 10]);
    assert_eq!(answers(&misnamed, &bad_values, size), [12; 3]);
    assert_eq!(answers(&misnamed, &bad_values, 0), [12; 3]);
    let changed = |record: &[u8], at: usize, value: u8| {
        let mut record = record.to_vec();
        record[at] = value;
        record
    };
    // A record that is refused with 11 has its name looked at first: a value that is absent or lies outside, a
    // criticality over 2.
    for (at, value) in [(3, 255), (20, 255), (1, 3), (1, 255)] {
        assert_eq!(answers(&changed(&good, at, value), &values, size), [11, 13, 11], "{at}");
        assert_eq!(answers(&changed(&misnamed, at, value), &bad_values, size), [12; 3], "{at}");
    }
    for row in [0, 2] {
        let absent = |record: &[u8]| {
            let mut record = record.to_vec();
            record[2 + 8 * row..10 + 8 * row].fill(0);
            record
        };
        assert_eq!(answers(&absent(&good), &values, size), [11, 13, 11]);
        assert_eq!(answers(&absent(&misnamed), &bad_values, size), [12; 3]);
    }
    // A name that lies outside the values is one of no octets.
    for (at, value) in [(11, 1), (12, 15), (13, 1), (14, 10), (14, 0)] {
        assert_eq!(answers(&changed(&good, at, value), &values, size), [12; 3], "{at}");
    }
    // Octets that are no record have no name.
    let mut none: Vec<Vec<u8>> = [&good, &misnamed].iter().map(|r| [&r[..], &[0]].concat()).collect();
    none.extend([&good, &misnamed].iter().map(|r| r[..RECORD_OCTETS - 1].to_vec()));
    none.push(vec![]);
    for (at, value) in
        [(0, 0), (0, 12), (0, 255), (2, 2), (7, 1), (10, 2), (15, 1), (17, 1), (18, 3), (23, 1), (26, 1), (97, 1)]
    {
        none.extend([changed(&good, at, value), changed(&misnamed, at, value)]);
    }
    for at in [98, 99, 100, 1635, 1636, 1637, 1638, RECORD_OCTETS - 1] {
        none.extend([changed(&good, at, 1), changed(&misnamed, at, 1)]);
    }
    for record in &none {
        assert_eq!(answers(record, &values, size), [11, 13, 11]);
        assert_eq!(answers(record, &bad_values, 0), [11, 13, 11]);
    }
    // Records of other messages, which are written.
    for message in [RESET_1_2, ACKNOWLEDGE_1_2, "20 07 00 03 00 00 00", "40 07 00 08 00 00 01 00 09 40 01 42"] {
        let message = h(message);
        let mut record = vec![0; RECORD_OCTETS];
        assert_eq!(read_record(&message, &mut record).answer, 0);
        assert_eq!(answers(&record, &message, message.len()), [11, 13, 0]);
    }
    // 8,192 and 8,193 octets in all.
    for (areas, answer) in [(8174, 0), (8175, 11), (16_384, 11), (60_000, 11)] {
        let (record, values) = setup_request(Some(&[0xaa]), None, Some(&vec![0; areas]));
        assert_eq!(answers(&record, &values, 8192), [answer, 13, answer]);
    }
    // A record has room, or 10 takes the place of 0 and 5.
    for (message, answer) in [("20 07 00 03 00 00 00", 0), ("00 04 00 03 00 00 00", 5)] {
        let mut room = [0xa5; RECORD_OCTETS + 1];
        let done = read_record(&h(message), &mut room);
        assert_eq!((done.answer, done.reply, room[RECORD_OCTETS]), (answer, RECORD_OCTETS, 0xa5));
        let mut room = [0xa5; RECORD_OCTETS - 1];
        let done = read_record(&h(message), &mut room);
        assert_eq!((done.answer, done.reply, room), (10, 0, [0xa5; RECORD_OCTETS - 1]));
    }
}

/// A response to two held associations, an open request and any room.
#[test]
fn outcomes() {
    let response = h("20 07 00 03 00 00 00");
    let mut open = two_held();
    open[OPEN_AT] = 1;
    let run = |message: &[u8], room: usize| {
        let (mut unit, mut lend) = (open.clone(), vec![0xa5; room]);
        let done = call(&mut unit, message, 9, &mut lend);
        assert!(lend[done.reply..].iter().all(|&b| b == 0xa5));
        (done.answer, done.reply, unit)
    };
    for room in [0, 8192] {
        assert_eq!(run(&response, room), (0, 0, vec![0; UNIT_OCTETS]));
        assert_eq!(run(&h("40 07 00 03 00 00 00"), room), (0, 0, two_held()));
    }
    // A criticality in the frame other than the procedure's is not looked at.
    assert_eq!(run(&h("20 07 80 03 00 00 00"), 0).0, 0);
    // 5: what is replied needs room, and nothing else changes.
    let rejected = octets_of("20 07 00 08 00 00 01 00 63 00 01 ff").unwrap();
    assert_eq!(run(&rejected, 24), (5, 24, open.clone()));
    assert_eq!(run(&rejected, 23), (10, 0, open.clone()));
    // Without the mark: 14, before faults inside; the frame's before it.
    let mut unit = two_held();
    for (message, answer) in
        [("20 07 00 01 80", 14), ("40 07 00 01 ff", 14), ("00 07 00 01 80", 4), ("20 07 00 00", 2), ("60 07", 2)]
    {
        assert_eq!(call(&mut unit, &h(message), 0, &mut []).answer, answer, "{message}");
    }
    assert_eq!(unit, two_held());
    // A request that is open stays so, whatever else comes.
    for message in [RESET_1_2, "00 04 00 08 00 00 01 00 0d 00 01 00", "00 02 40 03 00 00 00", "20 04 00 03 00 00 00"] {
        assert_eq!(run(&h(message), 8192).2[OPEN_AT], 1);
    }
}

#[test]
fn labels() {
    for n in [0, 1, 149, 150, 151, 8193] {
        let label = vec![0xff; n];
        let part = Part { of_label: true, from: 0, octets: n.min(150) };
        // No message; not read; another message; without a name; not accepted: an element repeated, one missing,
        // one not understood.
        for request in [
            "",
            "00 07 00 16 00 00 03 00 12 00 01 aa 00 13 40 05 01 00 41 42 40 00 14 00 01 aa",
            "20 07 00 03 00 00 00",
            "00 07 00 0d 00 00 02 00 12 00 01 aa 00 14 00 01 aa",
            "00 07 00 1a 00 00 04 00 12 00 01 aa 00 13 40 04 00 80 41 42 00 14 00 01 aa 00 14 00 01 aa",
            "00 07 00 10 00 00 02 00 12 00 01 aa 00 13 40 04 00 80 41 42",
            "00 07 00 1a 00 00 04 00 12 00 01 aa 00 13 40 04 00 80 41 42 00 14 00 01 aa 00 63 00 01 aa",
        ] {
            assert_eq!(shown(&h(request), &label), part, "{request}");
        }
        // An unknown element that is dropped, and another criticality than the table's, are no matter.
        let request = h("00 07 40 1a 00 00 04 00 63 80 01 aa 00 12 40 01 aa 00 13 00 04 00 80 41 42 00 14 00 01 aa");
        assert_eq!(shown(&request, &label), Part { of_label: false, from: 23, octets: 2 });
        assert_eq!(&request[23..25], b"AB");
    }
}

#[test]
fn captures() {
    let play = |input: &[u8]| {
        let mut text = String::new();
        capture(input, &mut text);
        text.replace('\n', " ")
    };
    let entry = |offered: u16, message: &[u8]| {
        [&offered.to_be_bytes()[..], &(message.len() as u16).to_be_bytes(), message].concat()
    };
    let reset = entry(0, &h(RESET_1_2));
    assert_eq!(play(&reset), "message=1 answer=0 reply=21 held=0 messages=1 cut=0 ");
    assert_eq!(play(&[]), "messages=0 cut=0 ");
    for n in 1..reset.len() {
        assert_eq!(play(&reset[..n]), "messages=0 cut=1 ");
    }
    let long = entry(0, &[0; 8193]);
    let two = [&long[..], &entry(0, &[]), &reset].concat();
    assert_eq!(
        play(&two),
        "message=1 answer=1 reply=0 held=0 message=2 answer=2 reply=0 held=0 \
         message=3 answer=0 reply=21 held=0 messages=3 cut=0 "
    );
    assert_eq!(play(&long[..8000]), "messages=0 cut=1 ");
    // Nothing opens a setup request in a capture.
    let setups =
        ["20 07 00 03 00 00 00", "40 07 00 08 00 00 01 00 09 40 01 42", "00 07 00 01 00"].map(|m| entry(0, &h(m)));
    let answers: Vec<String> =
        play(&setups.concat()).split(' ').filter(|l| l.starts_with("answer")).map(String::from).collect();
    assert_eq!(answers, ["answer=14", "answer=14", "answer=4"]);
}

/// Stop-Warning Request with these elements behind Message Identifier 1 and Serial Number 2, and a container of these
/// extensions if there are any.
fn stop_warning(elements: &[Vec<u8>], extensions: &[Vec<u8>]) -> Vec<u8> {
    let mut inside = vec![if extensions.is_empty() { 0 } else { 0x40 }];
    inside.extend((elements.len() as u16 + 2).to_be_bytes());
    inside.extend(h("0005 00 02 0001 000b 00 02 0002"));
    inside.extend(elements.concat());
    if !extensions.is_empty() {
        inside.extend((extensions.len() as u16 - 1).to_be_bytes());
        inside.extend(extensions.concat());
    }
    [&h("00 01 00")[..], &length(inside.len()), &inside].concat()
}

fn element(id: u16, criticality: u8, value: &[u8]) -> Vec<u8> {
    [&id.to_be_bytes()[..], &[criticality << 6], &length(value.len()), value].concat()
}

const READ: &str = "answer=0 StopWarningRequest frame=0 5:0001 11:0002";
const REJECTED: &str = "answer=5 StopWarningRequest frame=0 5:0001 11:0002";

#[test]
fn containers() {
    let both = |message: &[u8]| [&SBCAP, &SBCAP_LAB].map(|profile| read_verdict_by(profile, message));
    // Each criticality, alone and behind one that is listed; ids of the table, of none, and the largest.
    for id in [0, 5, 11, 14, 27, 28, 99, 65535] {
        for (criticality, alone, behind) in [
            (REJECT, format!("{REJECTED} noted=[0.{id}.0] cause=3.1 place=-"), format!(",0.{id}.0] cause=3.1 place=-")),
            (IGNORE, format!("{READ} noted=[]"), "]".into()),
            (NOTIFY, format!("{READ} noted=[2.{id}.0]"), format!(",2.{id}.0]")),
        ] {
            let extension = element(id, criticality, &[0xaa]);
            let read = both(&stop_warning(&[], from_ref(&extension)));
            assert_eq!(read, [alone.clone(), alone]);
            for first in [element(98, NOTIFY, &[0xaa; 127]), element(98, NOTIFY, &[0xaa; 128])] {
                let front = if criticality == REJECT { REJECTED } else { READ };
                let wanted = format!("{front} noted=[2.98.0{behind}");
                // An unknown element in front, or another extension.
                let read = both(&stop_warning(from_ref(&first), from_ref(&extension)));
                assert_eq!(read, [wanted.clone(), wanted.clone()]);
                let read = both(&stop_warning(&[], &[first, extension.clone()]));
                assert_eq!(read, [wanted.clone(), wanted]);
            }
        }
    }
    // The first 256 are listed; what falls off the end still rejects.
    for (unknown, beside) in [(255, 1), (256, 1), (0, 257), (100, 200)] {
        let elements = vec![element(99, NOTIFY, &[1]); unknown];
        let mut extensions = vec![element(98, NOTIFY, &[1]); beside];
        extensions[beside - 1] = element(97, REJECT, &[1]);
        let message = stop_warning(&elements, &extensions);
        let Read::Message(reading) = SBCAP.read(&message) else { panic!() };
        let ids: Vec<u16> = reading.noted.clone().map(|entry| entry.id).collect();
        let mut wanted = vec![99; unknown];
        wanted.extend(vec![98; beside - 1]);
        wanted.push(97);
        wanted.truncate(256);
        assert_eq!((reading.noted.len(), ids), (wanted.len(), wanted));
        assert_eq!(reading.rejected, Some(Rejection { cause: SYNTAX_REJECT, place: None }));
    }
    // Cut anywhere behind the opening, the frame's length with it: never read.
    let whole = stop_warning(&[], &[element(99, IGNORE, &[1, 2]), element(98, IGNORE, &[3])]);
    assert_eq!(both(&whole), [format!("{READ} noted=[]"), format!("{READ} noted=[]")]);
    let at = whole.len() - 6 - 5 - 2;
    for size in 5..whole.len() {
        let mut cut = whole[..size].to_vec();
        cut[3] = size as u8 - 4;
        let read = read_verdict_by(&SBCAP, &cut);
        assert!(read.starts_with("answer=2 "), "{size}: {read}");
        // In the container: a number, an id, a criticality or a length faults where it begins, a value at its length.
        if let Some(there) = size.checked_sub(at) {
            let begins = [0, 0, 2, 2, 4, 5, 5, 5, 8, 8, 10, 11, 11];
            assert_eq!(read, format!("answer=2 offset={}", at + begins[there]), "{size}");
        }
    }
    // Octets left over; a number of 65,535 less 1, which is one, and of 65,536, which is none.
    let mut left = [&whole[..], &[0]].concat();
    left[3] += 1;
    assert_eq!(read_verdict_by(&SBCAP, &left), format!("answer=2 offset={}", whole.len()));
    for (last, place) in [(0xfffe, whole.len()), (0xffff, at)] {
        let mut many = whole.clone();
        many[at..at + 2].copy_from_slice(&(last as u16).to_be_bytes());
        assert_eq!(read_verdict_by(&SBCAP, &many), format!("answer=2 offset={place}"));
    }
    // The bit without a container, and a container without the bit. In M3AP and in Error Indication the bit is pad.
    for (message, wanted) in [
        ("00 01 00 03 40 00 00", "answer=2 offset=7"),
        ("00 01 00 0a 00 00 00 00 00 00 63 40 01 aa", "answer=2 offset=7"),
        ("20 01 00 03 c0 00 00", "answer=3 offset=4"),
        ("00 01 00 03 20 00 00", "answer=2 offset=4"),
        ("00 02 40 03 40 00 00", "answer=2 offset=4"),
    ] {
        assert_eq!(both(&h(message)), [wanted, wanted], "{message}");
        assert!(read_verdict(&h(message)).starts_with("answer=2 ") || message.contains("c0"));
    }
    // What a container adds does not come back: what is written is the message without it.
    let mut record = [0; RECORD_OCTETS];
    let mut room = [0; 100];
    assert_eq!(SBCAP.read_record(&whole, &mut record).answer, 0);
    let done = SBCAP.write_record(&record, &whole, &mut room);
    assert_eq!(room[..done.reply], stop_warning(&[], &[]));
}

#[test]
fn warnings_in_order() {
    let answer = |message: &[u8]| {
        let mut answers = Vec::new();
        for profile in [&SBCAP, &SBCAP_LAB] {
            for size in [0, RECORD_OCTETS - 1, RECORD_OCTETS, RECORD_OCTETS + 1] {
                let mut room = vec![0xa5; size];
                let done = profile.read_record(message, &mut room);
                assert!(room[done.reply..].iter().all(|&b| b == 0xa5));
                assert_eq!(done.reply, if matches!(done.answer, 0 | 5) { RECORD_OCTETS } else { 0 });
                answers.push((done.answer, done.offset));
            }
        }
        answers
    };
    // Not before 5, and for nothing else: 10 in the place of 0 and 5.
    let good = stop_warning(&[], &[]);
    let rejected = stop_warning(&[element(99, REJECT, &[1])], &[]);
    for (message, n) in [(&good, 0), (&rejected, 5)] {
        assert_eq!(answer(message), [(10, 0), (10, 0), (n, 0), (n, 0)].repeat(2));
    }
    // 1; the frame; 4; inside, the first again; 5.
    let long = [&good[..], &vec![0; 9000]].concat();
    for (message, wanted) in [
        (long, (1, 0)),
        (vec![], (2, 0)),
        (h("a0 00 00 01 80 00"), (3, 0)),
        (h("00 00 00 01 80 00"), (2, 5)),
        (h("00 00 00 01 80"), (4, 0)),
        (h("00 01 00 01 80"), (3, 4)),
        (h("00 01 00 08 00 00 01 00 63 00 02 00"), (2, 10)),
    ] {
        assert_eq!(answer(&message), vec![wanted; 8], "{}", hex(&message[..message.len().min(20)]));
    }
    // All procedures and kinds: three messages.
    for first in [0, 0x20, 0x40] {
        for procedure in 0..=255 {
            let message = [first, procedure, 0, 1, 0x80];
            let ours = matches!((first, procedure), (0, 1 | 2) | (0x20, 1));
            assert_eq!(answer(&message), vec![if ours { (3, 4) } else { (4, 0) }; 8], "{first} {procedure}");
        }
    }
    // 8,192 and 8,193 octets in all, by a carried value and by an extension.
    for (size, n) in [(8167, 0), (8168, 1)] {
        let message = stop_warning(&[element(15, IGNORE, &vec![1; size])], &[]);
        assert_eq!((message.len(), answer(&message)[3].0), (8192 + n as usize, n));
        let message = stop_warning(&[], &[element(15, IGNORE, &vec![1; size - 2])]);
        assert_eq!((message.len(), answer(&message)[3].0), (8192 + n as usize, n));
    }
}

#[test]
fn warning_records() {
    let read = |message: &[u8]| {
        let mut record = vec![0xa5; RECORD_OCTETS];
        assert_eq!(SBCAP.read_record(message, &mut record).answer, 0);
        record
    };
    let written = |profile: &Profile, record: &[u8], values: &[u8]| {
        let mut room = vec![0xa5; 8192];
        let done = profile.write_record(record, values, &mut room);
        assert!(room[done.reply..].iter().all(|&b| b == 0xa5));
        // Another answer than 10 does not look at the room.
        let small = profile.write_record(record, values, &mut []).answer;
        assert_eq!(small, if done.answer == 0 { 10 } else { done.answer });
        (done.answer, room[..done.reply].to_vec())
    };
    let both = |record: &[u8], values: &[u8]| [&SBCAP, &SBCAP_LAB].map(|profile| written(profile, record, values).0);
    let changed = |record: &[u8], at: usize, value: u8| {
        let mut record = record.to_vec();
        record[at] = value;
        record
    };
    let request = stop_warning(&[], &[]);
    let response =
        h("20 01 00 1e 00 00 05 00 05 00 02 00 01 00 0b 00 02 00 02 00 01 00 01 ff 00 02 40 01 23 00 16 40 01 aa");
    let indication = h("00 02 40 0d 00 00 02 00 01 40 01 12 00 02 40 01 00");
    for (number, message) in [(1, &request), (2, &response), (3, &indication)] {
        let record = read(message);
        assert_eq!(record[0], number);
        for profile in [&SBCAP, &SBCAP_LAB] {
            assert_eq!(written(profile, &record, message), (0, message.clone()));
        }
        // Items, which no slot announces; entries likewise; no message; no criticality; another size.
        for (at, value) in [(98, 1), (99, 1), (100, 1), (1635, 1), (1636, 1), (1637, 1), (1638, 1), (2661, 1)] {
            assert_eq!(both(&changed(&record, at, value), message), [11, 11], "{number} {at}");
        }
        for value in [0].into_iter().chain(4..=255) {
            assert_eq!(both(&changed(&record, 0, value), message), [11, 11], "{number} {value}");
        }
        for value in 0..=255 {
            let wanted = if value < 3 { 0 } else { 11 };
            assert_eq!(both(&changed(&record, 1, value), message), [wanted; 2], "{number} {value}");
        }
        let longer = [&record[..], &[0]].concat();
        for record in [&record[..RECORD_OCTETS - 1], &longer, &[]] {
            assert_eq!(both(record, message), [11, 11]);
        }
    }
    // A flag, octets behind a value; what is mandatory.
    let record = read(&request);
    for (at, value) in [(2, 2), (5, 1), (9, 1), (10, 2), (13, 1), (2, 0), (10, 0)] {
        assert_eq!(both(&changed(&record, at, value), &request), [11, 11], "{at}");
    }
    for slot in [0, 1] {
        let mut absent = record.clone();
        absent[2 + 8 * slot..10 + 8 * slot].fill(0);
        assert_eq!(both(&absent, &request), [11, 11]);
    }
    // Carried values: the lab profile has none of a request; of no octets, or outside of the values.
    for slot in 2..7 {
        let at = 2 + 8 * slot;
        let mut carried = record.clone();
        carried[at..at + 5].copy_from_slice(&[1, 0, 4, 0, 3]);
        assert_eq!(both(&carried, &request), [0, 11]);
        for (at, value) in [(at + 4, 0), (at + 1, 255), (at + 2, 17), (at + 3, 32), (at + 5, 1), (at, 2)] {
            assert_eq!(both(&changed(&carried, at, value), &request), [11, 11], "{slot} {at}");
        }
        for at in at..at + 8 {
            assert_eq!(both(&changed(&record, at, 1), &request)[1], 11);
        }
    }
    // No row behind the last.
    for at in 2 + 8 * 7..98 {
        assert_eq!(both(&changed(&record, at, 1), &request), [11, 11]);
    }
    // Cause is any number; the triggering message is 0 to 3, the criticality 0 to 2.
    let record = read(&response);
    let cause = 2 + 8 * 2 + 1;
    let (trigger, criticality) = (2 + 8 * 3 + 4, 2 + 8 * 3 + 6);
    for value in 0..=255 {
        let (answer, message) = written(&SBCAP, &changed(&record, cause, value), &response);
        assert_eq!((answer, message[23]), (0, value));
        let wanted = if value < 4 { 0 } else { 11 };
        assert_eq!(both(&changed(&record, trigger, value), &response), [wanted; 2], "{value}");
        let with = changed(&record, criticality - 1, 1);
        let wanted = if value < 3 { 0 } else { 11 };
        assert_eq!(both(&changed(&with, criticality, value), &response), [wanted; 2], "{value}");
    }
    // What C is handed over, octet by octet: a request with a carried value, and a response.
    let carried = stop_warning(&[element(19, IGNORE, &[7; 3])], &[]);
    let mut wanted = h("01 00 01 0001 0000000000 01 0002 0000000000");
    wanted.resize(2 + 8 * 4, 0);
    wanted.extend(h("01 0017 0003 000000"));
    wanted.resize(RECORD_OCTETS, 0);
    assert_eq!(read(&carried), wanted);
    let mut wanted =
        h("02 00 01 0001 0000000000 01 0002 0000000000 01 ff 000000000000 01 0000 0103 0000 00 01 0021 0001 000000");
    wanted.resize(RECORD_OCTETS, 0);
    assert_eq!(read(&response), wanted);
}
