//! The messages that are measured, encoded by hand.

fn length(n: usize) -> Vec<u8> {
    if n < 128 { vec![n as u8] } else { vec![0x80 | (n >> 8) as u8, n as u8] }
}

fn element(id: u16, crit: u8, value: &[u8]) -> Vec<u8> {
    [&id.to_be_bytes()[..], &[crit << 6], &length(value.len()), value].concat()
}

fn message(choice: u8, code: u8, elements: &[Vec<u8>]) -> Vec<u8> {
    let inside = [&[0][..], &(elements.len() as u16).to_be_bytes(), &elements.concat()].concat();
    [&[choice << 5, code, 0][..], &length(inside.len()), &inside].concat()
}

/// Some 150 octets, carried values as long as in practice.
pub fn start(mme: u16) -> Vec<u8> {
    let mut e = vec![element(0, 0, &mme.to_be_bytes()), element(2, 0, &[0, 1, 2, 3, 4, 5, 6])];
    e.extend([(4, 9), (5, 3), (6, 40), (16, 2), (7, 18), (21, 8), (25, 20)].map(|(id, n)| element(id, u8::from(id == 21), &vec![7; n])));
    message(0, 0, &e)
}

pub fn stop(mme: u16, mce: u16) -> Vec<u8> {
    message(0, 1, &[element(0, 0, &mme.to_be_bytes()), element(1, 0, &mce.to_be_bytes())])
}

fn items(items: &[(u16, u16)], crit: u8) -> Vec<u8> {
    let list: Vec<Vec<u8>> = items.iter().map(|&(m, c)| element(14, crit, &[&[0x60][..], &m.to_be_bytes(), &c.to_be_bytes()].concat())).collect();
    [&[(items.len() - 1) as u8][..], &list.concat()].concat()
}

pub fn reset(list: &[(u16, u16)]) -> Vec<u8> {
    message(0, 4, &[element(9, 1, &[0x42]), element(13, 0, &[&[0x40][..], &items(list, 0)].concat())])
}

pub fn acknowledge(list: &[(u16, u16)]) -> Vec<u8> {
    message(1, 4, &[element(15, 1, &items(list, 1))])
}

/// M3 SETUP REQUEST with a name of 1 to 125 characters.
pub fn set_up(name: &[u8]) -> Vec<u8> {
    let name = [&((name.len() as u16 - 1) << 7).to_be_bytes(), name].concat();
    message(0, 7, &[element(18, 0, &[0, 1, 2, 3, 0xaa, 0xbb]), element(19, 1, &name), element(20, 0, &[1, 0, 1])])
}

/// M3 SETUP FAILURE with Time to Wait.
pub fn set_up_failed() -> Vec<u8> {
    message(2, 7, &[element(9, 1, &[0x42]), element(12, 1, &[0x20])])
}

/// Stop-Warning Request of SBc-AP, with a list of three tracking areas and the ids of an operation centre.
pub fn stop_warning() -> Vec<u8> {
    message(0, 1, &[element(5, 0, &[0x11, 0x12]), element(11, 0, &[0x40, 1]), element(14, 0, &[7; 20]), element(19, 1, &[7; 9])])
}

/// Stop-Warning Response of SBc-AP, with diagnostics of all parts and two entries.
pub fn stop_warning_answered() -> Vec<u8> {
    let diagnostics = [0x78, 1, 0x40, 1, 0x20, 0, 99, 0x08, 0, 100, 0];
    message(1, 1, &[element(5, 0, &[0x11, 0x12]), element(11, 0, &[0x40, 1]), element(1, 0, &[0]), element(2, 1, &diagnostics)])
}

/// The k-th association's identities.
pub fn identities(k: u16) -> (u16, u16) {
    (k.wrapping_mul(257), 65535 - k)
}

/// Series of identities that a peer may choose, so that a table that goes by their low bits would be slow: the number of alike bits, or a plain order.
pub const CHOSEN: [(&str, fn(u16) -> u16); 5] = [
    ("alike in their low 8 bits", |k| k.wrapping_mul(256)),
    ("alike in their low 9 bits", |k| k.wrapping_mul(512).wrapping_add(k / 128)),
    ("alike in their low 10 bits", |k| k.wrapping_mul(1024).wrapping_add(k / 64)),
    ("in a row", |k| k),
    ("in a row, reversed", |k| 65535 - k),
];

/// Offers and messages of an evening: starts, stops, resets of one or three pairs, seldom a reset of all. Some 60 associations are held, and half of the entries are carried out.
pub fn evening(entries: usize) -> Vec<(u16, Vec<u8>)> {
    let mut rng = second::make::Rng::new(1);
    let mut all = Vec::new();
    while all.len() < entries {
        let (a, b) = (rng.below(240) as u16, rng.below(240) as u16);
        // Mostly one pair for each identity, so that stops and resets find what was started.
        let pair = if rng.percent(80) { (a, 2 * a) } else { (a, b) };
        all.push(match rng.below(200) {
            0..=104 => (pair.1, start(pair.0)),
            105..=185 => (0, stop(pair.0, pair.1)),
            186..=192 => (0, reset(&[pair, (b, a), (b, 2 * b)])),
            193..=198 => (0, reset(&[pair])),
            _ => (0, message(0, 4, &[element(9, 1, &[0x42]), element(13, 0, &[0])])),
        });
    }
    all
}

#[cfg(test)]
mod tests {
    use super::*;

    #[test]
    fn a_warning_is_stopped() {
        let read = |message: &[u8]| second::text::read_verdict_by(&second::SBCAP, message);
        let request = format!("answer=0 StopWarningRequest frame=0 5:1112 11:4001 14:{} 19:{} noted=[]", "07".repeat(20), "07".repeat(9));
        assert_eq!(read(&stop_warning()), request);
        let response = "answer=0 StopWarningResponse frame=0 5:1112 11:4001 1:0 2:{1,1,0,[2.99.0,2.100.0]} noted=[]";
        assert_eq!(read(&stop_warning_answered()), response);
    }

    #[test]
    fn an_evening_is_mostly_carried_out() {
        let mut unit = [0; second::UNIT_OCTETS];
        let (mut answers, mut held) = ([0; 22], 0);
        for (offered, message) in evening(2000) {
            answers[second::call(&mut unit, &message, offered, &mut [0; second::LIMIT]).answer as usize] += 1;
            held += u16::from_be_bytes([unit[0], unit[1]]) as usize;
        }
        assert!(answers[0] > 1000, "{answers:?}");
        assert!((30..150).contains(&(held / 2000)), "{}", held / 2000);
    }

    #[test]
    fn a_setup_fails() {
        let (mut unit, mut record, mut room) = ([0; second::UNIT_OCTETS], [0; second::layout::RECORD_OCTETS], [0; second::LIMIT]);
        let request = set_up(b"North Hall, plate 7");
        assert_eq!(second::layout::read_record(&request, &mut record).answer, 0);
        assert_eq!(second::setup(&mut unit, &record, &request, &mut room).reply, request.len());
        assert_eq!(room[..request.len()], request);
        assert_eq!(second::call(&mut unit, &set_up_failed(), 0, &mut room).wait, 5);
    }
}
