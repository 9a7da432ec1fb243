//! The calls of `include/m3ap.h` and `include/sbcap.h`, in the archive `libm3ap.a`.

#[repr(C)]
#[derive(Clone, Copy, PartialEq, Eq, Debug)]
pub struct Answer {
    pub answer: u32,
    pub place: u32,
    pub octets: u32,
    pub bit: u16,
    pub wait: u16,
}

/// `of_label` is 0 for a part of the request, 1 for one of the label.
#[repr(C)]
#[derive(Clone, Copy, PartialEq, Eq, Debug)]
pub struct Part {
    pub of_label: u32,
    pub from: u32,
    pub octets: u32,
}

#[repr(C)]
#[derive(Clone, Copy, PartialEq, Eq, Debug, Default)]
pub struct Tmgi {
    pub plmn: [u8; 3],
    pub service: [u8; 3],
}

/// `has_session` is a C `bool`; an octet here, so that any octet can be looked at.
#[repr(C)]
#[derive(Clone, Copy, PartialEq, Eq, Debug, Default)]
pub struct Association {
    pub mme: u16,
    pub mce: u16,
    pub tmgi: Tmgi,
    pub has_session: u8,
    pub session: u8,
    pub link: u8,
}

#[repr(C)]
#[derive(Clone, Copy, PartialEq, Eq, Debug, Default)]
pub struct Row {
    pub answer: u32,
    pub held: u32,
    pub association: Association,
}

#[repr(C)]
#[derive(Clone, Copy, PartialEq, Eq, Debug)]
pub struct Counted {
    pub answer: u16,
    pub count: usize,
}

#[repr(C)]
#[derive(Clone, Copy, PartialEq, Eq, Debug, Default)]
pub struct Marks {
    pub answer: u32,
    pub held: u32,
    pub held_1: u32,
    pub open: u32,
    pub open_1: u32,
    pub edition: u32,
    pub rooms: u32,
    pub next: u32,
    pub settings: u32,
}

extern "C" {
    fn m3ap_call(unit: *mut u8, unit_len: usize, message: *const u8, message_len: usize, offered: u16, room: *mut u8, room_len: usize) -> Answer;
    fn m3ap_read(message: *const u8, message_len: usize, record: *mut u8, record_len: usize) -> Answer;
    fn m3ap_write(record: *const u8, record_len: usize, values: *const u8, values_len: usize, room: *mut u8, room_len: usize) -> Answer;
    fn m3ap_setup(unit: *mut u8, unit_len: usize, record: *const u8, record_len: usize, values: *const u8, values_len: usize, room: *mut u8, room_len: usize) -> Answer;
    fn m3ap_shown(request: *const u8, request_len: usize, label: *const u8, label_len: usize) -> Part;
    fn m3ap_row(unit: *const u8, unit_len: usize, k: u32) -> Row;
    fn m3ap_count_in(unit: *const u8, unit_len: usize, tmgi: Tmgi) -> Counted;
    fn m3ap_marks(unit: *const u8, unit_len: usize) -> Marks;
    fn m3ap_version() -> u32;
    fn sbcap_read(message: *const u8, message_len: usize, record: *mut u8, record_len: usize) -> Answer;
    fn sbcap_read_lab(message: *const u8, message_len: usize, record: *mut u8, record_len: usize) -> Answer;
    fn sbcap_write(record: *const u8, record_len: usize, values: *const u8, values_len: usize, room: *mut u8, room_len: usize) -> Answer;
    fn sbcap_write_lab(record: *const u8, record_len: usize, values: *const u8, values_len: usize, room: *mut u8, room_len: usize) -> Answer;
}

pub fn call(unit: &mut [u8], message: &[u8], offered: u16, room: &mut [u8]) -> Answer {
    // SAFETY: three parts that do not overlap, each with its length.
    unsafe { m3ap_call(unit.as_mut_ptr(), unit.len(), message.as_ptr(), message.len(), offered, room.as_mut_ptr(), room.len()) }
}

pub fn read(message: &[u8], record: &mut [u8]) -> Answer {
    // SAFETY: two parts that do not overlap, each with its length.
    unsafe { m3ap_read(message.as_ptr(), message.len(), record.as_mut_ptr(), record.len()) }
}

pub fn write(record: &[u8], values: &[u8], room: &mut [u8]) -> Answer {
    // SAFETY: three parts, of which only the room is written, and it overlaps none.
    unsafe { m3ap_write(record.as_ptr(), record.len(), values.as_ptr(), values.len(), room.as_mut_ptr(), room.len()) }
}

pub fn setup(unit: &mut [u8], record: &[u8], values: &[u8], room: &mut [u8]) -> Answer {
    // SAFETY: four parts, of which the unit and the room are written, and neither overlaps another.
    unsafe { m3ap_setup(unit.as_mut_ptr(), unit.len(), record.as_ptr(), record.len(), values.as_ptr(), values.len(), room.as_mut_ptr(), room.len()) }
}

pub fn shown(request: &[u8], label: &[u8]) -> Part {
    // SAFETY: two parts, each with its length, which are only read.
    unsafe { m3ap_shown(request.as_ptr(), request.len(), label.as_ptr(), label.len()) }
}

pub fn row(unit: &[u8], k: u32) -> Row {
    // SAFETY: a part with its length, which is only read.
    unsafe { m3ap_row(unit.as_ptr(), unit.len(), k) }
}

pub fn count_in(unit: &[u8], tmgi: Tmgi) -> Counted {
    // SAFETY: a part with its length, which is only read.
    unsafe { m3ap_count_in(unit.as_ptr(), unit.len(), tmgi) }
}

pub fn marks(unit: &[u8]) -> Marks {
    // SAFETY: a part with its length, which is only read.
    unsafe { m3ap_marks(unit.as_ptr(), unit.len()) }
}

pub fn read_warning(message: &[u8], record: &mut [u8]) -> Answer {
    // SAFETY: two parts that do not overlap, each with its length.
    unsafe { sbcap_read(message.as_ptr(), message.len(), record.as_mut_ptr(), record.len()) }
}

pub fn read_warning_lab(message: &[u8], record: &mut [u8]) -> Answer {
    // SAFETY: two parts that do not overlap, each with its length.
    unsafe { sbcap_read_lab(message.as_ptr(), message.len(), record.as_mut_ptr(), record.len()) }
}

pub fn write_warning(record: &[u8], values: &[u8], room: &mut [u8]) -> Answer {
    // SAFETY: three parts, of which only the room is written, and it overlaps none.
    unsafe { sbcap_write(record.as_ptr(), record.len(), values.as_ptr(), values.len(), room.as_mut_ptr(), room.len()) }
}

pub fn write_warning_lab(record: &[u8], values: &[u8], room: &mut [u8]) -> Answer {
    // SAFETY: three parts, of which only the room is written, and it overlaps none.
    unsafe { sbcap_write_lab(record.as_ptr(), record.len(), values.as_ptr(), values.len(), room.as_mut_ptr(), room.len()) }
}

pub fn version() -> u32 {
    // SAFETY: nothing is lent.
    unsafe { m3ap_version() }
}
