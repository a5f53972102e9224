//! How much stack a call takes: the stack below it is painted before, and looked at afterwards.
use crate::sides::ROOM as OUT;
use std::arch::asm;
use std::hint::black_box;

/// So much is painted. What takes more is not seen whole, and an end that was reached is an error.
const ROOM: usize = 64 * 1024;
const PAINT: u8 = 0xa5;

/// The bytes of stack that the call takes, its return address with them. What it answers stands above, and doesn't count.
#[inline(never)]
pub fn used<R>(call: impl FnOnce() -> R) -> usize {
    let top: *mut u8;
    // SAFETY: it only reads the stack pointer.
    #[cfg(target_arch = "x86_64")]
    unsafe {
        asm!("mov {}, rsp", out(reg) top, options(nomem, nostack, preserves_flags));
    }
    // SAFETY: as above.
    #[cfg(target_arch = "aarch64")]
    unsafe {
        asm!("mov {}, sp", out(reg) top, options(nomem, nostack, preserves_flags));
    }
    // SAFETY: a program's first stack has far more room than this, and below the stack pointer nothing is in use.
    unsafe {
        for below in 1..=ROOM {
            top.sub(below).write_volatile(PAINT);
        }
    }
    // what is answered must be made, though nothing looks at it
    black_box(&call());
    // SAFETY: as above.
    let changed = |below: &usize| unsafe { top.sub(*below).read_volatile() } != PAINT;
    let used = (1..=ROOM).rev().find(changed).unwrap_or(0);
    assert!(used < ROOM, "the call takes more stack than is looked at");
    used
}

/// What a function is lent beside the text. The area holds what was read of it.
pub struct Lent {
    area: Vec<u8>,
    out: Vec<u8>,
}

impl Lent {
    pub fn new(text: &[u8]) -> Lent {
        let mut area = vec![0; compare::area_size()];
        compare::read(text, &mut area);
        Lent { area, out: vec![0; OUT] }
    }
}

type Measured = fn(&[u8], &mut Lent) -> usize;

/// Every function of the archive. The filling is called three times: with room for all, with just as much as is needed, and
/// with none.
pub const CALLS: [(&str, Measured); 14] = [
    ("sdp_area_size", |_, _| used(compare::area_size)),
    ("sdp_cut", |text, _| used(|| compare::cut(text, 0, 1))),
    ("sdp_fill", |text, lent| used(|| compare::fill(text, &lent.area, &mut lent.out))),
    ("sdp_fill", |text, lent| {
        let needed = compare::length(text, &lent.area).len as usize;
        used(|| compare::fill(text, &lent.area, &mut lent.out[..needed]))
    }),
    ("sdp_fill", |text, lent| used(|| compare::fill(text, &lent.area, &mut []))),
    ("sdp_is_token", |text, _| used(|| compare::is_token(text))),
    ("sdp_length", |text, lent| used(|| compare::length(text, &lent.area))),
    ("sdp_letter_order", |text, _| used(|| compare::letter_order(text))),
    ("sdp_number16", |text, _| used(|| compare::number16(text))),
    ("sdp_number64", |text, _| used(|| compare::number64(text))),
    ("sdp_read", |text, lent| used(|| compare::read(text, &mut lent.area))),
    ("sdp_starts", |text, lent| used(|| compare::starts(text, &lent.area, 0, u64::MAX))),
    ("sdp_typed_time", |text, _| used(|| compare::typed_time(text))),
    ("sdp_utf8_end", |text, _| used(|| compare::utf8_end(text))),
];
