//! The two marks between which a counter counts instructions: it knows them by these names. Their code differs, or the
//! compiler would make them one.
use std::arch::asm;
use std::hint::black_box;

#[no_mangle]
#[inline(never)]
pub extern "C" fn bench_begin() {
    black_box(1);
}

#[no_mangle]
#[inline(never)]
pub extern "C" fn bench_end() {
    black_box(2);
}

/// Makes a call between the marks.
pub fn marked<R>(call: impl FnOnce() -> R) -> R {
    bench_begin();
    let answer = black_box(call());
    bench_end();
    answer
}

/// How many instructions the loop of `known` has.
pub const KNOWN: u32 = 20_000;

/// A loop of two instructions: a counter that counts well finds it.
pub fn known() {
    let rounds = u64::from(KNOWN / 2);
    // SAFETY: it changes one register, which is named.
    #[cfg(target_arch = "x86_64")]
    unsafe {
        asm!("2: dec {0}", "jnz 2b", inout(reg) rounds => _, options(nomem, nostack));
    }
    // SAFETY: as above.
    #[cfg(target_arch = "aarch64")]
    unsafe {
        asm!("2: subs {0}, {0}, #1", "b.ne 2b", inout(reg) rounds => _, options(nomem, nostack));
    }
}
