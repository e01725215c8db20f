//! The Rust package without the standard library, as a program whose allocator and panic handler are its own: beside std's there can be no second one. Rule R, document 01's printed
//! case; the exit status is how much was not as due.
#![no_std]
#![no_main]

use core::alloc::{GlobalAlloc, Layout};
use core::panic::PanicInfo;
use guard::{run, Book, Refusal, Verdict};

extern "C" {
    fn aligned_alloc(alignment: usize, size: usize) -> *mut u8;
    fn free(memory: *mut u8);
    fn abort() -> !;
}

struct Host;

// SAFETY: C's allocator keeps the promises that Rust asks for; a size is a multiple of its alignment here.
unsafe impl GlobalAlloc for Host {
    unsafe fn alloc(&self, layout: Layout) -> *mut u8 {
        aligned_alloc(layout.align(), layout.pad_to_align().size())
    }

    unsafe fn dealloc(&self, memory: *mut u8, _: Layout) {
        free(memory)
    }
}

#[global_allocator]
static HOST: Host = Host;

#[panic_handler]
fn panic(_: &PanicInfo) -> ! {
    // SAFETY: it needs nothing.
    unsafe { abort() }
}

/// The compiled `alloc` names it for unwinding, which nothing does here.
#[no_mangle]
pub extern "C" fn rust_eh_personality() {}

const R: [u8; 34] = [
    0x4C, 0x4F, 0x42, 1, 0, 0, 0, 0, 0, 0, 0, 0, 0, 1, 1, 1, 0, 2, 0, 0, 0, 0, 0, 2, 0, 1, 0, 1, 0, 1, 1, 0, 1, 0,
];

fn wrong() -> Result<i32, Refusal> {
    let book = Book::open(&R)?;
    let mut session = book.session();
    let mut wrong = 0;
    for (name, time, due) in [
        (1, 5, Verdict::Open { mask: 1 }),
        (0, 5, Verdict::Open { mask: 1 }),
        (2, 9, Verdict::Whole),
        (2, 10, Verdict::Broken { at: 4, mask: 1 }),
    ] {
        wrong += i32::from(session.event(name, time)? != due);
    }
    let refused: &dyn core::error::Error = &Book::open(b"LOL").unwrap_err();
    wrong += i32::from(!refused.is::<Refusal>());
    let mut sheet = [0; 34];
    wrong += i32::from(book.write(&mut sheet)? != 34 || sheet != R);
    let mut round = [0; 15];
    wrong += i32::from(book.play(0, 5, &[2], &mut round)? != 3 || round != [1, 5, 0, 0, 0, 0, 5, 0, 0, 0, 2, 5, 0, 0, 0]);
    Ok(wrong + i32::from(run(&R, &[], 1).answer != Ok(Verdict::Whole)))
}

#[no_mangle]
pub extern "C" fn main() -> i32 {
    wrong().unwrap_or(99)
}
