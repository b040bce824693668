//! What happens when a call traps: a handler of signals says which call it was and ends the process. It uses nothing but write and
//! _exit, the board's numbers and a line of its own.

use crate::board::{Board, CALLS, NAMES};
use std::cell::Cell;
use std::ffi::{c_int, c_void};
use std::sync::atomic::{AtomicPtr, AtomicUsize, Ordering::Relaxed};

extern "C" {
    fn sigaction(signal: c_int, new: *const Action, old: *mut c_void) -> c_int;
    fn write(file: c_int, bytes: *const u8, length: usize) -> isize;
    fn _exit(status: c_int) -> !;
    #[cfg(target_arch = "x86_64")]
    fn bavolinesk_trapped(signal: c_int, info: *const Info, context: *const c_void);
}

/// The status of a process that ended by a trap which was counted.
pub const TRAPPED: c_int = 77;

const SIGNALS: [(c_int, &str); 6] = [
    (4, "SIGILL"),
    (5, "SIGTRAP"),
    (6, "SIGABRT"),
    (7, "SIGBUS"),
    (8, "SIGFPE"),
    (11, "SIGSEGV"),
];
const WITH_INFO_ON_OWN_STACK: c_int = 4 | 0x0800_0000;

// struct sigaction of glibc on 64-bit x86 and ARM.
#[repr(C)]
struct Action {
    handler: unsafe extern "C" fn(c_int, *const Info, *const c_void),
    mask: [u64; 16],
    flags: c_int,
    restorer: usize,
}

// The front of siginfo_t.
#[repr(C)]
struct Info {
    number: c_int,
    error: c_int,
    code: c_int,
    address: usize,
}

static BOARD: AtomicPtr<Board> = AtomicPtr::new(std::ptr::null_mut());
// Where the two images are: address and length.
static IMAGES: [[AtomicUsize; 2]; 2] = [const { [const { AtomicUsize::new(0) }; 2] }; 2];

const NO_CALLER: usize = usize::MAX;
thread_local! {
    static SLOT: Cell<usize> = const { Cell::new(NO_CALLER) };
}

/// Says where the images are, so that a trap's address can be told by them.
pub fn images_at(places: [(usize, usize); 2]) {
    for (known, (at, length)) in IMAGES.iter().zip(places) {
        known[0].store(at, Relaxed);
        known[1].store(length, Relaxed);
    }
}

/// This thread is that caller.
pub fn i_am(slot: usize) {
    SLOT.with(|own| own.set(slot));
}

/// Catches every signal that a trap gives.
pub fn catch(board: &'static Board) {
    BOARD.store(board as *const Board as *mut Board, Relaxed);
    let action = Action {
        handler: begin_of_handler,
        mask: [0; 16],
        flags: WITH_INFO_ON_OWN_STACK,
        restorer: 0,
    };
    for (signal, name) in SIGNALS {
        // SAFETY: the structure is the C library's, and the handler keeps to what a handler may do.
        let refused = unsafe { sigaction(signal, &action, std::ptr::null_mut()) };
        assert_eq!(refused, 0, "{name} cannot be caught");
    }
}

/// Ends a forked process at once, without the exit handlers of the process that it was forked from.
pub fn leave(status: c_int) -> ! {
    // SAFETY: it takes any status.
    unsafe { _exit(status) }
}

// Text without allocation.
struct Line {
    bytes: [u8; 2_048],
    length: usize,
}

impl Line {
    fn text(&mut self, text: &str) {
        for &byte in text.as_bytes() {
            if let Some(place) = self.bytes.get_mut(self.length) {
                *place = byte;
                self.length += 1;
            }
        }
    }

    fn number(&mut self, mut number: u64) {
        let (mut digits, mut from) = ([0u8; 20], 20);
        loop {
            from -= 1;
            digits[from] = b'0' + (number % 10) as u8;
            number /= 10;
            if number == 0 {
                break;
            }
        }
        self.text(std::str::from_utf8(&digits[from..]).unwrap_or("?"));
    }

    // The address as seen from the image that it is nearest to.
    fn address(&mut self, address: usize) {
        for (name, known) in ["first", "second"].iter().zip(&IMAGES) {
            let (at, length) = (known[0].load(Relaxed), known[1].load(Relaxed));
            if address.wrapping_sub(at.wrapping_sub(1 << 20)) < length + (1 << 21) {
                self.text(", address: the start of the ");
                self.text(name);
                self.text(if address < at { " image less " } else { " image plus " });
                self.number(address.abs_diff(at) as u64);
                self.text(" (its length is ");
                self.number(length as u64);
                self.text(")");
                return;
            }
        }
        self.text(", at an address that is far from both images: ");
        self.number(address as u64);
    }

    fn counts(&mut self, board: &Board) {
        self.text("\ncalls so far:");
        for (which, name) in NAMES.iter().enumerate() {
            self.text(if which == 0 { " " } else { ", " });
            self.text(name);
            self.text(" ");
            self.number(board.sum(which, |tally| tally.made()));
        }
        self.text("\n");
    }

    fn say(&self) {
        // SAFETY: the line's own bytes.
        unsafe { write(2, self.bytes.as_ptr(), self.length) };
    }
}

// Where the handler begins. An emulator may hand in a stack pointer that is 8 bytes off; as the handler never returns, it is rounded.
#[cfg(target_arch = "x86_64")]
std::arch::global_asm!(
    ".globl bavolinesk_trapped",
    "bavolinesk_trapped:",
    "and rsp, -16",
    "call {}",
    sym trapped
);
#[cfg(target_arch = "x86_64")]
use bavolinesk_trapped as begin_of_handler;
#[cfg(not(target_arch = "x86_64"))]
use trapped as begin_of_handler;

extern "C" fn trapped(signal: c_int, info: *const Info, _: *const c_void) {
    let slot = SLOT.with(Cell::get);
    // SAFETY: the board is set before the handler is, and stays; the kernel hands in a siginfo_t.
    let (board, address) = unsafe { (&*BOARD.load(Relaxed), (*info).address) };
    let sheet = board.sheets.get(slot);
    let under_way = sheet.map_or(0, |sheet| sheet.under_way.load(Relaxed) as usize);
    let counted = board.counting.load(Relaxed) && (1..=CALLS).contains(&under_way);
    if let Some(sheet) = sheet.filter(|_| counted) {
        sheet.tallies[under_way - 1].traps.fetch_add(1, Relaxed);
        sheet.under_way.store(0, Relaxed);
        leave(TRAPPED);
    }
    let mut line = Line {
        bytes: [0; 2_048],
        length: 0,
    };
    line.text("trap: ");
    line.text(
        SIGNALS
            .iter()
            .find(|known| known.0 == signal)
            .map_or("?", |known| known.1),
    );
    line.text(" in ");
    line.text(NAMES.get(under_way.wrapping_sub(1)).copied().unwrap_or("no call"));
    line.address(address);
    line.counts(board);
    line.say();
    leave(1)
}
