//! The library's calls, each made with guard bytes around every buffer that it is lent.

use crate::calls::{self, Left};
use crate::host::{self, Answer, Call, Role};
use std::ptr::null_mut;
use std::sync::atomic::{AtomicPtr, Ordering::SeqCst};

/// A buffer as it is lent in C.
pub struct Lent {
    pub at: *mut u8,
    pub length: usize,
}

const GUARD: usize = 64;

/// A buffer with guard bytes before and after it.
#[derive(Default)]
struct Guarded {
    store: Vec<u8>,
    start: usize,
    length: usize,
    salt: u8,
}

impl Guarded {
    /// Takes a copy of the bytes, at one of 16 alignments, with guard bytes that the salt changes.
    fn lend(&mut self, bytes: &[u8], salt: u8) {
        self.salt = salt;
        self.start = GUARD + (salt & 15) as usize;
        self.length = bytes.len();
        let whole = self.start + self.length + GUARD;
        if self.store.len() < whole {
            self.store.resize(whole, 0);
        }
        for place in (0..self.start).chain(self.start + self.length..whole) {
            self.store[place] = guard_byte(place, salt);
        }
        self.store[self.start..self.start + self.length].copy_from_slice(bytes);
    }

    fn lent(&mut self) -> Lent {
        Lent { at: self.store[self.start..].as_mut_ptr(), length: self.length }
    }

    fn bytes(&self) -> &[u8] {
        &self.store[self.start..self.start + self.length]
    }

    /// The first guard byte that has changed, in words.
    fn broken(&self, name: &str) -> Option<String> {
        let after = self.start + self.length;
        let mut places = (0..self.start).chain(after..after + GUARD);
        let place = places.find(|&place| self.store[place] != guard_byte(place, self.salt))?;
        Some(format!(
            "the byte at place {} of the {name} of {} bytes, outside it, was changed to {:02X}",
            place as i64 - self.start as i64,
            self.length,
            self.store[place],
        ))
    }
}

fn guard_byte(place: usize, salt: u8) -> u8 {
    (place as u8).wrapping_mul(167).wrapping_add(salt)
}

/// The call that is being made, or null.
static CALL: AtomicPtr<Call> = AtomicPtr::new(null_mut());
/// Seconds that a call may take.
const LIMIT: u32 = 30;
/// The signals of a crash, and that of the alarm, as Linux has them.
const CRASHES: [i32; 5] = [4, 6, 7, 8, 11];
const ALARM: i32 = 14;

extern "C" {
    fn signal(number: i32, handler: extern "C" fn(i32)) -> usize;
    fn alarm(seconds: u32) -> u32;
    fn atexit(handler: extern "C" fn()) -> i32;
    fn _exit(status: i32) -> !;
}

/// Tells the call from which the library does not come back, and ends.
fn lost(what: &str) {
    // Safe: it is null, or the call that `answer` holds while the library runs.
    if let Some(call) = unsafe { CALL.swap(null_mut(), SeqCst).as_ref() } {
        let block = calls::block(call, &host::answer(call), &Left::new());
        eprintln!("the library {what}; the call, with what is expected:\n{block}");
        unsafe { _exit(1) }
    }
}

extern "C" fn on_signal(number: i32) {
    match number {
        ALARM => lost(&format!("has not answered after {LIMIT} s")),
        _ => lost(&format!("was ended by signal {number}")),
    }
    eprintln!("ended by signal {number}, outside of the library");
    unsafe { _exit(1) }
}

extern "C" fn on_exit() {
    lost("ended the program");
}

/// The library with the buffers that it is lent.
pub struct Library {
    buffers: Vec<Guarded>,
    calls: u8,
}

impl Library {
    pub fn new() -> Library {
        for number in CRASHES.into_iter().chain([ALARM]) {
            unsafe { signal(number, on_signal) };
        }
        unsafe { atexit(on_exit) };
        Library { buffers: Vec::new(), calls: 0 }
    }

    /// Makes a call. The error says which byte was changed that no call may change: a guard byte, a
    /// byte of a buffer that is only read or, on refusal, any byte.
    pub fn answer(&mut self, call: &Call) -> Result<Answer, String> {
        self.calls = self.calls.wrapping_add(29);
        let buffers = &mut self.buffers;
        buffers.resize_with(call.buffers.len(), Guarded::default);
        for (place, (buffer, bytes)) in buffers.iter_mut().zip(&call.buffers).enumerate() {
            buffer.lend(bytes, self.calls.wrapping_mul(2 * place as u8 + 1));
        }
        let lent = buffers.iter_mut().map(Guarded::lent).collect::<Vec<Lent>>();
        CALL.store(call as *const Call as *mut Call, SeqCst);
        unsafe { alarm(LIMIT) };
        let result = (call.row.make)(&call.numbers, &lent);
        unsafe { alarm(0) };
        CALL.store(null_mut(), SeqCst);
        for ((buffer, before), (name, role)) in
            buffers.iter().zip(&call.buffers).zip(call.row.buffers)
        {
            if let Some(broken) = buffer.broken(name) {
                return Err(broken);
            }
            if result != 0 && buffer.bytes() != before {
                return Err(format!("refused with {result}, yet the {name} was changed"));
            }
            if *role == Role::Read && buffer.bytes() != before {
                return Err(format!("the {name} was changed"));
            }
        }
        let buffers = buffers.iter().map(|buffer| buffer.bytes().to_vec()).collect();
        Ok(Answer { result, buffers })
    }
}
