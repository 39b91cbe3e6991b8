//! The seven calls as C functions: the signatures of include/lilota.h, and a
//! store that calls them.
use crate::call::{Call, Store};
use model::{Extent, NameFault, Reply, Report, Space};
use std::cell::Cell;
use std::ptr;

type Image = *mut u8;
type Bytes = *const u8;
type Number = *mut usize;
type Reason = *mut u32;

/// The functions of a library.
#[derive(Clone, Copy)]
pub struct Functions {
    pub format: unsafe extern "C" fn(Image, usize, usize, Number) -> u32,
    pub mount: unsafe extern "C" fn(
        Image,
        usize,
        usize,
        Number,
        Number,
        Number,
        Number,
        Number,
        Number,
        Number,
        Number,
    ) -> u32,
    pub put: unsafe extern "C" fn(
        Image,
        usize,
        Bytes,
        usize,
        Bytes,
        usize,
        usize,
        Reason,
        Number,
        Number,
        Number,
        Number,
        Number,
        Number,
    ) -> u32,
    pub get: unsafe extern "C" fn(Bytes, usize, Bytes, usize, Reason, Number, Number, Number) -> u32,
    pub list: unsafe extern "C" fn(Bytes, usize, usize, Number, Number, Number) -> u32,
    pub remove: unsafe extern "C" fn(Image, usize, Bytes, usize, usize, Reason, Number, Number) -> u32,
    pub sweep: unsafe extern "C" fn(Image, usize, usize, Number, Number, Number, Number, Number, Number) -> u32,
}

/// Stands in the numbers before a call: one that the call leaves is seen.
const UNWRITTEN: usize = 0x5EED_0BAD_5EED_0BAD;
/// The same of a reason.
pub const UNWRITTEN_REASON: u32 = 0x5EED_0BAD;
/// Stands before and behind the image: what is written there is seen.
const GUARD: [u8; 64] = [0x6B; 64];
/// Larger images are lent as they are, since the copy costs too much.
const GUARDED: usize = 1 << 20;

/// A library's functions as a store.
pub struct Library {
    functions: Functions,
    /// empty slices go by turns as null and as a pointer
    null: Cell<bool>,
}

impl Library {
    pub fn new(functions: Functions) -> Library {
        Library { functions, null: Cell::new(false) }
    }

    fn goes_as_null(&self, bytes: &[u8]) -> bool {
        bytes.is_empty() && self.null.replace(!self.null.get())
    }

    fn pointer(&self, bytes: &[u8]) -> *const u8 {
        if self.goes_as_null(bytes) {
            ptr::null()
        } else {
            bytes.as_ptr()
        }
    }

    /// The library's answer with the numbers that it gave back.
    pub fn lend(&self, img: &mut [u8], call: &Call) -> Reply {
        let f = &self.functions;
        let at = if self.goes_as_null(img) { ptr::null_mut() } else { img.as_mut_ptr() };
        let n = img.len();
        let mut out = Numbers::UNWRITTEN;
        let Numbers { reason, place, head, tail, files, moves, offset, length, size, space, steps } = &mut out;
        let [live, dead, free, lost] = space;
        // Safety: each pointer comes with the length of the slice that it is of,
        // or is null with length 0; the numbers are different ones.
        let answer = unsafe {
            match call {
                Call::Format(k) => (f.format)(at, n, *k as usize, steps),
                Call::Mount(k) => (f.mount)(at, n, *k as usize, head, tail, files, live, dead, free, lost, steps),
                Call::Put(name, data, k) => {
                    let (p, pl, d, dl) = (self.pointer(name), name.len(), self.pointer(data), data.len());
                    (f.put)(at, n, p, pl, d, dl, *k as usize, reason, place, live, dead, free, lost, steps)
                }
                Call::Get(name) => (f.get)(at, n, self.pointer(name), name.len(), reason, place, offset, length),
                Call::List(index) => (f.list)(at, n, *index as usize, offset, length, size),
                Call::Remove(name, k) => {
                    (f.remove)(at, n, self.pointer(name), name.len(), *k as usize, reason, place, steps)
                }
                Call::Sweep(k) => (f.sweep)(at, n, *k as usize, moves, live, dead, free, lost, steps),
            }
        };
        out.reply(call, answer)
    }

    /// `lend`, with guards around the image.
    fn lend_guarded(&self, img: &mut [u8], call: &Call) -> Result<Reply, String> {
        let mut lent = [&GUARD[..], img, &GUARD[..]].concat();
        let (from, to) = (GUARD.len(), GUARD.len() + img.len());
        let reply = self.lend(&mut lent[from..to], call);
        img.copy_from_slice(&lent[from..to]);
        if lent[..from] != GUARD || lent[to..] != GUARD {
            return Err("a byte beside the image is written".into());
        }
        Ok(reply)
    }
}

/// Live, dead, free and lost bytes, in this order.
pub fn space([live, dead, free, lost]: [usize; 4]) -> Space {
    Space { live: live as u64, dead: dead as u64, free: free as u64, lost: lost as u64 }
}

/// The numbers that the calls give back, each call its own.
struct Numbers {
    reason: u32,
    place: usize,
    head: usize,
    tail: usize,
    files: usize,
    moves: usize,
    offset: usize,
    length: usize,
    size: usize,
    space: [usize; 4],
    steps: usize,
}

impl Numbers {
    const UNWRITTEN: Numbers = Numbers {
        reason: UNWRITTEN_REASON,
        place: UNWRITTEN,
        head: UNWRITTEN,
        tail: UNWRITTEN,
        files: UNWRITTEN,
        moves: UNWRITTEN,
        offset: UNWRITTEN,
        length: UNWRITTEN,
        size: UNWRITTEN,
        space: [UNWRITTEN; 4],
        steps: UNWRITTEN,
    };

    /// Those that this call gives back; the others are 0.
    fn reply(&self, call: &Call, answer: u32) -> Reply {
        let name = NameFault { reason: self.reason, place: self.place as u64 };
        let report = Report { head: self.head as u64, tail: self.tail as u64, files: self.files as u64 };
        let extent = Extent { offset: self.offset as u64, length: self.length as u64 };
        let (moves, size, steps) = (self.moves as u64, self.size as u64, self.steps as u64);
        let (space, zeros) = (space(self.space), Reply::refusal(answer));
        match call {
            Call::Format(_) => Reply { steps, ..zeros },
            Call::Remove(..) => Reply { name, steps, ..zeros },
            Call::Put(..) => Reply { name, space, steps, ..zeros },
            Call::Mount(_) => Reply { report, space, steps, ..zeros },
            Call::Get(_) => Reply { name, extent, ..zeros },
            Call::List(_) => Reply { extent, size, ..zeros },
            Call::Sweep(_) => Reply { moves, space, steps, ..zeros },
        }
    }
}

impl Store for Library {
    fn call(&self, img: &mut [u8], call: &Call) -> Result<Reply, String> {
        if img.len() <= GUARDED {
            self.lend_guarded(img, call)
        } else {
            Ok(self.lend(img, call))
        }
    }
}

/// Declares the seven functions of a C library by their names, and gives them as `functions`.
#[macro_export]
macro_rules! c_library {
    ($format:ident $mount:ident $put:ident $get:ident $list:ident $remove:ident $sweep:ident) => {
        extern "C" {
            pub fn $format(image: *mut u8, length: usize, allowance: usize, steps: *mut usize) -> u32;
            pub fn $mount(
                image: *mut u8,
                length: usize,
                allowance: usize,
                head: *mut usize,
                tail: *mut usize,
                files: *mut usize,
                live: *mut usize,
                dead: *mut usize,
                free: *mut usize,
                lost: *mut usize,
                steps: *mut usize,
            ) -> u32;
            pub fn $put(
                image: *mut u8,
                length: usize,
                name: *const u8,
                name_length: usize,
                content: *const u8,
                content_length: usize,
                allowance: usize,
                reason: *mut u32,
                place: *mut usize,
                live: *mut usize,
                dead: *mut usize,
                free: *mut usize,
                lost: *mut usize,
                steps: *mut usize,
            ) -> u32;
            pub fn $get(
                image: *const u8,
                length: usize,
                name: *const u8,
                name_length: usize,
                reason: *mut u32,
                place: *mut usize,
                offset: *mut usize,
                size: *mut usize,
            ) -> u32;
            pub fn $list(
                image: *const u8,
                length: usize,
                index: usize,
                name_offset: *mut usize,
                name_length: *mut usize,
                size: *mut usize,
            ) -> u32;
            pub fn $remove(
                image: *mut u8,
                length: usize,
                name: *const u8,
                name_length: usize,
                allowance: usize,
                reason: *mut u32,
                place: *mut usize,
                steps: *mut usize,
            ) -> u32;
            pub fn $sweep(
                image: *mut u8,
                length: usize,
                allowance: usize,
                moves: *mut usize,
                live: *mut usize,
                dead: *mut usize,
                free: *mut usize,
                lost: *mut usize,
                steps: *mut usize,
            ) -> u32;
        }

        pub fn functions() -> $crate::c_calls::Functions {
            $crate::c_calls::Functions {
                format: $format,
                mount: $mount,
                put: $put,
                get: $get,
                list: $list,
                remove: $remove,
                sweep: $sweep,
            }
        }
    };
}
