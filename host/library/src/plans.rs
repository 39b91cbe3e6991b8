//! The four planning calls of liblilota.a (K1), and a planner that calls them.
use model::{Handing, NameFault, Reply, Report};
use std::cell::Cell;
use std::ptr;
use testing::c_calls::{space, UNWRITTEN_REASON};
use testing::call::Call;
use testing::planner::Planner;

extern "C" {
    fn lilota_plan_put(
        image: *const u8,
        length: usize,
        name: *const u8,
        name_length: usize,
        content: *const u8,
        content_length: usize,
        first: usize,
        kinds: *mut u32,
        kinds_length: usize,
        addresses: *mut u32,
        addresses_length: usize,
        bytes: *mut u32,
        bytes_length: usize,
        handed: *mut usize,
        reason: *mut u32,
        place: *mut usize,
        live: *mut usize,
        dead: *mut usize,
        free: *mut usize,
        lost: *mut usize,
        steps: *mut usize,
    ) -> u32;
    fn lilota_plan_remove(
        image: *const u8,
        length: usize,
        name: *const u8,
        name_length: usize,
        first: usize,
        kinds: *mut u32,
        kinds_length: usize,
        addresses: *mut u32,
        addresses_length: usize,
        bytes: *mut u32,
        bytes_length: usize,
        handed: *mut usize,
        reason: *mut u32,
        place: *mut usize,
        steps: *mut usize,
    ) -> u32;
    fn lilota_plan_sweep(
        image: *const u8,
        length: usize,
        first: usize,
        kinds: *mut u32,
        kinds_length: usize,
        addresses: *mut u32,
        addresses_length: usize,
        bytes: *mut u32,
        bytes_length: usize,
        handed: *mut usize,
        moves: *mut usize,
        live: *mut usize,
        dead: *mut usize,
        free: *mut usize,
        lost: *mut usize,
        steps: *mut usize,
    ) -> u32;
    fn lilota_plan_mount(
        image: *const u8,
        length: usize,
        first: usize,
        kinds: *mut u32,
        kinds_length: usize,
        addresses: *mut u32,
        addresses_length: usize,
        bytes: *mut u32,
        bytes_length: usize,
        handed: *mut usize,
        head: *mut usize,
        tail: *mut usize,
        files: *mut usize,
        live: *mut usize,
        dead: *mut usize,
        free: *mut usize,
        lost: *mut usize,
        steps: *mut usize,
    ) -> u32;
}

/// Stands in the numbers before a call: one that the call leaves is seen.
const UNWRITTEN: usize = 0x5EED_0BAD_5EED_0BAD;
/// Stands before and behind each slice: what is written there is seen.
const GUARD: [u32; 4] = [0x6B6B_6B6B; 4];

/// The library's planning calls as a planner.
#[derive(Default)]
pub struct Plans {
    /// empty slices go by turns as null and as a pointer
    null: Cell<bool>,
}

impl Plans {
    fn goes_as_null(&self, length: usize) -> bool {
        length == 0 && self.null.replace(!self.null.get())
    }

    fn bytes(&self, part: &[u8]) -> *const u8 {
        if self.goes_as_null(part.len()) {
            ptr::null()
        } else {
            part.as_ptr()
        }
    }

    fn slots(&self, slice: &mut [u32]) -> (*mut u32, usize) {
        let at = if self.goes_as_null(slice.len()) { ptr::null_mut() } else { slice.as_mut_ptr() };
        (at, slice.len())
    }

    /// The library's answer with the numbers that it gave back.
    pub fn lend(&self, img: &mut [u8], call: &Call, first: u64, slices: [&mut [u32]; 3]) -> Handing {
        let (at, n, first) = (self.bytes(img), img.len(), first as usize);
        let [(k, kl), (a, al), (b, bl)] = slices.map(|s| self.slots(s));
        let [mut handed, mut place, mut head, mut tail, mut files, mut moves, mut steps] = [UNWRITTEN; 7];
        let mut reason = UNWRITTEN_REASON;
        let mut told = [UNWRITTEN; 4];
        let [live, dead, free, lost] = &mut told;
        // Safety: each pointer comes with the length of the slice that it is of, or is
        // null with length 0; the slices and the numbers are different ones.
        let answer = unsafe {
            match call {
                Call::Put(name, data, _) => {
                    let (p, pl, d, dl) = (self.bytes(name), name.len(), self.bytes(data), data.len());
                    let (h, r, i, s) = (&mut handed, &mut reason, &mut place, &mut steps);
                    lilota_plan_put(at, n, p, pl, d, dl, first, k, kl, a, al, b, bl, h, r, i, live, dead, free, lost, s)
                }
                Call::Remove(name, _) => {
                    let (p, pl) = (self.bytes(name), name.len());
                    let (h, r, i, s) = (&mut handed, &mut reason, &mut place, &mut steps);
                    lilota_plan_remove(at, n, p, pl, first, k, kl, a, al, b, bl, h, r, i, s)
                }
                Call::Sweep(_) => {
                    let (h, m, s) = (&mut handed, &mut moves, &mut steps);
                    lilota_plan_sweep(at, n, first, k, kl, a, al, b, bl, h, m, live, dead, free, lost, s)
                }
                Call::Mount(_) => {
                    let (n_, h, t, f, s) = (&mut handed, &mut head, &mut tail, &mut files, &mut steps);
                    lilota_plan_mount(at, n, first, k, kl, a, al, b, bl, n_, h, t, f, live, dead, free, lost, s)
                }
                other => unreachable!("{} is not planned", other.kind()),
            }
        };
        let name = NameFault { reason, place: place as u64 };
        let report = Report { head: head as u64, tail: tail as u64, files: files as u64 };
        let (moves, steps, zeros) = (moves as u64, steps as u64, Reply::refusal(answer));
        let space = space(told);
        let reply = match call {
            Call::Put(..) => Reply { name, space, steps, ..zeros },
            Call::Remove(..) => Reply { name, steps, ..zeros },
            Call::Mount(_) => Reply { report, space, steps, ..zeros },
            Call::Sweep(_) => Reply { moves, space, steps, ..zeros },
            other => unreachable!("{} is not planned", other.kind()),
        };
        Handing { reply, handed: handed as u64 }
    }
}

impl Planner for Plans {
    /// `lend`, with guards around each slice.
    fn plan(&self, img: &mut [u8], call: &Call, first: u64, slices: [&mut [u32]; 3]) -> Result<Handing, String> {
        let mut lent = slices.each_ref().map(|s| [&GUARD[..], s, &GUARD[..]].concat());
        let inside = lent.each_mut().map(|s| {
            let end = s.len() - GUARD.len();
            &mut s[GUARD.len()..end]
        });
        let handing = self.lend(img, call, first, inside);
        for (slice, left) in slices.into_iter().zip(&lent) {
            let end = left.len() - GUARD.len();
            slice.copy_from_slice(&left[GUARD.len()..end]);
            if left[..GUARD.len()] != GUARD || left[end..] != GUARD {
                return Err("a slot beside a slice is written".into());
            }
        }
        Ok(handing)
    }
}
