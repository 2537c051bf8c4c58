//! Lists lent to the port, each in pages of its own that end (or begin) where a page begins that nobody may touch.
use crate::sizes::{DESK_FLOATS, SHEETS};
use std::ffi::{c_int, c_void};

unsafe extern "C" {
    fn mmap(at: *mut c_void, length: usize, protection: c_int, flags: c_int, file: c_int, offset: i64) -> *mut c_void;
    fn mprotect(at: *mut c_void, length: usize, protection: c_int) -> c_int;
}
const PAGE: usize = 4096;
/// So many floats, and a page for lengths that are too long.
const fn room_for(floats: usize) -> usize {
    (size_of::<f64>() * floats).next_multiple_of(PAGE) + PAGE
}
/// Room for the longest list but for those of a desk.
const ROOM: usize = room_for(SHEETS);
const LARGE: usize = room_for(DESK_FLOATS);
const GUARD: u8 = 0xa5;
static GUARDS: [u8; LARGE] = [GUARD; LARGE];

struct Slot {
    room: *mut u8,
    size: usize,
    from: usize,
    before: Vec<u8>,
}

/// The lists of one call, numbered as they were lent.
#[derive(Default)]
pub struct Lent {
    slots: Vec<Slot>,
    used: usize,
}

fn new_room(size: usize) -> *mut u8 {
    const READ_WRITE: c_int = 1 | 2;
    const PRIVATE_ANONYMOUS: c_int = 0x02 | 0x20;
    unsafe {
        let all = mmap(std::ptr::null_mut(), size + 2 * PAGE, 0, PRIVATE_ANONYMOUS, -1, 0) as *mut u8;
        assert!(all as isize != -1, "no memory for a lent list");
        let room = all.add(PAGE);
        assert!(mprotect(room as *mut c_void, size, READ_WRITE) == 0);
        std::slice::from_raw_parts_mut(room, size).fill(GUARD);
        room
    }
}

impl Lent {
    /// Forgets what was lent.
    pub fn clear(&mut self) {
        for slot in &self.slots[..self.used] {
            unsafe { std::slice::from_raw_parts_mut(slot.room.add(slot.from), slot.before.len()).fill(GUARD) }
        }
        self.used = 0;
    }

    /// Lends a copy of a list, at the end of its room or at the start: gives the pointer; the length is the list's.
    pub fn lend<T: Copy>(&mut self, list: &[T], at_end: bool) -> *mut T {
        let bytes = unsafe { std::slice::from_raw_parts(list.as_ptr() as *const u8, size_of_val(list)) };
        let size = if bytes.len() <= ROOM { ROOM } else { LARGE };
        assert!(bytes.len() <= size);
        if self.used == self.slots.len() {
            self.slots.push(Slot { room: new_room(size), size, from: 0, before: vec![] });
        }
        let slot = &mut self.slots[self.used];
        self.used += 1;
        if slot.size < size {
            (slot.room, slot.size) = (new_room(size), size);
        }
        slot.from = if at_end { slot.size - bytes.len() } else { 0 };
        slot.before.clear();
        slot.before.extend_from_slice(bytes);
        unsafe {
            let at = slot.room.add(slot.from);
            std::ptr::copy_nonoverlapping(bytes.as_ptr(), at, bytes.len());
            at as *mut T
        }
    }

    fn now(&self, k: usize) -> &[u8] {
        let slot = &self.slots[k];
        unsafe { std::slice::from_raw_parts(slot.room.add(slot.from), slot.before.len()) }
    }

    /// Whether list k has its bits.
    pub fn kept(&self, k: usize) -> bool {
        self.now(k) == self.slots[k].before
    }

    /// Whether the k-th list from the end has its bits.
    pub fn kept_from_end(&self, k: usize) -> bool {
        self.kept(self.used - 1 - k)
    }

    /// Whether the k-th list from the end has its bits from byte n on.
    pub fn kept_behind(&self, k: usize, n: usize) -> bool {
        let k = self.used - 1 - k;
        self.now(k).get(n..) == self.slots[k].before.get(n..)
    }

    /// Whether all lists but the last `outs` have their bits.
    pub fn inputs_kept(&self, outs: usize) -> bool {
        (0..self.used - outs).all(|k| self.kept(k))
    }

    /// Whether the last `outs` lists have their bits.
    pub fn outs_kept(&self, outs: usize) -> bool {
        (self.used - outs..self.used).all(|k| self.kept(k))
    }

    /// Whether nothing beside a list was written.
    pub fn guards_kept(&self) -> bool {
        self.slots[..self.used].iter().all(|s| {
            let room = unsafe { std::slice::from_raw_parts(s.room, s.size) };
            let end = s.from + s.before.len();
            room[..s.from] == GUARDS[..s.from] && room[end..] == GUARDS[end..s.size]
        })
    }

    /// The k-th list from the end, as it is now.
    pub fn out<T: Copy>(&self, from_end: usize) -> Vec<T> {
        let bytes = self.now(self.used - 1 - from_end);
        let n = bytes.len() / size_of::<T>();
        (0..n).map(|i| unsafe { (bytes.as_ptr() as *const T).add(i).read_unaligned() }).collect()
    }
}
