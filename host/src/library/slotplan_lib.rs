//! The library for lane controllers as compiled: its functions as its header declares them, and a safe wrapper of each.
//! A slice of Rust is all that the header asks of a host: valid, aligned, of the length that goes with it, and not overlapped where it is lent `&mut`.

use crate::second::rules::Refusal;

/// The file that this program is linked with.
pub const ARCHIVE: &str = env!("SLOTPLAN_ARCHIVE");

/// The file in include/ that declares the functions for C.
#[cfg(test)]
pub const HEADER: &str = "slotplan_lib.h";

pub mod declared {
    extern "C" {
        pub fn slotplan_read_plan(plan: *const u8, length: usize) -> u64;
        pub fn slotplan_schedule(plan: *const u8, length: usize, out: *mut u8, room: usize) -> u64;
        pub fn slotplan_read_schedule(
            file: *const u8,
            length: usize,
            offsets: *mut u16,
            offset_count: usize,
            periods: *mut u16,
            period_count: usize,
        ) -> u64;
        pub fn slotplan_write_schedule(
            links: u8,
            offsets: *const u16,
            offset_count: usize,
            periods: *const u16,
            period_count: usize,
            out: *mut u8,
            room: usize,
        ) -> u64;
        pub fn slotplan_admit(
            plan: *const u8,
            length: usize,
            counters: *mut u32,
            lent: usize,
            number: u8,
            entry: u8,
            rate: u8,
            deadline: u16,
            out: *mut u8,
            room: usize,
        ) -> u64;
        pub fn slotplan_release(
            plan: *const u8,
            length: usize,
            counters: *mut u32,
            lent: usize,
            number: u8,
            out: *mut u8,
            room: usize,
        ) -> u64;
        pub fn slotplan_start(
            plan: *const u8,
            length: usize,
            counters: *mut u32,
            lent: usize,
        ) -> u64;
        pub fn slotplan_slot(
            plan: *const u8,
            length: usize,
            counters: *mut u32,
            lent: usize,
            arrivals: *const u16,
            listed: usize,
            slot: u32,
        ) -> u64;
        pub fn slotplan_sender(plan: *const u8, length: usize, parent: u8, slot: u32) -> u64;
        pub fn slotplan_bound(plan: *const u8, length: usize, number: u8) -> u64;
        pub fn slotplan_assign(
            gaps: *const u16,
            count: usize,
            offsets: *mut u16,
            offset_count: usize,
            periods: *mut u16,
            period_count: usize,
        ) -> u64;
    }
}

/// The value of an answer, or its number and place.
pub type Answer = Result<u64, Refusal>;

pub fn told(answer: u64) -> Answer {
    let rest = answer & ((1 << 56) - 1);
    match answer >> 56 {
        0 => Ok(rest),
        number => Err(Refusal {
            number,
            place: rest as usize,
        }),
    }
}

/// The links, and from bit 8 on the flows.
pub fn read_plan(plan: &[u8]) -> Answer {
    told(unsafe { declared::slotplan_read_plan(plan.as_ptr(), plan.len()) })
}

pub fn schedule(plan: &[u8], out: &mut [u8]) -> Answer {
    told(unsafe {
        declared::slotplan_schedule(plan.as_ptr(), plan.len(), out.as_mut_ptr(), out.len())
    })
}

/// The links.
pub fn read_schedule(file: &[u8], offsets: &mut [u16], periods: &mut [u16]) -> Answer {
    told(unsafe {
        declared::slotplan_read_schedule(
            file.as_ptr(),
            file.len(),
            offsets.as_mut_ptr(),
            offsets.len(),
            periods.as_mut_ptr(),
            periods.len(),
        )
    })
}

pub fn write_schedule(links: u8, offsets: &[u16], periods: &[u16], out: &mut [u8]) -> Answer {
    told(unsafe {
        declared::slotplan_write_schedule(
            links,
            offsets.as_ptr(),
            offsets.len(),
            periods.as_ptr(),
            periods.len(),
            out.as_mut_ptr(),
            out.len(),
        )
    })
}

/// A flow as a host hands it in.
#[derive(Clone, Copy, Debug, PartialEq, Eq)]
pub struct NewFlow {
    pub number: u8,
    pub entry: u8,
    pub rate: u8,
    pub deadline: u16,
}

pub fn admit(plan: &[u8], counters: &mut [u32], flow: NewFlow, out: &mut [u8]) -> Answer {
    told(unsafe {
        declared::slotplan_admit(
            plan.as_ptr(),
            plan.len(),
            counters.as_mut_ptr(),
            counters.len(),
            flow.number,
            flow.entry,
            flow.rate,
            flow.deadline,
            out.as_mut_ptr(),
            out.len(),
        )
    })
}

pub fn release(plan: &[u8], counters: &mut [u32], number: u8, out: &mut [u8]) -> Answer {
    told(unsafe {
        declared::slotplan_release(
            plan.as_ptr(),
            plan.len(),
            counters.as_mut_ptr(),
            counters.len(),
            number,
            out.as_mut_ptr(),
            out.len(),
        )
    })
}

pub fn start(plan: &[u8], counters: &mut [u32]) -> Answer {
    told(unsafe {
        declared::slotplan_start(
            plan.as_ptr(),
            plan.len(),
            counters.as_mut_ptr(),
            counters.len(),
        )
    })
}

pub fn slot(plan: &[u8], counters: &mut [u32], arrivals: &[u16], number: u32) -> Answer {
    told(unsafe {
        declared::slotplan_slot(
            plan.as_ptr(),
            plan.len(),
            counters.as_mut_ptr(),
            counters.len(),
            arrivals.as_ptr(),
            arrivals.len(),
            number,
        )
    })
}

pub fn sender(plan: &[u8], parent: u8, slot: u32) -> Answer {
    told(unsafe { declared::slotplan_sender(plan.as_ptr(), plan.len(), parent, slot) })
}

pub fn bound(plan: &[u8], number: u8) -> Answer {
    told(unsafe { declared::slotplan_bound(plan.as_ptr(), plan.len(), number) })
}

/// The base.
pub fn assign(gaps: &[u16], offsets: &mut [u16], periods: &mut [u16]) -> Answer {
    told(unsafe {
        declared::slotplan_assign(
            gaps.as_ptr(),
            gaps.len(),
            offsets.as_mut_ptr(),
            offsets.len(),
            periods.as_mut_ptr(),
            periods.len(),
        )
    })
}
