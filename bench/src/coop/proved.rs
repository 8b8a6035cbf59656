//! The proved implementation, linked as a C static library (feature `coop`): safe functions over the declarations of
//! include/coop.h. Nothing checks the declarations against the library.

use super::{Calls, Entry, Lent};

#[link(name = "coop_c", kind = "static")]
extern "C" {
    fn coop_open(
        tasks: u32,
        state: *mut u32,
        state_len: u64,
        versions: *mut u32,
        versions_len: u64,
    ) -> u32;
    fn coop_start_insert(
        state: *mut u32,
        state_len: u64,
        task: u32,
        operation: u32,
        tag: u32,
        versions: *const u32,
        versions_len: u64,
        out: *mut u32,
        out_len: u64,
    ) -> u32;
    fn coop_start_remove(
        state: *mut u32,
        state_len: u64,
        task: u32,
        operation: u32,
        tag: u32,
        versions: *const u32,
        versions_len: u64,
        out: *mut u32,
        out_len: u64,
    ) -> u32;
    fn coop_start_freeze(
        state: *mut u32,
        state_len: u64,
        task: u32,
        versions: *const u32,
        versions_len: u64,
        out: *mut u32,
        out_len: u64,
    ) -> u32;
    fn coop_start_member(
        state: *mut u32,
        state_len: u64,
        task: u32,
        tag: u32,
        versions: *const u32,
        versions_len: u64,
        out: *mut u32,
        out_len: u64,
    ) -> u32;
    fn coop_start_response(
        state: *mut u32,
        state_len: u64,
        task: u32,
        operation: u32,
        versions: *const u32,
        versions_len: u64,
        out: *mut u32,
        out_len: u64,
    ) -> u32;
    fn coop_step(
        state: *mut u32,
        state_len: u64,
        task: u32,
        versions: *mut u32,
        versions_len: u64,
        out: *mut u32,
        out_len: u64,
    ) -> u32;
    fn coop_show(
        state: *const u32,
        state_len: u64,
        version: u32,
        versions: *const u32,
        versions_len: u64,
        out: *mut u32,
        out_len: u64,
    ) -> u32;
}

pub struct Proved;

impl Calls for Proved {
    fn open(tasks: u32, lent: Lent) -> u32 {
        let (s, sl) = (lent.state.as_mut_ptr(), lent.state.len() as u64);
        let (v, vl) = (lent.versions.as_mut_ptr(), lent.versions.len() as u64);
        // SAFETY: the pointers and lengths come from live slices that do not overlap.
        unsafe { coop_open(tasks, s, sl, v, vl) }
    }

    fn call(
        entry: Entry,
        number: u32,
        operation: u32,
        tag: u32,
        lent: Lent,
        out: &mut [u32],
    ) -> u32 {
        let (s, sl) = (lent.state.as_mut_ptr(), lent.state.len() as u64);
        let (v, vl) = (lent.versions.as_mut_ptr(), lent.versions.len() as u64);
        let (o, ol) = (out.as_mut_ptr(), out.len() as u64);
        // SAFETY: the pointers and lengths come from live slices that do not overlap.
        unsafe {
            match entry {
                Entry::StartInsert => {
                    coop_start_insert(s, sl, number, operation, tag, v, vl, o, ol)
                }
                Entry::StartRemove => {
                    coop_start_remove(s, sl, number, operation, tag, v, vl, o, ol)
                }
                Entry::StartFreeze => coop_start_freeze(s, sl, number, v, vl, o, ol),
                Entry::StartMember => coop_start_member(s, sl, number, tag, v, vl, o, ol),
                Entry::StartResponse => coop_start_response(s, sl, number, operation, v, vl, o, ol),
                Entry::Step => coop_step(s, sl, number, v, vl, o, ol),
                Entry::Show => coop_show(s, sl, number, v, vl, o, ol),
            }
        }
    }
}
