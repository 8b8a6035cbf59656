//! The proved implementation, linked as a C static library (feature `proved`): safe functions over the declarations of
//! include/yard.h. Nothing checks the declarations against the library.
//!
//! Numbers pass as themselves, a slice as a pointer and then a length in words. Every function takes any numbers and any
//! words; that slices do not overlap is what Rust's references say.

use crate::calls::{Calls, Entry, Lent};
use crate::machine::Call;
use crate::schedule::Opening;

#[link(name = "yard_c", kind = "static")]
extern "C" {
    fn yard_open(
        tasks: u32,
        version: u32,
        zero_withdrawn: u32,
        state: *mut u32,
        state_len: usize,
        nodes: *mut u32,
        nodes_len: usize,
        buckets: *mut u32,
        buckets_len: usize,
    ) -> u32;

    fn yard_start_insert(
        state: *mut u32,
        state_len: usize,
        task: u32,
        tag: u32,
        nodes: *const u32,
        nodes_len: usize,
        buckets: *const u32,
        buckets_len: usize,
        out: *mut u32,
        out_len: usize,
    ) -> u32;

    fn yard_start_remove(
        state: *mut u32,
        state_len: usize,
        task: u32,
        tag: u32,
        nodes: *const u32,
        nodes_len: usize,
        buckets: *const u32,
        buckets_len: usize,
        out: *mut u32,
        out_len: usize,
    ) -> u32;

    fn yard_start_contains(
        state: *mut u32,
        state_len: usize,
        task: u32,
        tag: u32,
        nodes: *const u32,
        nodes_len: usize,
        buckets: *const u32,
        buckets_len: usize,
        out: *mut u32,
        out_len: usize,
    ) -> u32;

    fn yard_start_grow(
        state: *mut u32,
        state_len: usize,
        task: u32,
        nodes: *const u32,
        nodes_len: usize,
        buckets: *const u32,
        buckets_len: usize,
        out: *mut u32,
        out_len: usize,
    ) -> u32;

    fn yard_start_shrink(
        state: *mut u32,
        state_len: usize,
        task: u32,
        nodes: *const u32,
        nodes_len: usize,
        buckets: *const u32,
        buckets_len: usize,
        out: *mut u32,
        out_len: usize,
    ) -> u32;

    fn yard_step(
        state: *mut u32,
        state_len: usize,
        task: u32,
        nodes: *mut u32,
        nodes_len: usize,
        buckets: *mut u32,
        buckets_len: usize,
        out: *mut u32,
        out_len: usize,
    ) -> u32;

    fn yard_turn(
        state: *mut u32,
        state_len: usize,
        nodes: *mut u32,
        nodes_len: usize,
        buckets: *mut u32,
        buckets_len: usize,
        out: *mut u32,
        out_len: usize,
    ) -> u32;

    fn yard_list(
        state: *const u32,
        state_len: usize,
        nodes: *const u32,
        nodes_len: usize,
        buckets: *const u32,
        buckets_len: usize,
        out: *mut u32,
        out_len: usize,
    ) -> u32;

    fn yard_show(
        state: *const u32,
        state_len: usize,
        bucket: u32,
        nodes: *const u32,
        nodes_len: usize,
        buckets: *const u32,
        buckets_len: usize,
        out: *mut u32,
        out_len: usize,
    ) -> u32;

    fn yard_turns(
        state: *mut u32,
        state_len: usize,
        nodes: *mut u32,
        nodes_len: usize,
        buckets: *mut u32,
        buckets_len: usize,
        out: *mut u32,
        out_len: usize,
    ) -> u32;
}

#[link(name = "schedule_c", kind = "static")]
extern "C" {
    fn yard_run(
        state: *mut u32,
        state_len: usize,
        nodes: *mut u32,
        nodes_len: usize,
        buckets: *mut u32,
        buckets_len: usize,
        events: *const u32,
        events_len: usize,
        outputs: *mut u32,
        outputs_len: usize,
    ) -> u32;

    fn schedule_run(
        tasks: u32,
        version: u32,
        zero_withdrawn: u32,
        nodes: *mut u32,
        nodes_len: usize,
        buckets: *mut u32,
        buckets_len: usize,
        events: *const u32,
        events_len: usize,
        outputs: *mut u32,
        outputs_len: usize,
        tags: *mut u32,
        tags_len: usize,
    ) -> u32;
}

pub struct Proved;

impl Calls for Proved {
    fn open(opening: Opening, lent: Lent) -> u32 {
        let (state, state_len) = (lent.state.as_mut_ptr(), lent.state.len());
        let (nodes, nodes_len) = (lent.nodes.as_mut_ptr(), lent.nodes.len());
        let (buckets, buckets_len) = (lent.buckets.as_mut_ptr(), lent.buckets.len());
        let Opening {
            tasks,
            version,
            zero_withdrawn,
        } = opening;
        // SAFETY: the pointers and lengths come from live slices that do not overlap.
        unsafe {
            yard_open(
                tasks,
                version,
                zero_withdrawn,
                state,
                state_len,
                nodes,
                nodes_len,
                buckets,
                buckets_len,
            )
        }
    }

    fn call(entry: Entry, number: u32, tag: u32, lent: Lent, out: &mut [u32]) -> u32 {
        let (s, sl) = (lent.state.as_mut_ptr(), lent.state.len());
        let (n, nl) = (lent.nodes.as_mut_ptr(), lent.nodes.len());
        let (b, bl) = (lent.buckets.as_mut_ptr(), lent.buckets.len());
        let (o, ol) = (out.as_mut_ptr(), out.len());
        // SAFETY: the pointers and lengths come from live slices that do not overlap.
        unsafe {
            match entry {
                Entry::Start(Call::Insert) => {
                    yard_start_insert(s, sl, number, tag, n, nl, b, bl, o, ol)
                }
                Entry::Start(Call::Remove) => {
                    yard_start_remove(s, sl, number, tag, n, nl, b, bl, o, ol)
                }
                Entry::Start(Call::Contains) => {
                    yard_start_contains(s, sl, number, tag, n, nl, b, bl, o, ol)
                }
                Entry::Start(Call::Grow) => yard_start_grow(s, sl, number, n, nl, b, bl, o, ol),
                Entry::Start(Call::Shrink) => yard_start_shrink(s, sl, number, n, nl, b, bl, o, ol),
                Entry::Step => yard_step(s, sl, number, n, nl, b, bl, o, ol),
                Entry::Turn => yard_turn(s, sl, n, nl, b, bl, o, ol),
                Entry::List => yard_list(s, sl, n, nl, b, bl, o, ol),
                Entry::Show => yard_show(s, sl, number, n, nl, b, bl, o, ol),
            }
        }
    }

    fn run(lent: Lent, events: &[u32], outputs: &mut [u32]) -> u32 {
        let (s, sl) = (lent.state.as_mut_ptr(), lent.state.len());
        let (n, nl) = (lent.nodes.as_mut_ptr(), lent.nodes.len());
        let (b, bl) = (lent.buckets.as_mut_ptr(), lent.buckets.len());
        let (e, el) = (events.as_ptr(), events.len());
        // SAFETY: the pointers and lengths come from live slices that do not overlap.
        unsafe {
            yard_run(
                s,
                sl,
                n,
                nl,
                b,
                bl,
                e,
                el,
                outputs.as_mut_ptr(),
                outputs.len(),
            )
        }
    }

    fn turns(lent: Lent, out: &mut [u32]) -> u32 {
        let (s, sl) = (lent.state.as_mut_ptr(), lent.state.len());
        let (n, nl) = (lent.nodes.as_mut_ptr(), lent.nodes.len());
        let (b, bl) = (lent.buckets.as_mut_ptr(), lent.buckets.len());
        // SAFETY: the pointers and lengths come from live slices that do not overlap.
        unsafe { yard_turns(s, sl, n, nl, b, bl, out.as_mut_ptr(), out.len()) }
    }
}

/// The same as `schedule::run`, in meaning and encoding. The proved `schedule_run` is total: an event of a kind above 5 is
/// a step, and events without room for their output are not run. Here neither is given to it.
pub fn run(
    opening: Opening,
    nodes: &mut [u32],
    buckets: &mut [u32],
    events: &[u32],
    outputs: &mut [u32],
    tags: &mut [u32],
) -> u32 {
    // SAFETY: the pointers and lengths come from live slices that do not overlap.
    unsafe {
        schedule_run(
            opening.tasks,
            opening.version,
            opening.zero_withdrawn,
            nodes.as_mut_ptr(),
            nodes.len(),
            buckets.as_mut_ptr(),
            buckets.len(),
            events.as_ptr(),
            events.len(),
            outputs.as_mut_ptr(),
            outputs.len(),
            tags.as_mut_ptr(),
            tags.len(),
        )
    }
}
