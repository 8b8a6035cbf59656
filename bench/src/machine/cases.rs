//! The whole case and the yard cases of the specification, as tests.

use super::*;

/// A machine with its pools, printing outputs as a session does, but for the tags that an
/// insert or remove leaves in its bucket.
struct Session {
    state: State,
    nodes: Vec<u32>,
    buckets: Vec<u32>,
}

fn session(tasks: u32, nodes: usize, buckets: usize) -> Session {
    session_of(1, false, tasks, nodes, buckets)
}

fn session_of(
    version: u32,
    zero_withdrawn: bool,
    tasks: u32,
    nodes: usize,
    buckets: usize,
) -> Session {
    let mut nodes = vec![7; nodes * NODE_WORDS];
    let mut buckets = vec![7; buckets * BUCKET_WORDS];
    let state =
        open(tasks, version, zero_withdrawn, &mut nodes, &mut buckets).expect("a good opening");
    Session {
        state,
        nodes,
        buckets,
    }
}

fn print(task: u32, output: Result<Output, Refusal>) -> String {
    match output {
        Ok(Output::At(line)) => format!("at={task},{line}"),
        Ok(Output::End(answer, own, _)) => {
            format!("end={task},{},{own}", format!("{answer:?}").to_lowercase())
        }
        Err(refusal) => format!("refuse={}", refusal as u32),
    }
}

impl Session {
    fn start(&mut self, task: u32, call: Call, tag: u32) -> String {
        print(
            task,
            start(&mut self.state, &self.nodes, &self.buckets, task, call, tag),
        )
    }

    fn step(&mut self, task: u32) -> String {
        print(
            task,
            step(&mut self.state, &mut self.nodes, &mut self.buckets, task),
        )
    }

    /// Steps until the output starts with `stop` or is no `at`.
    fn step_until(&mut self, task: u32, stop: &str) -> String {
        loop {
            let output = self.step(task);
            if output.starts_with(stop) || !output.starts_with("at=") {
                return output;
            }
        }
    }

    fn call(&mut self, task: u32, call: Call, tag: u32) -> String {
        self.start(task, call, tag);
        self.step_until(task, "end=")
    }

    fn size(&self) -> u32 {
        self.nodes[self.state.head as usize * NODE_WORDS]
    }

    fn tags(&self) -> Vec<u32> {
        let mut out = vec![0; MAX_TAGS];
        let count = list(&self.state, &self.nodes, &self.buckets, &mut out).expect("a list");
        out.truncate(count);
        out
    }
}

#[test]
fn whole_case() {
    let mut s = session(1, 3, 4);
    let mut out = Vec::new();
    for (call, tag, steps) in [
        (Call::Insert, 17, 3),
        (Call::Grow, 0, 7),
        (Call::Contains, 17, 5),
    ] {
        out.push(s.start(0, call, tag));
        out.extend((0..steps).map(|_| s.step(0)));
    }
    let expected = "at=0,32 at=0,33 at=0,36 end=0,yes,3 \
                    at=0,20 at=0,39 at=0,40 at=0,51 at=0,24 at=0,27 at=0,28 end=0,done,7 \
                    at=0,12 at=0,13 at=0,15 at=0,16 at=0,18 end=0,yes,5";
    assert_eq!(out.join(" "), expected);
    assert_eq!((s.size(), s.tags()), (2, vec![17]));
}

#[test]
fn grow_and_shrink_at_their_limits() {
    let mut s = session(1, 6, 200);
    s.start(0, Call::Shrink, 0);
    assert_eq!(s.step(0), "end=0,limit,1");
    for size in [2, 4, 8, 16] {
        assert!(s.call(0, Call::Grow, 0).starts_with("end=0,done,"));
        assert_eq!(s.size(), size);
    }
    s.start(0, Call::Grow, 0);
    assert_eq!(s.step(0), "at=0,39");
    assert!(s.step_until(0, "end=").starts_with("end=0,done,"));
    assert_eq!(s.call(0, Call::Grow, 0), "end=0,limit,1");
    for size in [16, 8, 4, 2] {
        assert!(s.call(0, Call::Shrink, 0).starts_with("end=0,done,"));
        assert_eq!(s.size(), size);
    }
    s.start(0, Call::Shrink, 0);
    assert_eq!(s.step(0), "at=0,39");
}

#[test]
fn full_at_64_tags() {
    let mut s = session(1, 2, 2);
    for tag in 0..64 {
        assert_eq!(s.call(0, Call::Insert, tag), "end=0,yes,3");
    }
    assert_eq!(s.call(0, Call::Insert, 64), "end=0,full,3");
    assert_eq!(s.call(0, Call::Insert, 63), "end=0,no,3");
    assert_eq!(s.call(0, Call::Remove, 5), "end=0,yes,3");
    assert_eq!(s.call(0, Call::Remove, 5), "end=0,no,3");
    assert_eq!(s.call(0, Call::Insert, 63), "end=0,no,3");
    assert_eq!(s.call(0, Call::Insert, 64), "end=0,yes,3");
    assert_eq!(s.tags().len(), 64);
}

#[test]
fn an_insert_or_remove_gives_its_buckets_tags() {
    let mut s = session(1, 3, 4);
    let mut given = |call, tag| {
        s.start(0, call, tag);
        loop {
            let output = step(&mut s.state, &mut s.nodes, &mut s.buckets, 0);
            if let Ok(Output::End(answer, _, tags)) = output {
                return (answer, tags);
            }
        }
    };
    assert_eq!(given(Call::Remove, 4), (Answer::No, 0));
    assert_eq!(given(Call::Insert, 4), (Answer::Yes, 1));
    assert_eq!(given(Call::Insert, 5), (Answer::Yes, 2));
    assert_eq!(given(Call::Insert, 5), (Answer::No, 2));
    assert_eq!(given(Call::Contains, 5), (Answer::Yes, 0));
    assert_eq!(given(Call::Grow, 0), (Answer::Done, 0));
    assert_eq!(given(Call::Insert, 7), (Answer::Yes, 2));
    assert_eq!(given(Call::Remove, 5), (Answer::Yes, 1));
    assert_eq!(given(Call::Remove, 5), (Answer::No, 1));
    for tag in (9..).step_by(2).take(62) {
        given(Call::Insert, tag);
    }
    assert_eq!(given(Call::Insert, 5), (Answer::Full, 63));
    assert_eq!(given(Call::Insert, 2), (Answer::Full, 1));
}

#[test]
fn full_counts_tags_still_in_the_predecessor() {
    let mut s = session(1, 4, 16);
    for tag in 0..64 {
        s.call(0, Call::Insert, tag);
    }
    s.call(0, Call::Grow, 0);
    assert_eq!(s.tags(), (0..64).collect::<Vec<_>>());
    assert_eq!(s.call(0, Call::Insert, 100), "end=0,full,10");
    s.call(0, Call::Shrink, 0);
    assert_eq!((s.size(), s.tags()), (1, (0..64).collect::<Vec<_>>()));
    assert_eq!(s.call(0, Call::Contains, 63), "end=0,yes,5");
    assert_eq!(s.call(0, Call::Remove, 63), "end=0,yes,12");
    assert_eq!(s.call(0, Call::Contains, 63), "end=0,no,3");
}

#[test]
fn one_node_stops_a_grow() {
    let mut s = session(1, 1, 2);
    s.start(0, Call::Grow, 0);
    assert_eq!(s.step_until(0, "at=0,27"), "at=0,27");
    let before = (s.state, s.nodes.clone(), s.buckets.clone());
    assert_eq!(s.step(0), "refuse=7");
    assert_eq!(s.step(0), "refuse=7");
    assert_eq!(before, (s.state, s.nodes.clone(), s.buckets.clone()));
}

#[test]
fn two_nodes_are_taken_in_turn() {
    let mut s = session(1, 2, 3);
    assert_eq!(s.call(0, Call::Grow, 0), "end=0,done,7");
    assert_eq!(s.state.head, 1);
    assert!(s.call(0, Call::Grow, 0).starts_with("end=0,done,"));
    assert_eq!((s.state.head, s.state.last_node, s.size()), (0, 0, 4));
}

#[test]
fn one_bucket_stops_a_split() {
    let mut s = session(1, 2, 1);
    s.call(0, Call::Grow, 0);
    s.start(0, Call::Insert, 4);
    assert_eq!(s.step_until(0, "at=0,49"), "at=0,49");
    assert_eq!(s.step(0), "refuse=7");
    assert_eq!(s.state.task[0].own, 6);
}

#[test]
fn buckets_are_taken_round() {
    let mut s = session(1, 2, 3);
    let mut taken = Vec::new();
    for call in [Call::Grow, Call::Shrink, Call::Grow, Call::Shrink] {
        assert!(s.call(0, call, 0).starts_with("end=0,done,"));
        s.call(0, Call::Insert, 0);
        taken.push(s.state.last_bucket);
        assert_eq!(s.tags(), [0]);
    }
    assert_eq!(taken, [1, 0, 1, 0]);
}

#[test]
fn a_place_filled_meanwhile_is_kept() {
    let mut s = session(2, 4, 8);
    s.call(0, Call::Grow, 0);
    s.start(0, Call::Insert, 1);
    assert_eq!(s.step_until(0, "at=0,50"), "at=0,50");
    assert_eq!(s.call(1, Call::Insert, 3), "end=1,yes,10");
    assert_eq!(s.step_until(0, "end="), "end=0,yes,10");
    assert_eq!(s.tags(), [1, 3]);
    assert_eq!(s.state.last_bucket, 2);
}

fn waiting_insert() -> Session {
    let mut s = session(2, 4, 8);
    s.start(0, Call::Insert, 5);
    assert_eq!((s.step(0), s.step(0)), ("at=0,33".into(), "at=0,36".into()));
    assert_eq!(s.call(1, Call::Grow, 0), "end=1,done,7");
    s.start(1, Call::Insert, 5);
    s
}

#[test]
fn waiting_insert_meets_a_frozen_bucket() {
    let mut s = waiting_insert();
    assert_eq!(s.step_until(1, "end="), "end=1,yes,10");
    assert_eq!(s.step(0), "at=0,32");
    assert_eq!(s.step_until(0, "end="), "end=0,no,6");
    assert_eq!(s.tags(), [5]);
}

#[test]
fn waiting_insert_goes_before_the_freeze() {
    let mut s = waiting_insert();
    assert_eq!(s.step_until(1, "at=1,44"), "at=1,44");
    assert_eq!(s.step(0), "end=0,yes,3");
    assert_eq!(s.step_until(1, "end="), "end=1,no,10");
    assert_eq!(s.tags(), [5]);
}

#[test]
fn callers_refusals_and_extreme_tags() {
    let mut s = session(8, 2, 2);
    assert_eq!(s.start(7, Call::Contains, 1), "at=7,12");
    assert_eq!(s.start(7, Call::Grow, 0), "refuse=5");
    assert_eq!(s.step(6), "refuse=6");
    assert_eq!(
        (s.start(8, Call::Grow, 0), s.step(8)),
        ("refuse=4".into(), "refuse=4".into())
    );
    for tag in [0, u32::MAX] {
        assert_eq!(s.call(0, Call::Insert, tag), "end=0,yes,3");
    }
    assert_eq!(s.tags(), [0, u32::MAX]);
}

#[test]
fn a_slower_resize_is_lost() {
    let mut s = session(2, 4, 8);
    s.start(0, Call::Grow, 0);
    assert_eq!(s.step_until(0, "at=0,28"), "at=0,28");
    assert_eq!(s.call(1, Call::Grow, 0), "end=1,done,7");
    assert_eq!(s.step(0), "end=0,lost,7");
    assert_eq!(s.size(), 2);
}

#[test]
fn contains_reads_its_place_again() {
    let mut s = session(2, 4, 8);
    s.call(0, Call::Insert, 1);
    s.call(0, Call::Grow, 0);
    s.start(0, Call::Contains, 1);
    assert_eq!(s.step_until(0, "at=0,15"), "at=0,15");
    assert!(s.call(1, Call::Grow, 0).starts_with("end=1,done,"));
    assert_eq!(s.step(0), "at=0,17");
    assert_eq!(s.step_until(0, "end="), "end=0,yes,5");
}

/// 14 and 19 differ in the check digit alone.
#[test]
fn version_2_takes_tags_without_their_last_digit() {
    let mut s = session_of(2, false, 1, 8, 64);
    for tag in [14, 19, 25, u32::MAX] {
        assert_eq!(s.call(0, Call::Insert, tag), "end=0,yes,3");
    }
    s.call(0, Call::Grow, 0);
    assert_eq!(s.call(0, Call::Contains, 19), "end=0,yes,5");
    assert_eq!(s.call(0, Call::Remove, 14), "end=0,yes,10");
    assert_eq!(s.call(0, Call::Contains, 19), "end=0,yes,3");
    assert_eq!(s.call(0, Call::Contains, u32::MAX), "end=0,yes,3");
    assert_eq!(s.call(0, Call::Contains, 25), "end=0,yes,5");
    assert_eq!(s.tags(), [19, 25, u32::MAX]);
    s.call(0, Call::Grow, 0);
    s.call(0, Call::Grow, 0);
    s.call(0, Call::Shrink, 0);
    assert_eq!((s.size(), s.tags()), (4, vec![19, 25, u32::MAX]));
    assert_eq!(s.call(0, Call::Remove, 19), "end=0,yes,12");
    assert_eq!(s.call(0, Call::Insert, 19), "end=0,yes,3");
    assert_eq!(s.call(0, Call::Insert, 51), "end=0,yes,3");
}

/// A set with tag 0: it came in under the old rule, then the state was given the new one.
fn holding_zero(version: u32) -> Session {
    let mut s = session_of(version, false, 2, 8, 64);
    for tag in [0, 7, 12] {
        assert_eq!(s.call(0, Call::Insert, tag), "end=0,yes,3");
    }
    s.state.zero_withdrawn = true;
    s
}

#[test]
fn an_insert_of_tag_0_is_refused_under_the_new_rule() {
    for version in [1, 2] {
        let mut s = session_of(version, true, 2, 4, 8);
        let before = (s.state, s.nodes.clone(), s.buckets.clone());
        assert_eq!(s.start(1, Call::Insert, 0), "refuse=14");
        assert_eq!(s.start(2, Call::Insert, 0), "refuse=4");
        assert_eq!(before, (s.state, s.nodes.clone(), s.buckets.clone()));
        assert_eq!(s.call(0, Call::Remove, 0), "end=0,no,3");
        assert_eq!(s.call(0, Call::Contains, 0), "end=0,no,3");
        assert_eq!(s.call(0, Call::Insert, 1), "end=0,yes,3");
        assert_eq!(s.start(0, Call::Grow, 0), "at=0,20");
        assert_eq!(s.start(0, Call::Insert, 0), "refuse=5");
        assert_eq!(s.step_until(0, "end="), "end=0,done,7");
        assert_eq!(s.start(0, Call::Insert, 0), "refuse=14");
        s.state.chosen = 2;
        assert_eq!(s.start(0, Call::Insert, 0), "refuse=8");
        s.state.chosen = 1;
        assert_eq!((s.state.zero_withdrawn, s.tags()), (true, vec![1]));
    }
}

#[test]
fn tag_0_is_listed_until_it_leaves() {
    for version in [1, 2] {
        let mut s = holding_zero(version);
        assert_eq!(s.tags(), [0, 7, 12]);
        assert_eq!(s.call(0, Call::Grow, 0), "end=0,done,7");
        assert_eq!(s.call(1, Call::Contains, 0), "end=1,yes,5");
        assert_eq!(s.start(1, Call::Insert, 0), "refuse=14");
        assert_eq!(s.tags(), [0, 7, 12]);
        assert_eq!(s.call(1, Call::Remove, 0), "end=1,yes,10");
        assert_eq!(s.tags(), [7, 12]);
        assert_eq!(s.call(1, Call::Remove, 0), "end=1,no,3");
        assert_eq!(s.start(1, Call::Insert, 0), "refuse=14");
        s.state.zero_withdrawn = false;
        assert_eq!(s.call(1, Call::Insert, 0), "end=1,yes,3");
    }
}

/// The rule is about starts: an insert of tag 0 that runs already, in a state given so, ends.
#[test]
fn a_running_insert_of_tag_0_goes_on() {
    let mut s = session(1, 2, 2);
    s.start(0, Call::Insert, 0);
    s.state.zero_withdrawn = true;
    assert_eq!(s.step_until(0, "end="), "end=0,yes,3");
    assert_eq!(s.tags(), [0]);
}

#[test]
fn opening_bounds() {
    let opened_for = |version, tasks, nodes: usize, buckets: usize| {
        let (mut nodes, mut buckets) = (vec![3; nodes], vec![3; buckets]);
        let result = open(tasks, version, true, &mut nodes, &mut buckets);
        if result.is_err() {
            assert!(nodes.iter().chain(&buckets).all(|&word| word == 3));
        }
        // Of an accepted opening 0, if the last one chosen is T - 1 and the rule is kept.
        result.map_or_else(
            |refusal| refusal as u32,
            |state| state.chosen + u32::from(state.zero_withdrawn) - tasks,
        )
    };
    let opened = |tasks, nodes, buckets| opened_for(1, tasks, nodes, buckets);
    assert_eq!((opened(0, 0, 0), opened(9, 34, 66)), (1, 1));
    assert_eq!((opened(1, 34 * 64, 66), opened(1, 34 * 65, 0)), (0, 2));
    assert_eq!((opened(1, 0, 66), opened(1, 35, 66)), (2, 2));
    assert_eq!((opened(8, 34, 66 * 1024), opened(8, 34, 66 * 1025)), (0, 3));
    assert_eq!((opened(8, 34, 0), opened(8, 34, 65)), (3, 3));
    assert_eq!((opened_for(2, 8, 34, 66), opened_for(2, 9, 34, 66)), (0, 1));
    assert_eq!(
        (opened_for(0, 1, 34, 66), opened_for(3, 8, 34, 66)),
        (11, 11)
    );
    assert_eq!((opened_for(0, 9, 34, 66), opened_for(3, 8, 35, 66)), (1, 2));
    assert_eq!(
        (opened_for(u32::MAX, 8, 34, 65), opened_for(0, 8, 34, 0)),
        (3, 3)
    );
}

#[test]
fn list_slice_bounds() {
    let mut s = session(1, 1, 1);
    s.call(0, Call::Insert, 3);
    let mut out = [9; 64];
    assert_eq!(list(&s.state, &s.nodes, &s.buckets, &mut out), Ok(1));
    assert_eq!((out[0], out[1]), (3, 9));
    let short = list(&s.state, &s.nodes, &s.buckets, &mut out[..63]);
    assert_eq!(short, Err(Refusal::ShortList));
}
