//! Tests of refusal 8 and its order, on memory that no opening leads to.

use super::*;

/// Head: node 1 of size 2 with buckets 1 and none; predecessor node 0 of size 1 with bucket 0.
#[derive(Clone, PartialEq, Debug)]
struct Memory {
    state: State,
    nodes: Vec<u32>,
    buckets: Vec<u32>,
}

fn memory() -> Memory {
    let mut nodes = vec![0; 4 * NODE_WORDS];
    let mut buckets = vec![0; 4 * BUCKET_WORDS];
    let state = open(2, 1, false, &mut nodes, &mut buckets).expect("a good opening");
    let mut m = Memory {
        state,
        nodes,
        buckets,
    };
    m.state.head = 1;
    m.state.last_node = 1;
    m.state.last_bucket = 1;
    m.node(1)[..3].copy_from_slice(&[2, 1, 2]);
    m.bucket(0)[..4].copy_from_slice(&[0, 2, 4, 5]);
    m.bucket(1)[..3].copy_from_slice(&[1, 1, 4]);
    m
}

impl Memory {
    fn node(&mut self, number: usize) -> &mut [u32] {
        &mut self.nodes[number * NODE_WORDS..][..NODE_WORDS]
    }

    fn bucket(&mut self, number: usize) -> &mut [u32] {
        &mut self.buckets[number * BUCKET_WORDS..][..BUCKET_WORDS]
    }

    fn task(&mut self, call: Call, line: u32) -> &mut Task {
        self.state.task[0] = Task {
            running: true,
            call: call as u32,
            line,
            ..Task::default()
        };
        &mut self.state.task[0]
    }

    fn step(&mut self, task: u32) -> Result<Output, Refusal> {
        step(&mut self.state, &mut self.nodes, &mut self.buckets, task)
    }

    fn sound(&self) -> bool {
        sound(&self.state, &self.nodes, &self.buckets)
    }

    fn list(&self) -> Result<usize, Refusal> {
        list(&self.state, &self.nodes, &self.buckets, &mut [0; 64])
    }
}

/// Applies each change to sound memory and expects refusal 8 from every entry, nothing written.
fn each_is_refused(changes: &[fn(&mut Memory)]) {
    for (k, change) in changes.iter().enumerate() {
        let mut m = memory();
        assert!(m.sound());
        change(&mut m);
        let before = m.clone();
        assert_eq!(m.step(9), Err(Refusal::Corrupt), "step of change {k}");
        let started = start(&mut m.state, &m.nodes, &m.buckets, 9, Call::Grow, 0);
        assert_eq!(started, Err(Refusal::Corrupt), "start of change {k}");
        let listed = list(&m.state, &m.nodes, &m.buckets, &mut []);
        assert_eq!(listed, Err(Refusal::Corrupt), "list of change {k}");
        assert_eq!(m, before);
    }
}

#[test]
fn bad_numbers_of_the_state() {
    each_is_refused(&[
        |m| m.state.tasks = 0,
        |m| m.state.tasks = 9,
        |m| m.state.version = 0,
        |m| m.state.version = 3,
        |m| m.state.version = u32::MAX,
        |m| m.state.nodes = 3,
        |m| m.state.buckets = 5,
        |m| m.nodes.push(0),
        |m| m.buckets.truncate(3 * BUCKET_WORDS),
        |m| m.state.head = 4,
        |m| m.state.last_node = 4,
        |m| m.state.last_bucket = 4,
        |m| m.state.chosen = 2,
        |m| m.state.chosen = u32::MAX,
        |m| m.state.tasks = 1,
        |m| m.state.head = 2,
    ]);
}

#[test]
fn bad_nodes_and_buckets() {
    each_is_refused(&[
        |m| m.node(3)[0] = 3,
        |m| m.node(3)[0] = 64,
        |m| m.node(3)[1] = 5,
        |m| m.node(3)[1] = 3,
        |m| m.node(3)[2] = 1,
        |m| m.node(1)[3] = 5,
        |m| m.node(1)[4] = 1,
        |m| m.node(1)[33] = 1,
        |m| m.bucket(3)[0] = 2,
        |m| m.bucket(3)[1] = 65,
        |m| m.bucket(3)[65] = 1,
        |m| m.bucket(0)[4] = 6,
        |m| m.bucket(0)[3] = 4,
        |m| m.bucket(0)[2] = 6,
        |m| m.bucket(3)[1] = 2,
    ]);
}

#[test]
fn bad_tasks() {
    each_is_refused(&[
        |m| m.task(Call::Contains, 32).tag = 4,
        |m| m.task(Call::Insert, 12).tag = 4,
        |m| m.task(Call::Insert, 24).tag = 4,
        |m| m.task(Call::Grow, 36).i = 0,
        |m| m.task(Call::Grow, 45).i = 0,
        |m| m.task(Call::Grow, 20).call = 6,
        |m| m.task(Call::Grow, 20).call = 0,
        |m| m.task(Call::Grow, 20).tag = 1,
        |m| m.task(Call::Insert, 32).i = 33,
        |m| m.task(Call::Insert, 32).t = 5,
        |m| m.task(Call::Insert, 32).s = 3,
        |m| m.task(Call::Insert, 32).new_node = 3,
        |m| m.task(Call::Insert, 32).b = 5,
        |m| m.task(Call::Insert, 32).m = 5,
        |m| m.task(Call::Insert, 32).n = 5,
        |m| m.task(Call::Insert, 32).new_bucket = 5,
        |m| m.task(Call::Insert, 32).running = false,
        |m| m.state.task[1].own = 1,
        |m| m.state.task[5].n = 1,
        |m| {
            m.task(Call::Insert, 32);
            m.state.task.swap(0, 2);
        },
    ]);
}

#[test]
fn lines_through_an_empty_place() {
    let contains = [13, 15, 16, 17, 18].map(|line| (Call::Contains, line));
    let insert = [33, 36].map(|line| (Call::Insert, line));
    let grow = [24, 27, 28].map(|line| (Call::Grow, line));
    let fill = [39, 40, 43, 44, 46, 47, 48, 49, 50, 51, 52].map(|line| (Call::Shrink, line));
    for (call, line) in contains.into_iter().chain(insert).chain(grow).chain(fill) {
        let mut m = memory();
        m.task(call, line);
        let before = m.clone();
        assert!(m.sound());
        assert_eq!(m.step(0), Err(Refusal::Corrupt), "line {line}");
        assert_eq!(m, before);
    }
}

#[test]
fn the_other_place_of_a_line_is_needed_too() {
    type Fill = fn(&mut Task);
    let lines: [(u32, Fill); 6] = [
        (28, |task| task.t = 1),
        (28, |task| task.new_node = 1),
        (47, |task| task.t = 2),
        (49, |task| task.t = 2),
        (50, |task| task.t = 2),
        (50, |task| task.new_bucket = 2),
    ];
    for (line, fill) in lines {
        let mut m = memory();
        fill(m.task(Call::Grow, line));
        assert_eq!(m.step(0), Err(Refusal::Corrupt), "line {line}");
    }
}

#[test]
fn places_past_the_size() {
    for line in [39, 46, 47, 50, 51] {
        let mut m = memory();
        *m.task(Call::Grow, line) = Task {
            i: if line == 47 { 0 } else { 2 },
            t: 2,
            s: 2,
            new_bucket: 1,
            ..*m.task(Call::Grow, line)
        };
        let before = m.clone();
        assert_eq!(m.step(0), Err(Refusal::Corrupt), "line {line}");
        assert_eq!(m, before);
    }
}

#[test]
fn a_node_of_an_unlisted_size() {
    for (call, size) in [(Call::Grow, 32), (Call::Shrink, 1)] {
        let mut m = memory();
        m.node(2)[0] = size;
        m.task(call, 27).t = 3;
        assert_eq!(m.step(0), Err(Refusal::Corrupt));
    }
}

fn fill_bucket(m: &mut Memory, number: usize, tags: impl Iterator<Item = u32>) {
    let bucket = m.bucket(number);
    bucket[..2].copy_from_slice(&[1, 64]);
    bucket[2..]
        .iter_mut()
        .zip(tags)
        .for_each(|(word, tag)| *word = tag);
}

#[test]
fn a_65th_tag_in_a_bucket() {
    let mut m = memory();
    fill_bucket(&mut m, 2, (0..64).map(|k| 2 * k + 1));
    *m.task(Call::Insert, 36) = Task {
        b: 3,
        tag: 4,
        ..*m.task(Call::Insert, 36)
    };
    assert_eq!(m.step(0), Err(Refusal::Corrupt));
    m.state.task[0].tag = 5;
    assert_eq!(m.step(0), Ok(Output::End(Answer::No, 1, 64)));
    *m.task(Call::Shrink, 49) = Task {
        t: 1,
        m: 3,
        n: 2,
        ..*m.task(Call::Shrink, 49)
    };
    assert_eq!(m.step(0), Err(Refusal::Corrupt));
    m.bucket(1)[2] = 5;
    assert_eq!(m.step(0), Ok(Output::At(50)));
}

#[test]
fn refusal_8_of_a_step_goes_before_7() {
    let mut m = memory();
    fill_bucket(&mut m, 2, 10..74);
    m.bucket(3)[0] = 1;
    m.node(1)[3] = 4;
    *m.task(Call::Shrink, 49) = Task {
        t: 1,
        m: 3,
        n: 2,
        ..*m.task(Call::Shrink, 49)
    };
    assert_eq!(m.step(0), Err(Refusal::Corrupt));
    m.state.task[0].n = 0;
    assert_eq!(m.step(0), Err(Refusal::NoFreeRecord));
}

#[test]
fn more_than_64_listed_tags() {
    let mut m = memory();
    fill_bucket(&mut m, 1, (0..64).map(|k| 2 * k));
    assert_eq!(m.list(), Err(Refusal::Corrupt));
    m.bucket(0)[3] = 6;
    assert_eq!(m.list(), Ok(64));
    m.bucket(0)[3] = 7;
    *m.task(Call::Insert, 36) = Task {
        b: 2,
        tag: 1,
        ..*m.task(Call::Insert, 36)
    };
    let mut present = m.clone();
    present.state.task[0].tag = 2;
    assert_eq!(m.step(0), Ok(Output::End(Answer::Full, 1, 64)));
    assert_eq!(present.step(0), Ok(Output::End(Answer::No, 1, 64)));
}

#[test]
fn tags_of_another_residue_are_not_listed() {
    let mut m = memory();
    m.bucket(1)[..4].copy_from_slice(&[1, 2, 4, 5]);
    assert_eq!(m.list(), Ok(2));
    m.bucket(0)[..4].copy_from_slice(&[0, 1, 4, 0]);
    assert_eq!(m.list(), Ok(1));
    m.bucket(1)[..5].copy_from_slice(&[1, 3, 14, 25, 36]);
    assert_eq!(m.list(), Ok(2));
    m.state.version = 2;
    assert_eq!(m.list(), Ok(1));
}

#[test]
fn a_cycle_of_predecessors_ends() {
    let mut m = memory();
    m.node(0)[1] = 2;
    m.task(Call::Grow, 27).t = 1;
    assert_eq!(m.step(0), Ok(Output::At(28)));
    assert_eq!((m.state.last_node, m.state.task[0].new_node), (2, 3));
}

#[test]
fn own_steps_stay_at_their_limit() {
    let mut m = memory();
    m.task(Call::Contains, 12).own = u16::MAX;
    assert_eq!(m.step(0), Ok(Output::At(13)));
    assert_eq!(m.state.task[0].own, u16::MAX);
    assert_eq!(m.step(0), Ok(Output::At(18)));
    assert_eq!(m.step(0), Ok(Output::End(Answer::No, u16::MAX, 0)));
}
