//! One method for each line. A line that is refused has written nothing:
//! it works on a copy of the task's record and touches the pools last.

use super::node::{key, place_of_key, pred, size, slot, PLACES, PRED, SIZE};
use super::{bucket, held, listed};
use super::{Answer, Bucket, Call, Node, Refusal, State, Task};
use super::{MAX_SIZE, MAX_TAGS, NODE_WORDS};

/// The next line, or an answer with the number of tags in the bucket of an insert or remove.
pub enum Next {
    Line(u32),
    End(Answer, u32),
}

type Moved = Result<Next, Refusal>;

pub struct Step<'a> {
    pub state: &'a mut State,
    pub nodes: &'a mut [Node],
    pub buckets: &'a mut [Bucket],
    pub task: Task,
}

fn to(line: u32) -> Moved {
    Ok(Next::Line(line))
}

fn end(answer: Answer) -> Moved {
    Ok(Next::End(answer, 0))
}

/// The end of an insert or remove, with its bucket as it is afterwards.
fn end_with(answer: Answer, bucket: &Bucket) -> Moved {
    Ok(Next::End(answer, bucket::count(bucket) as u32))
}

/// The record number in a place that has to be filled.
fn filled(place: u32) -> Result<usize, Refusal> {
    place
        .checked_sub(1)
        .map(|number| number as usize)
        .ok_or(Refusal::Corrupt)
}

/// Place `i` of a node, which has to be within its size.
fn place(node: &Node, i: u32) -> Result<u32, Refusal> {
    if i < size(node) {
        Ok(node[PLACES + i as usize])
    } else {
        Err(Refusal::Corrupt)
    }
}

impl Step<'_> {
    pub fn line(&mut self) -> Moved {
        match self.task.line {
            12 => self.read_head(13),
            13 => self.line_13(),
            15 => self.line_15(),
            16 => self.line_16(),
            17 => self.line_17(),
            18 => self.line_18(),
            20 => self.line_20(),
            24 => self.line_24(),
            27 => self.line_27(),
            28 => self.line_28(),
            32 => self.read_head(33),
            33 => self.line_33(),
            36 => self.line_36(),
            39 => self.line_39(),
            40 => self.line_40(),
            43 => self.line_43(),
            44 => self.freeze(self.task.m, 49),
            46 => self.line_46(),
            47 => self.line_47(),
            48 => self.freeze(self.task.m, 52),
            49 => self.line_49(),
            50 => self.line_50(),
            51 => self.line_51(),
            52 => self.freeze(self.task.n, 49),
            _ => Err(Refusal::Corrupt),
        }
    }

    fn t(&self) -> Result<&Node, Refusal> {
        Ok(&self.nodes[filled(self.task.t)?])
    }

    fn s(&self) -> Result<&Node, Refusal> {
        Ok(&self.nodes[filled(self.task.s)?])
    }

    /// What of the task's tag is taken mod a size.
    fn key(&self) -> u32 {
        key(self.state.version, self.task.tag)
    }

    fn is(&self, call: Call) -> bool {
        self.task.call == call as u32
    }

    // Lines 12 and 32.
    fn read_head(&mut self, next: u32) -> Moved {
        self.task.t = self.state.head + 1;
        to(next)
    }

    // Contains.

    fn line_13(&mut self) -> Moved {
        self.task.b = place_of_key(self.t()?, self.key());
        to(if self.task.b != 0 { 18 } else { 15 })
    }

    fn line_15(&mut self) -> Moved {
        self.task.s = pred(self.t()?);
        to(if self.task.s == 0 { 17 } else { 16 })
    }

    fn line_16(&mut self) -> Moved {
        self.task.b = place_of_key(self.s()?, self.key());
        to(18)
    }

    fn line_17(&mut self) -> Moved {
        self.task.b = place_of_key(self.t()?, self.key());
        to(18)
    }

    fn line_18(&mut self) -> Moved {
        let b = &self.buckets[filled(self.task.b)?];
        let found = bucket::search(b, self.task.tag).is_ok();
        end(if found { Answer::Yes } else { Answer::No })
    }

    // Insert and remove.

    fn line_33(&mut self) -> Moved {
        let t = self.t()?;
        let i = slot(self.key(), size(t));
        self.task.b = place(t, i)?;
        if self.task.b != 0 {
            return to(36);
        }
        self.task.i = i;
        to(39)
    }

    fn line_36(&mut self) -> Moved {
        let number = filled(self.task.b)?;
        if bucket::is_frozen(&self.buckets[number]) {
            let Task {
                running, call, tag, ..
            } = self.task;
            self.task = Task {
                running,
                call,
                tag,
                ..Task::default()
            };
            to(32)
        } else if self.is(Call::Insert) {
            self.insert(number)
        } else {
            self.remove(number)
        }
    }

    /// A tag that is there goes before the count of listed tags.
    fn insert(&mut self, number: usize) -> Moved {
        let Err(index) = bucket::search(&self.buckets[number], self.task.tag) else {
            return end_with(Answer::No, &self.buckets[number]);
        };
        if listed::count(self.state, self.nodes, self.buckets) >= MAX_TAGS {
            return end_with(Answer::Full, &self.buckets[number]);
        }
        let b = &mut self.buckets[number];
        if bucket::count(b) == MAX_TAGS {
            return Err(Refusal::Corrupt);
        }
        bucket::insert_at(b, index, self.task.tag);
        end_with(Answer::Yes, b)
    }

    fn remove(&mut self, number: usize) -> Moved {
        let b = &mut self.buckets[number];
        match bucket::search(b, self.task.tag) {
            Ok(index) => {
                bucket::remove_at(b, index);
                end_with(Answer::Yes, b)
            }
            Err(_) => end_with(Answer::No, b),
        }
    }

    // Grow and shrink.

    fn line_20(&mut self) -> Moved {
        let limit = if self.is(Call::Grow) {
            MAX_SIZE as u32
        } else {
            1
        };
        if size(&self.nodes[self.state.head as usize]) == limit {
            return end(Answer::Limit);
        }
        self.task.t = self.state.head + 1;
        self.task.i = 0;
        to(39)
    }

    fn line_24(&mut self) -> Moved {
        self.nodes[filled(self.task.t)?][PRED] = 0;
        to(27)
    }

    fn line_27(&mut self) -> Moved {
        let old = size(self.t()?);
        let new = if self.is(Call::Grow) {
            2 * old
        } else {
            old / 2
        };
        if new == 0 || new > MAX_SIZE as u32 {
            return Err(Refusal::Corrupt);
        }
        let mut node = [0; NODE_WORDS];
        node[SIZE] = new;
        node[PRED] = self.task.t;
        self.task.new_node =
            held::take_node(self.state, self.nodes, node).ok_or(Refusal::NoFreeRecord)?;
        to(28)
    }

    fn line_28(&mut self) -> Moved {
        let t = filled(self.task.t)? as u32;
        let new = filled(self.task.new_node)? as u32;
        if self.state.head != t {
            return end(Answer::Lost);
        }
        self.state.head = new;
        end(Answer::Done)
    }

    // Filling place i of t.

    fn line_39(&mut self) -> Moved {
        self.task.b = place(self.t()?, self.task.i)?;
        to(40)
    }

    fn line_40(&mut self) -> Moved {
        let t = self.t()?;
        let t_size = size(t);
        self.task.s = pred(t);
        if self.task.b != 0 || self.task.s == 0 {
            return to(51);
        }
        to(if t_size == 2 * size(self.s()?) {
            43
        } else {
            46
        })
    }

    fn line_43(&mut self) -> Moved {
        let s = self.s()?;
        self.task.m = place(s, slot(self.task.i, size(s)))?;
        to(44)
    }

    // Lines 44, 48 and 52.
    fn freeze(&mut self, place: u32, next: u32) -> Moved {
        bucket::freeze(&mut self.buckets[filled(place)?]);
        to(next)
    }

    fn line_46(&mut self) -> Moved {
        self.task.m = place(self.s()?, self.task.i)?;
        to(47)
    }

    fn line_47(&mut self) -> Moved {
        let i = self.task.i + size(self.t()?);
        self.task.n = place(self.s()?, i)?;
        to(48)
    }

    fn line_49(&mut self) -> Moved {
        let t_size = size(self.t()?);
        let m = &self.buckets[filled(self.task.m)?];
        let new = match self.task.n {
            0 => bucket::split(m, self.state.version, t_size, self.task.i),
            n => bucket::merge(m, &self.buckets[filled(n)?]).ok_or(Refusal::Corrupt)?,
        };
        self.task.new_bucket = held::take_bucket(self.state, self.nodes, self.buckets, new)
            .ok_or(Refusal::NoFreeRecord)?;
        to(50)
    }

    fn line_50(&mut self) -> Moved {
        filled(self.task.new_bucket)?;
        if place(self.t()?, self.task.i)? == 0 {
            let t = &mut self.nodes[filled(self.task.t)?];
            t[PLACES + self.task.i as usize] = self.task.new_bucket;
        }
        to(51)
    }

    fn line_51(&mut self) -> Moved {
        let t = self.t()?;
        let (b, last) = (place(t, self.task.i)?, self.task.i + 1 == size(t));
        self.task = Task {
            b: 0,
            s: 0,
            m: 0,
            n: 0,
            new_bucket: 0,
            ..self.task
        };
        if self.is(Call::Insert) || self.is(Call::Remove) {
            self.task.b = b;
            return to(36);
        }
        self.task.i += 1;
        to(if last { 24 } else { 39 })
    }
}
