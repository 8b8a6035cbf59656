//! A machine together with its pools.

use crate::machine::{self, Output, Refusal, State, Turn, BUCKET_WORDS, NODE_WORDS};
use crate::schedule::{self, Event, Opening};

pub struct Owned {
    pub state: State,
    pub nodes: Vec<u32>,
    pub buckets: Vec<u32>,
}

impl Owned {
    pub fn open(opening: Opening, nodes: usize, buckets: usize) -> Owned {
        let mut nodes = vec![0; nodes * NODE_WORDS];
        let mut buckets = vec![0; buckets * BUCKET_WORDS];
        let state = opening
            .open(&mut nodes, &mut buckets)
            .expect("numbers in bounds");
        Owned {
            state,
            nodes,
            buckets,
        }
    }

    pub fn apply(&mut self, event: Event) -> Result<Output, Refusal> {
        schedule::apply(&mut self.state, &mut self.nodes, &mut self.buckets, event)
    }

    pub fn turn(&mut self) -> Result<Turn, Refusal> {
        machine::turn(&mut self.state, &mut self.nodes, &mut self.buckets)
    }

    pub fn runs(&self, task: u32) -> bool {
        self.state
            .task
            .get(task as usize)
            .is_some_and(|task| task.running)
    }

    /// The size of the head node.
    pub fn size(&self) -> u32 {
        self.nodes[self.state.head as usize * NODE_WORDS]
    }
}
