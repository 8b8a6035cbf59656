//! The lines of Figure 6, a step each: those of the four calls, of DOFREEZE and of HELPFINISH.

use super::*;

/// What a line does to its task: it goes on at another line, HELPFINISH returns, or the call ends.
enum Next {
    Line(u32),
    Returns,
    Ends(Answer),
}

enum Answer {
    Truth(bool),
    Version(u32),
}

impl Bucket<'_> {
    // ---- held and taken

    fn is_held(&self, version: usize) -> bool {
        let named = version as u32 + 1;
        self.node() == version
            || (0..MAX_TASKS).any(|k| self.task(k, RUNNING) == 1 && self.task(k, O) == named)
    }

    /// The first one not held after the last taken, going round, the last taken itself at the end.
    fn free_version(&self) -> Option<usize> {
        let count = self.version_count();
        let last = self.state[LAST] as usize;
        (1..=count)
            .map(|k| (last + k) % count)
            .find(|&version| !self.is_held(version))
    }

    // ---- steps

    pub(super) fn step(&mut self, k: u32) -> Result<[u32; OUTPUT_WORDS], Refusal> {
        if !self.is_sound() {
            return Err(SPOILT);
        }
        if k >= self.state[TASKS] {
            return Err(NO_TASK);
        }
        let k = k as usize;
        if self.task(k, RUNNING) == 0 {
            return Err(IDLE);
        }
        let next = match self.task(k, LINE) {
            line @ 95..=107 => self.invoke(k, line)?,
            line @ 109..=117 => self.other_call(k, line)?,
            line @ 120..=127 => self.do_freeze(k, line)?,
            line => self.help_finish(k, line)?,
        };
        let own = (self.task(k, OWN) + 1).min(MAX_OWN_STEPS);
        self.set_task(k, OWN, own);
        let next = match next {
            Next::Returns => self.return_from_help(k),
            next => next,
        };
        Ok(match next {
            Next::Line(line) => {
                self.go_to(k, line);
                [0, line, 0, 0]
            }
            Next::Ends(answer) => {
                self.end(k);
                let (answer, version) = match answer {
                    Answer::Truth(true) => (1, 0),
                    Answer::Truth(false) => (2, 0),
                    Answer::Version(version) => (3, version),
                };
                [1, answer, own, version]
            }
            Next::Returns => unreachable!("returned above"),
        })
    }

    /// Lines that use no o have an empty o, and no operation that HELPFINISH finishes.
    fn go_to(&mut self, k: usize, line: u32) {
        if !matches!(line, 100..=102 | 113 | 122 | 123 | 130 | 138..=140) {
            self.set_task(k, O, 0);
            self.set_task(k, HELPED, 0);
        }
        self.set_task(k, LINE, line);
    }

    fn end(&mut self, k: usize) {
        self.state[task_word(k)..][..TASK_WORDS].fill(0);
    }

    /// An invoke's answer; one of true lets responses of its operation be asked for.
    fn invoke_ends(&mut self, k: usize, answer: bool) -> Next {
        if answer {
            self.set_operation(self.task(k, OPERATION) as usize, ENDED_TRUE, 1);
        }
        Next::Ends(Answer::Truth(answer))
    }

    fn help(&mut self, k: usize, caller: u32) -> Next {
        self.set_task(k, RETURNS_TO, caller);
        Next::Line(129)
    }

    fn return_from_help(&mut self, k: usize) -> Next {
        let caller = self.task(k, RETURNS_TO);
        self.set_task(k, RETURNS_TO, 0);
        match caller {
            103 => self.invoke_ends(k, true),
            106 => Next::Line(95),
            _ => Next::Line(120),
        }
    }

    /// The version o, through which a line goes.
    fn o(&self, k: usize) -> Result<usize, Refusal> {
        let word = self.task(k, O) as usize;
        word.checked_sub(1).ok_or(SPOILT)
    }

    fn helped(&self, k: usize) -> Result<usize, Refusal> {
        let word = self.task(k, HELPED) as usize;
        word.checked_sub(1).ok_or(SPOILT)
    }

    fn read_node(&mut self, k: usize, next: u32) -> Next {
        self.set_task(k, O, self.state[NODE] + 1);
        Next::Line(next)
    }

    fn invoke(&mut self, k: usize, line: u32) -> Result<Next, Refusal> {
        let n = self.task(k, OPERATION) as usize;
        let done = self.operation(n, DONE) == 1;
        Ok(match line {
            95 if self.op(self.node()) != Op::Frozen && !done => Next::Line(96),
            95 => Next::Line(107),
            96 if self.state[FLAG] == 1 => Next::Line(120),
            96 => Next::Line(99),
            99 => self.read_node(k, 100),
            100 if self.op(self.o(k)?) == Op::Nil => Next::Line(101),
            100 => self.help(k, 106),
            101 => Next::Line(if done { 95 } else { 102 }),
            102 if self.cas_op(self.o(k)?, n as u32 + 2) => self.help(k, 103),
            102 => Next::Line(95),
            _ => self.invoke_ends(k, done),
        })
    }

    /// FREEZE up to its call of DOFREEZE, HASMEMBER and GETRESPONSE.
    fn other_call(&mut self, k: usize, line: u32) -> Result<Next, Refusal> {
        Ok(match line {
            109 => {
                self.state[FLAG] = 1;
                Next::Line(120)
            }
            112 => self.read_node(k, 113),
            113 => {
                let (o, tag) = (self.o(k)?, self.task(k, TAG));
                let member = match self.op(o) {
                    Op::Number(n) if self.operation(n, KEY) == tag => {
                        self.operation(n, TYPE) == INS
                    }
                    _ => self.set(o).contains(&tag),
                };
                Next::Ends(Answer::Truth(member))
            }
            _ => {
                let n = self.task(k, OPERATION) as usize;
                Next::Ends(Answer::Truth(self.operation(n, RESP) == 1))
            }
        })
    }

    fn do_freeze(&mut self, k: usize, line: u32) -> Result<Next, Refusal> {
        Ok(match line {
            120 if self.op(self.node()) == Op::Frozen => Next::Line(127),
            120 => Next::Line(121),
            121 => self.read_node(k, 122),
            122 if self.op(self.o(k)?) == Op::Nil => Next::Line(123),
            122 => self.help(k, 126),
            123 => Next::Line(if self.cas_op(self.o(k)?, 1) { 127 } else { 120 }),
            _ if self.task(k, CALL) == FREEZE => Next::Ends(Answer::Version(self.state[NODE])),
            _ => Next::Line(107),
        })
    }

    fn help_finish(&mut self, k: usize, line: u32) -> Result<Next, Refusal> {
        Ok(match line {
            129 => self.read_node(k, 130),
            130 => match self.op(self.o(k)?) {
                Op::Number(n) => {
                    self.set_task(k, HELPED, n as u32 + 1);
                    Next::Line(138)
                }
                _ => Next::Returns,
            },
            138 => {
                let (o, n) = (self.o(k)?, self.helped(k)?);
                let present = self.set(o).contains(&self.operation(n, KEY));
                let changes = present == (self.operation(n, TYPE) == REM);
                self.set_operation(n, RESP, changes.into());
                Next::Line(139)
            }
            139 => {
                let n = self.helped(k)?;
                self.set_operation(n, DONE, 1);
                Next::Line(140)
            }
            _ => {
                let (o, n) = (self.o(k)?, self.helped(k)?);
                if self.node() == o {
                    self.replace_node(o, n)?;
                }
                Next::Returns
            }
        })
    }

    /// The bucket gets a new version: the set of o with the operation applied, and no op.
    fn replace_node(&mut self, o: usize, n: usize) -> Result<(), Refusal> {
        let key = self.operation(n, KEY);
        let mut set: Vec<u32> = self.set(o).to_vec();
        match (set.binary_search(&key), self.operation(n, TYPE)) {
            (Err(at), INS) => set.insert(at, key),
            (Ok(at), REM) => {
                set.remove(at);
            }
            _ => {}
        }
        if set.len() > MAX_TAGS {
            return Err(SPOILT);
        }
        let taken = self.free_version().ok_or(ALL_HELD)?;
        let words = &mut self.versions[taken * VERSION_WORDS..][..VERSION_WORDS];
        words.fill(0);
        words[1] = set.len() as u32;
        words[2..][..set.len()].copy_from_slice(&set);
        self.state[NODE] = taken as u32;
        self.state[LAST] = taken as u32;
        Ok(())
    }
}
