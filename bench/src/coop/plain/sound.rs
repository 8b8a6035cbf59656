//! Spoilt memory: the words that no bucket has, after the list of refusal 8 in paper 01 and what U10 adds to it.

use super::*;

const INVOKE_LINES: [u32; 7] = [95, 96, 99, 100, 101, 102, 107];
const DO_FREEZE_LINES: [u32; 5] = [120, 121, 122, 123, 127];
const HELP_FINISH_LINES: [u32; 5] = [129, 130, 138, 139, 140];

impl Bucket<'_> {
    pub(super) fn is_sound(&self) -> bool {
        let (tasks, versions) = (self.state[TASKS] as usize, self.version_count());
        (1..=MAX_TASKS).contains(&tasks)
            && (1..=MAX_VERSIONS).contains(&versions)
            && self.versions.len() == versions * VERSION_WORDS
            && self.node() < versions
            && (self.state[LAST] as usize) < versions
            && self.state[FLAG] <= 1
            && (0..OPERATIONS).all(|n| self.operation_is_sound(n))
            && (0..versions).all(|version| self.version_is_sound(version))
            && (0..MAX_TASKS).all(|k| self.task_is_sound(k, tasks))
    }

    fn operation_is_sound(&self, n: usize) -> bool {
        let words = &self.state[operation_word(n)..operation_word(n + 1)];
        match words[TYPE] {
            0 => words.iter().all(|&word| word == 0),
            INS | REM => {
                words[RESP..].iter().all(|&word| word <= 1) && words[ENDED_TRUE] <= words[DONE]
            }
            _ => false,
        }
    }

    pub(super) fn was_invoked(&self, n: usize) -> bool {
        n < OPERATIONS && self.operation(n, TYPE) != 0
    }

    fn version_is_sound(&self, version: usize) -> bool {
        let words = self.words(version);
        let op = match self.op(version) {
            Op::Number(n) => self.was_invoked(n),
            _ => true,
        };
        op && words[1] as usize <= MAX_TAGS
            && self.set(version).windows(2).all(|pair| pair[0] < pair[1])
            && words[2 + words[1] as usize..].iter().all(|&word| word == 0)
    }

    fn task_is_sound(&self, k: usize, tasks: usize) -> bool {
        let words = &self.state[task_word(k)..][..TASK_WORDS];
        if words[RUNNING] == 0 {
            return words.iter().all(|&word| word == 0);
        }
        k < tasks
            && words[RUNNING] == 1
            && self.call_is_sound(words)
            && line_is_sound(words)
            && words[OWN] <= MAX_OWN_STEPS
            && words[O] as usize <= self.version_count()
            && (words[HELPED] == 0 || self.was_invoked(words[HELPED] as usize - 1))
    }

    fn call_is_sound(&self, task: &[u32]) -> bool {
        let n = task[OPERATION] as usize;
        match task[CALL] {
            call @ (INS | REM) => {
                task[TAG] == 0 && n < OPERATIONS && self.operation(n, TYPE) == call
            }
            FREEZE => n == 0 && task[TAG] == 0,
            HAS_MEMBER => n == 0,
            GET_RESPONSE => task[TAG] == 0 && n < OPERATIONS && self.operation(n, ENDED_TRUE) == 1,
            _ => false,
        }
    }
}

/// The line is one of the call's, and where HELPFINISH returns to is kept within HELPFINISH alone.
fn line_is_sound(task: &[u32]) -> bool {
    let (line, returns_to) = (task[LINE], task[RETURNS_TO]);
    let callers: &[u32] = match task[CALL] {
        INS | REM => &[103, 106, 126],
        FREEZE => &[126],
        _ => &[],
    };
    if HELP_FINISH_LINES.contains(&line) {
        return callers.contains(&returns_to);
    }
    let own: &[u32] = match task[CALL] {
        INS | REM => &INVOKE_LINES,
        FREEZE => &[109],
        HAS_MEMBER => &[112, 113],
        _ => &[117],
    };
    let freezes = matches!(task[CALL], INS | REM | FREEZE) && DO_FREEZE_LINES.contains(&line);
    returns_to == 0 && (freezes || own.contains(&line))
}
