//! Counts compared values, and ends the run at the first difference.

use crate::edition::BACKING;
use std::fmt::Debug;

/// What a run of draws gave, and the counter that its stream is left with.
pub struct Run {
    pub values: Vec<u64>,
    pub counter: u64,
}

/// The longest of its kind that a run has seen, and what it is.
#[derive(Default)]
pub struct Longest {
    pub bytes: usize,
    pub of: String,
}

impl Longest {
    pub fn see(&mut self, bytes: usize, of: impl FnOnce() -> String) {
        if bytes > self.bytes {
            *self = Longest { bytes, of: of() };
        }
    }
}

#[derive(Default)]
pub struct Tally {
    pub compared: u64,
    pub sheet: Longest,
    pub page: Longest,
    /// How many lead notes have each role.
    pub roles: [u64; BACKING as usize],
}

impl Tally {
    /// A song's lead notes more, by their roles.
    pub fn see_roles(&mut self, roles: &[u8]) {
        for &role in roles {
            self.roles[usize::from(role)] += 1;
        }
    }

    /// One value more. Where the two differ, says the input and both values and ends with status 1.
    pub fn same<T: PartialEq + Debug>(
        &mut self,
        input: impl FnOnce() -> String,
        wanted: T,
        ours: T,
    ) {
        self.compared += 1;
        if wanted != ours {
            // the lock is kept to the end, so that the other thread adds no half a line
            let _lock = std::io::stdout().lock();
            println!("{}: wanted {wanted:?}, ours has {ours:?}", input());
            std::process::exit(1);
        }
    }

    /// Words more, each with the name that its place has.
    pub fn same_words(
        &mut self,
        what: impl Fn() -> String,
        name: impl Fn(usize) -> String,
        wanted: &[u64],
        ours: &[u64],
    ) {
        assert_eq!(wanted.len(), ours.len(), "both sides have as many words");
        for (k, (w, o)) in wanted.iter().zip(ours).enumerate() {
            self.same(|| format!("{} of {}", name(k), what()), w, o);
        }
    }

    /// Bytes more, each by its place.
    pub fn same_bytes(&mut self, what: impl Fn() -> String, wanted: &[u8], ours: &[u8]) {
        assert_eq!(wanted.len(), ours.len(), "both sides have as many bytes");
        for (k, (w, o)) in wanted.iter().zip(ours).enumerate() {
            self.same(|| format!("byte {k} of {}", what()), w, o);
        }
    }

    /// What another tally has, added to this one.
    pub fn join(mut self, other: Tally) -> Tally {
        self.compared += other.compared;
        self.sheet.see(other.sheet.bytes, || other.sheet.of);
        self.page.see(other.page.bytes, || other.page.of);
        for (role, count) in self.roles.iter_mut().zip(other.roles) {
            *role += count;
        }
        self
    }

    /// A run of draws more: each value, and the counter afterwards.
    pub fn same_run(&mut self, input: impl Fn() -> String, wanted: &Run, ours: &Run) {
        assert_eq!(
            wanted.values.len(),
            ours.values.len(),
            "both sides were asked for as many"
        );
        for (i, (w, o)) in wanted.values.iter().zip(&ours.values).enumerate() {
            self.same(|| format!("{}, draw {}", input(), i + 1), w, o);
        }
        let counter = || format!("{}, the counter afterwards", input());
        self.same(counter, wanted.counter, ours.counter);
    }
}
