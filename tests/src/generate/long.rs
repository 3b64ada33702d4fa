//! Long host sessions: thousands of steps over a full set, with starts, locks, cancels, prints and failed beats among them.

use super::beats::Inputs;
use super::filled::filled;
use super::host::Session;
use super::steady::full_set;
use crate::random::Random;

/// A host session, and what is to come in it.
struct Long<'a> {
    session: Session<'a>,
    /// Lines that the host locked, each with the step of its release.
    held: Vec<(i64, i64)>,
    /// The step of the next load, after a control reset or a program end has cancelled the ID lines.
    load: Option<i64>,
}

pub fn session(random: &mut Random) -> Vec<u8> {
    let steps = random.between(2000, 6000);
    let calls = random.pick(&[0, 1, 3, 8]);
    let set = full_set(random);
    let set = if random.chance(25) { filled(random, set) } else { set };
    let session = Session::new(random, set, Inputs::steady());
    let mut long = Long { session, held: Vec::new(), load: None };
    for step in 0..steps {
        long.release(step);
        if long.load.is_some_and(|due| due <= step) {
            long.load_whole();
        }
        long.step(step, calls);
    }
    long.session.end()
}

impl Long<'_> {
    /// One step; `calls` in two thousand are control resets or program ends, and without these the first load is the only start.
    fn step(&mut self, step: i64, calls: usize) {
        let choice = self.session.random.below(2000);
        match choice {
            0..=39 => self.session.lent_beat(),
            40..=109 => self.hold(step),
            110..=149 => self.lock_or_unlock(),
            150..=159 => self.call_of_any_line(),
            160..=164 => self.name("C"),
            165..=171 => self.session.add("D"),
            172..=174 => self.session.add("I"),
            175..=179 => self.damage(),
            180 => self.session.add("K"),
            181 if calls > 0 => self.load_whole(),
            182..=184 => self.session.growth_episode(),
            185..=189 => self.session.print(),
            _ if choice >= 2000 - calls => self.call(step),
            _ => return self.session.beat(),
        }
        self.seldom_print();
    }

    /// A print after one of five calls.
    fn seldom_print(&mut self) {
        if self.session.random.chance(20) {
            self.session.print();
        }
    }

    /// A call that names a line of the set.
    fn name(&mut self, call: &str) {
        let number = self.session.random.pick(&self.session.set.numbers);
        self.session.add(format!("{call} {number}"));
    }

    fn lock_or_unlock(&mut self) {
        let call = self.session.random.pick(&["L", "U", "U"]);
        self.name(call);
    }

    fn call_of_any_line(&mut self) {
        let call = self.session.random.pick(&["L", "U", "C"]);
        let number = self.session.random.between(0, 255);
        if call != "C" || !self.session.set.numbers.contains(&number) {
            self.session.add(format!("{call} {number}"));
        }
    }

    /// Locks a line for a while, so that its condition changes or stays in the meantime.
    fn hold(&mut self, step: i64) {
        let number = self.session.random.pick(&self.session.set.numbers);
        let longest = self.session.random.pick(&[3, 30, 300]);
        self.held.push((number, step + self.session.random.between(1, longest)));
        self.session.add(format!("L {number}"));
    }

    fn release(&mut self, step: i64) {
        for (number, _) in self.held.iter().filter(|(_, release)| *release <= step) {
            self.session.add(format!("U {number}"));
        }
        self.held.retain(|(_, release)| *release > step);
    }

    /// A control reset or a program end, and a load when the lines that live on have run for a while.
    fn call(&mut self, step: i64) {
        let call = self.session.random.pick(&["R", "E"]);
        self.session.add(call);
        let beats = self.session.random.between(20, 400);
        self.load.get_or_insert(step + beats);
    }

    fn load_whole(&mut self) {
        self.load = None;
        self.session.add(format!("N {}", self.session.set.text.len()));
        self.seldom_print();
    }

    /// Damage, calls on it, and the way back.
    fn damage(&mut self) {
        self.session.damage_episode();
        self.session.add("G");
    }
}
