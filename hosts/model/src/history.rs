//! Histories: a first number, and calls with what the model answered to each.

use crate::model::{Call, Outcome, World, GRANTED};

#[derive(Clone, Debug)]
pub struct Turn {
    pub caller: u64,
    pub call: Call,
    pub outcome: Outcome,
}

#[derive(Clone, Debug)]
pub struct History {
    pub title: String,
    pub first: u64,
    pub turns: Vec<Turn>,
}

/// A history in the making; its author says what each call answers, and the model must agree.
#[derive(Clone, Debug)]
pub struct Script {
    pub world: World,
    history: History,
}

impl Script {
    pub fn new(title: &str, first: u64) -> Script {
        let world = World::start(first).expect("a first number that a start takes");
        Script { world, history: History { title: title.to_string(), first, turns: Vec::new() } }
    }

    /// The root container.
    pub fn root(&self) -> u64 {
        self.history.first
    }

    /// The thread that the start makes.
    pub fn init(&self) -> u64 {
        self.history.first + 1
    }

    /// Takes the call, whatever is answered. RULES 6.14: "It leaves both areas and every output as they were,
    /// .. but for the next number (4.2)." 4.2: "Only answers 1 and 2 use up none."
    pub fn take(&mut self, caller: u64, call: Call) -> Outcome {
        let before = self.world.clone();
        let outcome = self.world.call(caller, &call);
        assert_eq!(self.world.flaws(), Vec::<String>::new(), "{}: after {:?}", self.history.title, call);
        if outcome.answer != GRANTED {
            let mut unchanged = before;
            unchanged.next = self.world.next;
            assert_eq!(self.world, unchanged, "{}: refused {:?}", self.history.title, call);
            assert_eq!((outcome.value, outcome.output.len()), (0, 0));
        }
        self.history.turns.push(Turn { caller, call, outcome: outcome.clone() });
        outcome
    }

    /// The call is granted; gives its value.
    pub fn grant(&mut self, caller: u64, call: Call) -> u64 {
        self.answer(GRANTED, caller, call).value
    }

    /// The call is granted; gives its output.
    pub fn output(&mut self, caller: u64, call: Call) -> Vec<u8> {
        self.answer(GRANTED, caller, call).output
    }

    /// The call is refused with this number.
    pub fn refuse(&mut self, refusal: u64, caller: u64, call: Call) {
        self.answer(refusal, caller, call);
    }

    fn answer(&mut self, answer: u64, caller: u64, call: Call) -> Outcome {
        let asked = format!("{}: {} asks {:?}", self.history.title, caller, call);
        let outcome = self.take(caller, call);
        assert_eq!(outcome.answer, answer, "{}", asked);
        outcome
    }

    pub fn end(self) -> History {
        self.history
    }
}
