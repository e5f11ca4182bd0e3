//! One call on both sides, on copies of the same lent memory.

use std::cmp::Ordering;
use std::collections::BTreeMap;
use std::fmt;

use fenstubble_reference::refusal::Refusal;

use crate::engine::Engine;
use crate::memory::{Cell, Lent, Memory, Place, TABLES};
use crate::model::Model;
use crate::side::{Answer, Call, Given, Side, MOST_ORDERS, SET};

/// A call that both sides answered alike.
#[derive(Clone, Debug)]
pub struct Done {
    /// The answer.
    pub answer: Result<Given, Refusal>,
    /// What was lent, after the call.
    pub lent: Lent,
}

impl Done {
    /// The refusal's number, 0 if there is none.
    pub fn number(&self) -> u8 {
        self.answer.as_ref().err().map_or(0, |no| no.number)
    }
}

/// What differs between the two sides.
#[derive(Clone, Debug, PartialEq, Eq)]
pub struct Difference {
    /// What the engine and the model answered: the refusal's number, 0 if
    /// there is none, nothing for an answer that the interface does not have.
    /// Smaller cases keep it, so that they do not end at another difference.
    pub numbers: [Option<u8>; 2],
    /// Each difference in a line.
    pub text: String,
}

/// Makes the call on both sides and compares the answers and all that was
/// lent.
pub fn compare(call: Call, lent: &Lent) -> Result<Done, Difference> {
    let mut by_engine = lent.for_call(call);
    let mut by_model = by_engine.clone();
    let engine = Engine::make(call, &mut by_engine.lend());
    let model = Model::make(call, &mut by_model.lend());
    match (engine, model) {
        (Ok(engine), Ok(model)) if engine == model && by_engine == by_model => Ok(Done {
            answer: model,
            lent: by_model,
        }),
        (engine, model) => {
            let mut text = String::new();
            if engine != model {
                text += &format!("engine {}, model {}\n", told(&engine), told(&model));
            }
            text += &differences(&by_engine, &by_model, &lent.for_call(call));
            let number = |answer: Answer| {
                let answer = answer.ok()?;
                Some(answer.err().map_or(0, |no| no.number))
            };
            Err(Difference {
                numbers: [number(engine), number(model)],
                text,
            })
        }
    }
}

fn told(answer: &Answer) -> String {
    match answer {
        Ok(Ok(given)) => format!("{given:?}"),
        Ok(Err(no)) => no.to_string(),
        Err(odd) => format!(
            "result {}, which goes with no cells {}",
            odd.code, odd.cells
        ),
    }
}

/// Every part that is different, each with its first place.
fn differences(engine: &Lent, model: &Lent, before: &Lent) -> String {
    let mut text = difference("the head", &engine.head, &model.head, &before.head);
    for (k, name) in TABLES.iter().enumerate() {
        text += &difference(
            &format!("the table of {name}"),
            &engine.tables[k],
            &model.tables[k],
            &before.tables[k],
        );
    }
    text += &difference("the book's bytes", &engine.book, &model.book, &before.book);
    text += &difference("the buffer", &engine.buffer, &model.buffer, &before.buffer);
    text += &difference("the list", &engine.list, &model.list, &before.list);
    text += &difference("the set", &engine.set, &model.set, &before.set);
    text += &difference(
        "the requests",
        &engine.requests,
        &model.requests,
        &before.requests,
    );
    text += &difference(
        "the answers",
        &engine.answers,
        &model.answers,
        &before.answers,
    );
    text
}

fn difference<T: Cell>(
    name: &str,
    engine: &Memory<T>,
    model: &Memory<T>,
    before: &Memory<T>,
) -> String {
    let Some((place, by_engine, by_model)) = engine.difference(model) else {
        return String::new();
    };
    let place = match place {
        Place::Before(count) => format!("{count} before the lent start"),
        Place::At(at) => format!("at {at}"),
        Place::Past(count) => format!("{count} past the lent end"),
    };
    let untouched = if model == before {
        "; it should have stayed as it was"
    } else {
        ""
    };
    format!("{name} {place}: engine {by_engine:?}, model {by_model:?}{untouched}\n")
}

/// The refusals' numbers are below this one.
const NUMBERS: usize = 39;

/// How often each call got each answer, by the refusal's number.
#[derive(Clone, Debug, Default, PartialEq, Eq)]
pub struct Tally {
    answers: BTreeMap<&'static str, [usize; NUMBERS]>,
    /// Inserts whose list was lent as fewer bytes than a set's, as many, and
    /// more.
    pub lists: [usize; 3],
}

impl Tally {
    /// Counts one.
    pub fn count(&mut self, call: Call, number: u8) {
        let answers = self.answers.entry(call.name()).or_insert([0; NUMBERS]);
        answers[usize::from(number)] += 1;
        if let Call::Insert(_, length) = call {
            let place = match length.cmp(&SET) {
                Ordering::Less => 0,
                Ordering::Equal => 1,
                Ordering::Greater => 2,
            };
            self.lists[place] += 1;
        }
    }

    /// How often the call of that name got that answer.
    pub fn of(&self, name: &str, number: u8) -> usize {
        self.answers
            .get(name)
            .map_or(0, |answers| answers[usize::from(number)])
    }

    /// How many calls of that name there were.
    pub fn calls_of(&self, name: &str) -> usize {
        self.answers
            .get(name)
            .map_or(0, |answers| answers.iter().sum())
    }

    /// How many calls of that name were accepted, and how many refused.
    pub fn accepted_of(&self, name: &str) -> [usize; 2] {
        let accepted = self.of(name, 0);
        [accepted, self.calls_of(name) - accepted]
    }

    /// How many calls there were.
    pub fn calls(&self) -> usize {
        self.answers.values().flatten().sum()
    }
}

impl fmt::Display for Tally {
    fn fmt(&self, f: &mut fmt::Formatter<'_>) -> fmt::Result {
        for (name, answers) in &self.answers {
            write!(f, "{name}: accepted {}", answers[0])?;
            for (number, count) in answers.iter().enumerate().skip(1) {
                if *count > 0 {
                    write!(f, ", no {number} {count}")?;
                }
            }
            writeln!(f)?;
        }
        let [fewer, exactly, more] = self.lists;
        if fewer + exactly + more > 0 {
            writeln!(
                f,
                "lists lent as fewer bytes than a set's {fewer}, as many {exactly}, more {more}"
            )?;
        }
        Ok(())
    }
}

/// How many numbers of a list the answer takes, as the model has it; 0 for a
/// call that is refused or takes none.
pub fn numbers_needed(call: Call, lent: &Lent) -> usize {
    let mut ample = lent.for_call(call);
    ample.list = Memory::of(&[0; 3 * MOST_ORDERS]);
    match Model::make(call, &mut ample.lend()) {
        Ok(Ok(Given::Orders(rows))) => usize::from(rows) * 3,
        Ok(Ok(Given::Chains(inner, outer))) => usize::from(inner) + usize::from(outer),
        _ => 0,
    }
}
