//! What a kind of case has to say: how a case is made, asked and counted, and what the second program answers.

pub use crate::message::Message;
pub use crate::random::Random;
pub use crate::tally::{Group, Tally};
use std::iter::repeat_with;

pub trait Kind: Clone + 'static {
    /// What is counted of the cases, and how often each must be met.
    const GROUPS: &'static [Group];

    /// Any one.
    fn wild(random: &mut Random) -> Self;

    /// One after another, as many as are wanted.
    fn cases(mut random: Random) -> Box<dyn Iterator<Item = Self>> {
        Box::new(repeat_with(move || Self::wild(&mut random)))
    }

    /// The request, of parts of the case, each of which may be made smaller by it.
    fn asked(&mut self, to: &mut Message);

    /// The second program's answer.
    fn answered(&self, to: &mut Message);

    /// What is known beforehand: how the answer begins, first the number that 01 gives, and of what.
    fn known(&self) -> Option<(&[u8], &str)> {
        None
    }

    /// Counts the case, whose answer has these bytes.
    fn count(&self, answer: &[u8], tally: &mut Tally);
}

pub fn request<C: Kind>(case: &C) -> Message {
    let mut message = Message::default();
    case.clone().asked(&mut message);
    message
}

pub fn answer<C: Kind>(case: &C) -> Message {
    let mut message = Message::default();
    case.answered(&mut message);
    message
}

pub fn exchange<C: Kind>(case: &C) -> (Message, Message) {
    (request(case), answer(case))
}
