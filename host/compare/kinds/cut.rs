//! Requests that are cut, or unknown: the program writes the byte 255 and ends. A whole request goes before, and is answered.

use super::table::Tables;
use super::write::nobody_in;
use super::{KINDS, PROBE, QUESTIONS};
use crate::kind::*;
use crate::make::lent::{given, lent, Lent};

/// Of the probe, or of the questions.
#[derive(Clone)]
pub struct Case<const ASKS: bool> {
    before: Vec<u8>,
    answer: Vec<u8>,
    cut: Vec<u8>,
    how: &'static str,
}

const MOST_BYTES: usize = 1 << 20;

/// Letters of no request, of the probe and of the questions.
const UNKNOWN: [[u8; 4]; 2] = [[0, b'F', b'w', 255], [0, b'W', b'n', 255]];

impl<const ASKS: bool> Kind for Case<ASKS> {
    const GROUPS: &'static [Group] =
        &["how (1 in 60): cut | too long | unknown letter | wrong mark | \
           not cut, and ends at 1 MiB | ends past 1 MiB"];

    fn wild(random: &mut Random) -> Self {
        let (before, answer) = any::<ASKS>(random);
        let left = MOST_BYTES - before.bytes.len();
        let mut case = Case {
            before: before.bytes,
            answer: answer.bytes,
            cut: vec![],
            how: "not cut, and ends at 1 MiB",
        };
        match random.below(6) {
            0 => {
                let (another, its_answer) = up_to::<ASKS>(left);
                case.before.extend(another.bytes);
                case.answer.extend(its_answer.bytes);
            }
            1 => (case.how, case.cut) = ("ends past 1 MiB", up_to::<ASKS>(left + 1).0.bytes),
            _ => (case.how, case.cut) = spoiled::<ASKS>(random),
        }
        case
    }

    /// Smaller without the request before it. Fewer bytes of the other may be another request.
    fn asked(&mut self, to: &mut Message) {
        if !self.how.ends_with("1 MiB") && to.turn(1).is_some() {
            self.before.clear();
            self.answer.clear();
        }
        to.fixed("whole request", &self.before)
            .fixed("cut request", &self.cut);
    }

    fn answered(&self, to: &mut Message) {
        to.fixed("answer", &self.answer);
        if !self.cut.is_empty() {
            to.number("end", 255u8);
        }
    }

    fn count(&self, _answer: &[u8], tally: &mut Tally) {
        tally.saw("how", self.how);
    }
}

/// Any request, and its answer.
fn any<const ASKS: bool>(random: &mut Random) -> (Message, Message) {
    let ours = if ASKS { QUESTIONS } else { PROBE };
    let kinds: Vec<_> = KINDS.iter().filter(|kind| kind.ours == ours).collect();
    (kinds[random.below(kinds.len())].any)(random)
}

/// A request that ends with a length (4) and these bytes, and its answer.
fn long<const ASKS: bool>(bytes: Vec<u8>) -> (Message, Message) {
    match ASKS {
        true => exchange(&nobody_in(bytes)),
        false => exchange::<Lent<Tables, false>>(&lent(given(&bytes, None))),
    }
}

/// A request of so many bytes in all, and its answer.
fn up_to<const ASKS: bool>(length: usize) -> (Message, Message) {
    let more = length - long::<ASKS>(vec![]).0.bytes.len();
    long::<ASKS>(vec![0; more])
}

/// How, and the request.
fn spoiled<const ASKS: bool>(random: &mut Random) -> (&'static str, Vec<u8>) {
    let mut request = any::<ASKS>(random).0.bytes;
    match random.below(4) {
        0 => {
            request.truncate(random.between(1, request.len() - 1));
            ("cut", request)
        }
        1 => {
            request = long::<ASKS>(vec![]).0.bytes;
            request.truncate(request.len() - 4);
            let length: u32 = random.pick(&[1, 1 << 31, u32::MAX]);
            request.extend_from_slice(&length.to_le_bytes());
            ("too long", request)
        }
        2 => {
            request[0] = random.pick(&UNKNOWN[usize::from(ASKS)]);
            ("unknown letter", request)
        }
        _ => ("wrong mark", with_wrong_mark::<ASKS>(random)),
    }
}

fn with_wrong_mark<const ASKS: bool>(random: &mut Random) -> Vec<u8> {
    let (mut message, _) = any::<ASKS>(random);
    while message.marks.is_empty() {
        message = any::<ASKS>(random).0;
    }
    let place = random.pick(&message.marks);
    message.bytes[place] = random.pick(&[2, 128, 255]);
    message.bytes
}
