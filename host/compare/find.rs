//! Where a program's answers are not the second program's.

use crate::kind::{answer, request, Kind};
use crate::program::Program;

/// A case, and its request and the second program's answer as bytes.
pub struct Asked<C> {
    pub case: C,
    pub request: Vec<u8>,
    pub answer: Vec<u8>,
}

/// The next cases, as many as one run of the program is asked.
pub fn batch<C: Kind>(program: &Program, cases: &mut dyn Iterator<Item = C>) -> Vec<Asked<C>> {
    let mut batch = Vec::new();
    let mut bytes = 0;
    while program.takes_more(batch.len(), bytes) {
        let case = match cases.next() {
            Some(case) => case,
            None => break,
        };
        let (request, answer) = (request(&case).bytes, answer(&case).bytes);
        bytes += request.len();
        batch.push(Asked {
            case,
            request,
            answer,
        });
    }
    batch
}

/// The place of a case in the batch that the program, asked alone, answers in another way than the second program.
pub fn find<C>(program: &Program, batch: &[Asked<C>]) -> Result<Option<usize>, String> {
    let (place, middle, end) = match unlike(program, batch)? {
        None => return Ok(None),
        Some(_) if batch.len() == 1 => return Ok(Some(0)),
        Some(place) => (place, batch.len() / 2, batch.len()),
    };
    // a program that failed may have kept the answers that it had, and then it is another case
    for part in [place..place + 1, 0..middle, middle..end] {
        if let Some(found) = find(program, &batch[part.clone()])? {
            return Ok(Some(part.start + found));
        }
    }
    Err(format!(
        "it answers {} requests together in another way than each half of them",
        end
    ))
}

/// The case in whose answer the first byte stands that is not the second program's, if there is one.
fn unlike<C>(program: &Program, batch: &[Asked<C>]) -> Result<Option<usize>, String> {
    let requests: Vec<&[u8]> = batch.iter().map(|asked| &asked.request[..]).collect();
    let output = program.run(requests.concat())?;
    let mut said = &output.stdout[..];
    for (place, asked) in batch.iter().enumerate() {
        match said.strip_prefix(&asked.answer[..]) {
            Some(rest) => said = rest,
            None => return Ok(Some(place)),
        }
    }
    let right = said.is_empty() && output.status.success();
    Ok(if right { None } else { Some(batch.len() - 1) })
}
