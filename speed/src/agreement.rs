//! Before a job is timed: both sides come to the same, and that is what the job's name says.

use model::firmware::Calls;

use crate::job::{Job, Outcome, Step};

/// Does a job once on each side, the proved first, from equal buffers. What is wrong is told.
pub fn check(job: &Job, sides: &[Calls; 2]) -> Result<(), String> {
    let [proved, ordinary] = sides.each_ref().map(|calls| outcome(job, calls));
    if let Some(difference) = difference(&proved, &ordinary) {
        return Err(format!("the proved and the ordinary side: {difference}"));
    }
    if let Some(difference) = difference(&proved, &job.expected) {
        return Err(format!(
            "both sides, and what the job's name says: {difference}"
        ));
    }
    Ok(())
}

fn outcome(job: &Job, calls: &Calls) -> Outcome {
    let mut lent = job.before.clone();
    let mut steps = Vec::new();
    job.play(calls, &mut lent, |word, lent| {
        steps.push(Step {
            word,
            reply: lent.reply,
        });
    });
    Outcome { steps, lent }
}

/// The first difference of two outcomes, what the one has and what the other.
fn difference(one: &Outcome, other: &Outcome) -> Option<String> {
    of_steps(&one.steps, &other.steps)
        .or_else(|| of_bytes("the block", &one.lent.block, &other.lent.block))
        .or_else(|| of_bytes("the reply buffer", &one.lent.reply, &other.lent.reply))
        .or_else(|| of_bytes("the message", &one.lent.message, &other.lent.message))
}

fn of_steps(one: &[Step], other: &[Step]) -> Option<String> {
    let first = (1..)
        .zip(one.iter().zip(other))
        .find_map(|(number, (one, other))| {
            let difference = of_step(one, other)?;
            Some(format!("call {number}: {difference}"))
        });
    let (count, others) = (one.len(), other.len());
    first.or_else(|| (count != others).then(|| format!("{count} calls and {others}")))
}

fn of_step(one: &Step, other: &Step) -> Option<String> {
    if one.word != other.word {
        return Some(format!("the words {:#x} and {:#x}", one.word, other.word));
    }
    of_bytes("the reply buffer", &one.reply, &other.reply)
}

/// Of buffers that are equally long.
fn of_bytes(name: &str, one: &[u8], other: &[u8]) -> Option<String> {
    let place = one
        .iter()
        .zip(other)
        .position(|(one, other)| one != other)?;
    let (one, other) = (one[place], other[place]);
    Some(format!(
        "byte {place} of {name} is {one:02x} and {other:02x}"
    ))
}

#[cfg(test)]
mod tests {
    use super::*;
    use crate::job::{Incoming, Work};
    use crate::jobs::{all, DRAWING_NOTHING, FETCHED, GATHERED};
    use model::archive::ARCHIVE;
    use model::firmware::MODEL;

    #[test]
    fn all_jobs_are_what_their_names_say() {
        for job in all() {
            assert_eq!(check(&job, &[ARCHIVE, MODEL]), Ok(()), "{}", job.name);
        }
    }

    /// The job whose name begins like this.
    fn job(start: &str) -> Job {
        let job = all().into_iter().find(|job| job.name.starts_with(start));
        job.expect("a job of this name")
    }

    /// The model's calls, each with one thing wrong.
    const LOST_MESSAGE: Calls = Calls {
        packet: |block, packet, reply, message| {
            let word = (MODEL.packet)(block, packet, reply, message);
            message[7_608] = 0;
            word
        },
        ..MODEL
    };
    const OTHER_BLOCK: Calls = Calls {
        packet: |block, packet, reply, message| {
            let word = (MODEL.packet)(block, packet, reply, message);
            block[31] = 1;
            word
        },
        ..MODEL
    };
    const UNCLEARED: Calls = Calls {
        fetch: |block, reply, message| {
            let word = (MODEL.fetch)(block, reply, message);
            reply[63] ^= 1;
            word
        },
        ..MODEL
    };
    const NO_HASH: Calls = Calls {
        check: |message| (MODEL.check)(message) & 0xff,
        ..MODEL
    };

    #[test]
    fn a_side_that_differs_is_found() {
        for (calls, name, tells) in [
            (LOST_MESSAGE, GATHERED, "byte 7608 of the message"),
            (OTHER_BLOCK, "error reply", "byte 31 of the block"),
            (OTHER_BLOCK, DRAWING_NOTHING, "call 2: the words"),
            (UNCLEARED, FETCHED, "call 1: byte 63 of the reply buffer"),
            (UNCLEARED, "GetInfo", "call 3: byte 63 of the reply buffer"),
            (NO_HASH, "checked: long Greek text", "call 1: the words"),
        ] {
            for sides in [[calls, MODEL], [MODEL, calls]] {
                let wrong = check(&job(name), &sides).expect_err(name);
                assert!(wrong.starts_with("the proved and the ordinary"), "{wrong}");
                assert!(wrong.contains(tells), "{wrong}");
            }
        }
    }

    fn packets(work: &mut Work) -> &mut Vec<Incoming> {
        match work {
            Work::Packets(packets) => packets,
            _ => panic!("a job of other calls"),
        }
    }

    #[test]
    fn a_job_that_is_not_what_its_name_says_is_found() {
        let spoiled: [(_, fn(&mut Work), _); 8] = [
            (
                GATHERED,
                |work| packets(work)[9].0[4] += 1,
                "call 10: the words",
            ),
            (
                GATHERED,
                |work| packets(work).truncate(128),
                "128 calls and 129",
            ),
            (FETCHED, |work| *work = Work::Fetches(1), "1 calls and 129"),
            (
                "error reply",
                |work| packets(work)[0].0[3] = 9,
                "byte 3 of the reply",
            ),
            ("GetInfo", ask_for_nothing, "call 1: the words"),
            (
                "gathered and checked",
                |work| packets(work)[0].0[7] = 3,
                "call 129: the words",
            ),
            (
                "checked: MakeCredential",
                |work| *work = Work::Check(7_608),
                "call 1: the words",
            ),
            (
                DRAWING_NOTHING,
                |work| packets(work)[0].0[3] = 1,
                "byte 23 of the block",
            ),
        ];
        for (name, spoil, tells) in spoiled {
            let mut job = job(name);
            spoil(&mut job.work);
            let wrong = check(&job, &[ARCHIVE, MODEL]).expect_err(name);
            assert!(wrong.starts_with("both sides"), "{wrong}");
            assert!(wrong.contains(tells), "{wrong}");
        }
    }

    /// The request becomes a command that there is not.
    fn ask_for_nothing(work: &mut Work) {
        match work {
            Work::Round { request, .. } => request.0[7] = 0,
            _ => panic!("a job of other calls"),
        }
    }
}
