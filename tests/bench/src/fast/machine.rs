//! The fast implementation put to the second implementation's inputs.

use super::{Choice, Pace, Ran, Refusal};
use oracle::gen::schedules;
use oracle::machine::Machine;
use oracle::Reader;

/// The fast implementation.
pub struct Fast;

fn given<T>(answer: Result<T, Refusal>) -> Result<T, oracle::Refusal> {
    answer.map_err(|refusal| match refusal {
        Refusal::Plain(number) => oracle::Refusal::plain(number),
        Refusal::Byte(at) => oracle::Refusal::byte(at),
        Refusal::Fault(number, function, block) => {
            oracle::Refusal::fault(number, function.into(), block.into())
        }
    })
}

fn pace(pace: oracle::Pace) -> Pace {
    Pace {
        n: pace.n as u32,
        c: pace.c as u32,
    }
}

impl Machine for Fast {
    fn read(&self, table: &[u8]) -> Result<(), oracle::Refusal> {
        given(super::read(table))
    }

    fn check(&self, table: &[u8]) -> Result<(), oracle::Refusal> {
        given(super::check(table))
    }

    fn depth(&self, table: &[u8]) -> Result<u8, oracle::Refusal> {
        given(super::depth(table))
    }

    fn tidy(&self, table: &[u8], out: &mut [u8]) -> Result<usize, oracle::Refusal> {
        given(super::tidy(table, out))
    }

    fn complete(
        &self,
        table: &[u8],
        out: &mut [u8],
        scratch: &mut [u32],
    ) -> Result<usize, oracle::Refusal> {
        given(super::complete(table, out, scratch))
    }

    fn start(&self, table: &[u8], pool: &mut [i32]) -> Result<(), oracle::Refusal> {
        given(super::start(table, pool))
    }

    fn choose(
        &self,
        table: &[u8],
        pool: &mut [i32],
        kind: u64,
        thread: u64,
    ) -> Result<u8, oracle::Refusal> {
        given(super::choose(table, pool, kind as u32, thread as u32))
    }

    fn can_step(&self, table: &[u8], pool: &[i32]) -> Result<Option<usize>, oracle::Refusal> {
        given(super::which(table, pool))
    }

    fn values(
        &self,
        table: &[u8],
        pool: &[i32],
        room: &mut [i32; 4],
    ) -> Result<Option<usize>, oracle::Refusal> {
        given(super::values(table, pool, room))
    }

    fn list(
        &self,
        reader: Reader,
        table: &[u8],
        pool: &[i32],
        out: &mut [u8],
    ) -> Result<usize, oracle::Refusal> {
        given(match reader {
            Reader::Operator => super::operator(table, pool, out),
            Reader::Customer => super::customer(table, pool, out),
        })
    }

    fn schedule(
        &self,
        table: &[u8],
        pool: &mut [i32],
        choices: &[schedules::Choice],
        made: &mut u64,
    ) -> Result<(), oracle::Refusal> {
        let choices: Vec<Choice> = choices
            .iter()
            .map(|&(kind, thread)| Choice {
                kind: kind as u32,
                thread: thread as u32,
            })
            .collect();
        let (count, answer) = super::schedule(table, pool, &choices);
        *made = count;
        given(answer)
    }

    fn beat(
        &self,
        table: &[u8],
        pool: &mut [i32],
        at: oracle::Pace,
        thread: u64,
    ) -> Result<(u8, u64), oracle::Refusal> {
        let made = given(super::beat(table, pool, pace(at), thread as u32))?;
        Ok((made.0, made.1.into()))
    }

    fn run(
        &self,
        table: &[u8],
        pool: &mut [i32],
        at: oracle::Pace,
        threads: &[u64],
        made: &mut [u64; 2],
    ) -> Result<(), oracle::Refusal> {
        let threads: Vec<u32> = threads.iter().map(|&thread| thread as u32).collect();
        let (Ran { steps, promotions }, answer) = super::run(table, pool, pace(at), &threads);
        *made = [steps, promotions];
        given(answer)
    }

    fn widest(&self) -> u64 {
        u32::MAX.into()
    }
}
