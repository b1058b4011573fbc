// The plain axis run on a list of calls, as the library runs it.
use crate::calls::{look, number, on_bed, reading, Bed, Call, OnAxis};
use crate::plain::axis::Axis;
use crate::plain::drive::Drive;
use crate::plain::profile::Profile;

fn block<D: Drive, P: Profile>(axis: &mut Axis<D, P>, bytes: &[[u8; 2]]) -> i32 {
    let mut words = [0; 255];
    for (word, bytes) in words.iter_mut().zip(bytes) {
        *word = i16::from_le_bytes(*bytes);
    }
    number(axis.block(&words[..bytes.len()]))
}

// Makes a call and writes its answers to `out`, which has exactly their length.
fn make<D: Drive, P: Profile>(axis: &mut Axis<D, P>, call: Call, out: &mut [i32]) {
    match call {
        Call::SetUp(speed) => out[0] = number(axis.set_up(speed)),
        Call::Block(bytes) => out[0] = block(axis, bytes),
        Call::Event(code) => out[0] = number(axis.event(code)),
        Call::Ticks(_) => {
            for steps in out {
                *steps = axis.tick();
            }
        }
        Call::Reading(_) => reading(axis, out),
        Call::Drive => out.copy_from_slice(&look(axis.drive())),
    }
}

struct Run<'a> {
    calls: &'a [u8],
    out: &'a mut [i32],
}

impl OnAxis for Run<'_> {
    type Output = ();

    fn run<D: Drive, P: Profile>(self, mut axis: Axis<D, P>) {
        let (mut calls, mut out) = (self.calls, self.out);
        while !calls.is_empty() {
            let (call, after) = Call::split(calls);
            let (answers, room) = out.split_at_mut(call.answers());
            make(&mut axis, call, answers);
            (calls, out) = (after, room);
        }
    }
}

// Makes the calls of a new plain axis and writes their answers to `out`.
pub fn run_calls(bed: Bed, calls: &[u8], out: &mut [i32]) {
    on_bed(bed, Run { calls, out });
}
