//! Records in fragments through the C functions, compared with the rules over again.

use oracle::record::{answers, listed, one_operand, width};
use oracle::{Counter, Random};
use plyorchard::{AnswerWriter, Refusal, Stream};
use std::io::{self, ErrorKind, Write};

/// The refusals of a stream's calls, as the rules number them.
const NO_ROOM: u8 = 10;
const WRONG_LENGTH: u8 = 13;

/// A byte that no call is to touch.
const UNTOUCHED: u8 = 0xA5;

/// A stream by the rules: the bytes since the last whole record.
#[derive(Default)]
struct Model {
    kept: Vec<u8>,
}

impl Model {
    /// The answers to the first bytes, if they fit, in front of the output; the other bytes are kept.
    fn take(&mut self, all: &[u8], whole: usize, output: &mut [u8]) -> Result<usize, u8> {
        let written = answers(&all[..whole]);
        let size = written.len();
        output
            .get_mut(..size)
            .ok_or(NO_ROOM)?
            .copy_from_slice(&written);
        self.kept = all[whole..].to_vec();
        Ok(size)
    }

    fn feed(&mut self, fragment: &[u8], output: &mut [u8]) -> Result<usize, u8> {
        let all = [&self.kept, fragment].concat();
        self.take(&all, all.len() / 17 * 17, output)
    }

    fn end(&mut self, output: &mut [u8]) -> Result<usize, u8> {
        let all = self.kept.clone();
        self.take(&all, all.len(), output)
    }

    /// The state as C has it: what is kept, zeros up to 16 bytes, and the count.
    fn state(&self) -> [u8; 17] {
        let mut state = [0; 17];
        state[..self.kept.len()].copy_from_slice(&self.kept);
        state[16] = self.kept.len() as u8;
        state
    }
}

/// A call: a fragment, or the end of the input.
type Call<'a> = Option<&'a [u8]>;

/// Our stream and the model side by side; what the accepted calls wrote, joined.
struct Both<'a> {
    calls: &'a mut Counter,
    ours: Stream,
    model: Model,
    wrote: Vec<u8>,
}

impl Both<'_> {
    fn new(calls: &mut Counter) -> Both<'_> {
        Both {
            calls,
            ours: Stream::new(),
            model: Model::default(),
            wrote: Vec::new(),
        }
    }

    /// Makes a call on both, with an output of so many bytes; compares the refusal, how many bytes were written, the
    /// output whole, and the state, which stays where the call is refused. Gives the model's answer.
    fn call(&mut self, call: Call, room: usize) -> Result<usize, u8> {
        let before = self.ours.to_bytes();
        let (mut ours, mut model) = (vec![UNTOUCHED; room], vec![UNTOUCHED; room]);
        let (answer, right) = match call {
            Some(fragment) => (
                self.ours.feed_answer(fragment, &mut ours),
                self.model.feed(fragment, &mut model),
            ),
            None => (self.ours.end_answer(&mut ours), self.model.end(&mut model)),
        };
        let numbers = (answer.refusal, answer.value);
        let safe = answer.result().map_err(Refusal::number);
        self.calls
            .answer((call, room, before), safe, numbers, right);
        let state = right.map_or(before, |_| self.model.state());
        assert_eq!(self.ours.to_bytes(), state, "{call:?} from {before:?}");
        assert!(ours == model, "{call:?} from {before:?}: {ours:?}");
        self.wrote.extend(&ours[..right.unwrap_or(0)]);
        right
    }

    /// Feeds the fragments and makes an end, all with room, and compares what was written with the answers to the whole.
    fn all(&mut self, fragments: &[&[u8]]) {
        self.wrote.clear();
        for fragment in fragments {
            let room = 9 * (fragment.len() / 17 + 1);
            self.call(Some(fragment), room).expect("there is room");
        }
        self.call(None, 9).expect("there is room");
        let input = fragments.concat();
        self.calls.value(input.len(), &self.wrote, &answers(&input));
    }
}

/// Records of every operation and width, one in eight of them any 17 bytes.
fn records(random: &mut Random, count: usize) -> Vec<u8> {
    let listed = listed();
    let mut record = || {
        let (operation, code) = random.pick(&listed);
        let (a, b) = (random.word(width(code)), random.word(width(code)));
        let b = if one_operand(operation) { 0 } else { b };
        let (head, a, b) = match random.below(8) {
            0 => (random.bits() as u8, random.bits(), random.bits()),
            _ => (operation << 4 | code, a, b),
        };
        [&[head][..], &a.to_be_bytes(), &b.to_be_bytes()].concat()
    };
    (0..count).flat_map(|_| record()).collect()
}

/// Fragments of random lengths up to a limit, one in eight of them empty.
fn cut<'a>(random: &mut Random, mut input: &'a [u8], limit: usize) -> Vec<&'a [u8]> {
    let mut fragments = Vec::new();
    while !input.is_empty() {
        let length = match random.below(8) {
            0 => 0,
            _ => random.below(limit.min(input.len())) + 1,
        };
        let (fragment, rest) = input.split_at(length);
        fragments.push(fragment);
        input = rest;
    }
    fragments
}

#[test]
fn random_cuttings_of_2000_records() {
    let mut random = Random::new(51);
    let input = records(&mut random, 2000);
    let mut calls = Counter::new("stream, 2,000 records cut anywhere");
    let mut both = Both::new(&mut calls);
    for limit in [1, 2, 16, 17, 18, 34, 100, 1000, 5000, 40_000] {
        for _ in 0..10 {
            let length = input.len() - random.below(18);
            both.all(&cut(&mut random, &input[..length], limit));
        }
    }
}

#[test]
fn every_cut_of_60_bytes_into_three() {
    let input = &records(&mut Random::new(52), 4)[..60];
    let mut calls = Counter::new("stream, 60 bytes in three");
    let mut both = Both::new(&mut calls);
    for second in 0..=60 {
        for first in 0..=second {
            both.all(&[&input[..first], &input[first..second], &input[second..]]);
        }
    }
}

#[test]
fn outputs_one_byte_short() {
    let input = records(&mut Random::new(53), 6);
    let mut calls = Counter::new("stream, outputs short and enough");
    for kept in 0..17 {
        for length in 0..=80 {
            let mut both = Both::new(&mut calls);
            both.call(Some(&input[..kept]), 0).expect("no record yet");
            let fragment = &input[kept..kept + length];
            let room = (kept + length) / 17 * 9;
            if room > 0 {
                assert_eq!(both.call(Some(fragment), room - 1), Err(NO_ROOM));
                assert_eq!(both.call(Some(fragment), 0), Err(NO_ROOM));
            }
            assert_eq!(both.call(Some(fragment), room), Ok(room));
            if (kept + length) % 17 > 0 {
                assert_eq!(both.call(None, 8), Err(NO_ROOM));
                assert_eq!(both.call(None, 9), Ok(9));
            }
            assert_eq!(both.call(None, 0), Ok(0));
        }
    }
}

#[test]
fn an_end_in_the_middle() {
    let input = &records(&mut Random::new(54), 4)[..60];
    let mut calls = Counter::new("stream, an end in the middle");
    let mut both = Both::new(&mut calls);
    for middle in 0..=60 {
        for size in [1, 7, 16, 17, 60] {
            let (front, back) = input.split_at(middle);
            both.all(&front.chunks(size).collect::<Vec<_>>());
            assert_eq!(both.ours, Stream::new());
            both.all(&back.chunks(size).collect::<Vec<_>>());
        }
    }
}

#[test]
fn states_with_every_count() {
    let mut random = Random::new(55);
    let mut calls = Counter::new("stream, every count");
    for count in 0..=u8::MAX {
        for length in [0, 1, 16, 17, 33, 34, 60] {
            for room in [0, 8, 9, 17, 18, 40] {
                let fragment = records(&mut random, 4)[..length].to_vec();
                let mut state = [(); 17].map(|()| random.bits() as u8);
                state[16] = count;
                for call in [Some(&fragment[..]), None] {
                    if count > 16 {
                        stays(&mut calls, state, call, room);
                        continue;
                    }
                    let mut both = Both::new(&mut calls);
                    both.ours = Stream::from_bytes(state);
                    both.model.kept = state[..usize::from(count)].to_vec();
                    let _ = both.call(call, room);
                }
            }
        }
    }
}

/// A state that no call leaves is refused with 13, and neither it nor the output changes.
fn stays(calls: &mut Counter, state: [u8; 17], call: Call, room: usize) {
    let mut stream = Stream::from_bytes(state);
    let mut output = vec![UNTOUCHED; room];
    let answer = match call {
        Some(fragment) => stream.feed_answer(fragment, &mut output),
        None => stream.end_answer(&mut output),
    };
    let numbers = (answer.refusal, answer.value);
    let safe = answer.result().map_err(Refusal::number);
    calls.answer((state, call, room), safe, numbers, Err(WRONG_LENGTH));
    assert_eq!(stream.to_bytes(), state);
    assert!(output.iter().all(|byte| *byte == UNTOUCHED));
}

/// An inner writer that takes few bytes at a time, or none, and fails now and then.
struct Slow {
    random: Random,
    wrote: Vec<u8>,
}

impl Write for Slow {
    fn write(&mut self, bytes: &[u8]) -> io::Result<usize> {
        match self.random.below(8) {
            0 => Err(ErrorKind::Interrupted.into()),
            1 => Err(ErrorKind::WouldBlock.into()),
            2 => Ok(0),
            _ => {
                let size = bytes.len().min(1 + self.random.below(3000));
                self.wrote.extend(&bytes[..size]);
                Ok(size)
            }
        }
    }

    fn flush(&mut self) -> io::Result<()> {
        Ok(())
    }
}

/// Makes a call until it succeeds; a failure is one of the inner writer's.
fn insist<T>(mut call: impl FnMut() -> io::Result<T>) -> T {
    loop {
        match call() {
            Ok(value) => return value,
            Err(why) => {
                let kind = why.kind();
                assert!(kind == ErrorKind::WouldBlock || kind == ErrorKind::WriteZero);
            }
        }
    }
}

#[test]
fn a_writer_that_answers_into_a_slow_one() {
    let mut random = Random::new(56);
    let input = records(&mut random, 2000);
    let mut calls = Counter::new("stream, a writer over a slow one");
    for limit in [1, 17, 100, 5000, 40_000] {
        let length = input.len() - random.below(18);
        let mut writer = AnswerWriter::new(Slow {
            random: Random::new(57),
            wrote: Vec::new(),
        });
        for _ in 0..2 {
            for fragment in cut(&mut random, &input[..length], limit) {
                let mut rest = fragment;
                while !rest.is_empty() {
                    rest = &rest[insist(|| writer.write(rest))..];
                }
            }
            insist(|| writer.end());
        }
        let right = answers(&input[..length]);
        calls.value(
            length,
            writer.into_inner().wrote,
            [&right[..], &right].concat(),
        );
    }
}

#[test]
fn a_writer_answers_with_the_write_that_completes_a_record() {
    let input = records(&mut Random::new(58), 3);
    let mut calls = Counter::new("stream, a writer byte by byte");
    let mut writer = AnswerWriter::new(Vec::new());
    for length in 1..=input.len() {
        writer
            .write_all(&input[length - 1..length])
            .expect("a vector takes all");
        calls.value(
            length,
            writer.get_ref(),
            &answers(&input[..length / 17 * 17]),
        );
    }
}
