//! Calls the proved library with inputs that dig ever deeper, on memory between pages that may not be touched, and looks whether each
//! answer, and all memory that was lent, can be right.
mod call;
mod calls;
mod corpus;
mod draw;
mod found;
mod guard;
mod image;
mod mutate;
mod note;
mod options;
mod tally;

use call::{judge, Call, Memory};
use calls::{Add, Check, File, List, Short, Sitting, Start, Within};
use corpus::Corpus;
use guard::{Guarded, Side};
use options::{End, Options, USAGE};
use plain::data::Random;
use std::{process::ExitCode, time::Instant};
use tally::Tally;

fn main() -> ExitCode {
    let Some(options) = Options::read(std::env::args().skip(1)) else {
        eprintln!("{USAGE}");
        return ExitCode::from(2);
    };
    note::tell_of_crashes(options.seed);
    let (calls, tally, wrong) = run(&options);
    print!("seed {}, {calls} calls\n{tally}", options.seed);
    match wrong {
        None => ExitCode::SUCCESS,
        Some(what) => {
            eprintln!("fuzz: {what}, {}", note::here());
            ExitCode::FAILURE
        }
    }
}

/// Makes calls until the end or until one goes wrong. Gives their number, how they were answered, and what went wrong.
fn run(options: &Options) -> (u64, Tally, Option<String>) {
    let began = Instant::now();
    let mut fuzzer = Fuzzer::new(options);
    let mut number = 0;
    while match options.end {
        End::Calls(calls) => number < calls,
        End::Time(time) => began.elapsed() < time,
    } {
        number += 1;
        if let Err(what) = fuzzer.any_call(number) {
            return (number, fuzzer.tally, Some(what));
        }
    }
    (number, fuzzer.tally, None)
}

struct Fuzzer {
    random: Random,
    memory: Memory,
    corpus: Corpus,
    tally: Tally,
    show: Option<u64>,
}

impl Fuzzer {
    fn new(options: &Options) -> Self {
        let mut random = Random::new(options.seed);
        let (memory, corpus) = ([(); 4].map(|()| Guarded::new()), Corpus::new(&mut random));
        Fuzzer { random, memory, corpus, tally: Tally::default(), show: options.show }
    }

    fn any_call(&mut self, number: u64) -> Result<(), String> {
        note::at_call(number);
        for guarded in &mut self.memory {
            guarded.turn([Side::Before, Side::Behind][self.random.below(2)]);
        }
        match self.random.below(8) {
            0 => self.call::<Check>(number),
            1 => self.call::<Start>(number),
            2 => self.call::<Add>(number),
            3 => self.call::<File>(number),
            4 => self.call::<List>(number),
            5 => self.call::<Sitting>(number),
            6 => self.call::<Within>(number),
            _ => self.call::<Short>(number),
        }
    }

    fn call<C: Call>(&mut self, number: u64) -> Result<(), String> {
        let call = C::any(self.corpus.any_image(&mut self.random), &mut self.random);
        if self.show == Some(number) {
            println!("call {number}: {call:?}");
        }
        let (answer, left) = call.make(&mut self.memory);
        judge(&call, answer, &left).map_err(|what| format!("{}: {what}, with the answer {answer:?}", C::NAME))?;
        self.tally.count(C::NAME, &answer);
        if let Some(image) = call.image() {
            self.corpus.learn(C::NAME, image, &answer, &mut self.random);
        }
        Ok(())
    }
}
