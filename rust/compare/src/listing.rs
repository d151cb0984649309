//! The listing program beside plain Rust's listing, on images at its standard input.
use crate::call::hex;
use plain::{
    data::Random,
    images::{any_library, any_shape, damaged, example, made, planted, Data, Kind, Library, Order},
    layout::LONGEST,
};
use std::{
    io::{ErrorKind, Write},
    process::{Command, Stdio},
};

/// Runs the program on each input. What it prints has to be the text, byte for byte.
pub fn compare(program: &str, random: &mut Random) -> Result<(), String> {
    let inputs = inputs(random);
    for (what, input) in &inputs {
        let (printed, right) = (printed(program, input).map_err(|e| format!("{program}: {e}"))?, plain::listing(input));
        if printed != right.as_bytes() {
            let difference = first_difference(&String::from_utf8_lossy(&printed), &right);
            return Err(format!("{program}, on {what}: {difference}\nthe input: {}", hex(input)));
        }
    }
    println!("listing: {} texts alike", inputs.len());
    Ok(())
}

/// The first line that differs, with its end.
fn first_difference(printed: &str, right: &str) -> String {
    let (mut printed, mut right) = (printed.split_inclusive('\n'), right.split_inclusive('\n'));
    for number in 1.. {
        match (printed.next(), right.next()) {
            (None, None) => break,
            (told, right) if told == right => {}
            (told, right) => return format!("line {number} is {told:?}, where {right:?} is right"),
        }
    }
    "bytes that are no text".into()
}

fn printed(program: &str, input: &[u8]) -> std::io::Result<Vec<u8>> {
    let mut child = Command::new(program).stdin(Stdio::piped()).stdout(Stdio::piped()).spawn()?;
    let mut standard_input = child.stdin.take().expect("it is piped");
    let input = input.to_vec();
    // its output is read while it still reads, so that neither waits for the other
    let writing = std::thread::spawn(move || standard_input.write_all(&input));
    let ended = child.wait_with_output()?;
    match writing.join().expect("a write does not panic") {
        // it need not read an input that is too long to its end
        Err(e) if e.kind() != ErrorKind::BrokenPipe => Err(e),
        _ => Ok(ended.stdout),
    }
}

fn inputs(random: &mut Random) -> Vec<(String, Vec<u8>)> {
    let image = example().bytes();
    let mut inputs = vec![
        ("nothing".into(), Vec::new()),
        ("the example".into(), image.clone()),
        ("a byte more than the longest image".into(), vec![1; LONGEST + 1]),
        ("a megabyte".into(), vec![1; 1 << 20]),
        ("the largest image".into(), largest(random).bytes()),
        ("the largest image and a byte more".into(), [largest(random).bytes(), vec![0]].concat()),
        ("the longest text".into(), longest(random).bytes()),
    ];
    for length in 0..image.len() {
        inputs.push((format!("{length} bytes of the example"), image[..length].to_vec()));
    }
    for number in 1..=13 {
        let damaged = (0..1000).find_map(|_| planted(&any_library(random).bytes(), number, random));
        inputs.push((format!("an image with fault {number}"), damaged.expect("some library has a place for it")));
    }
    for round in 0..60 {
        let image = any_library(random).bytes();
        inputs.push((format!("damaged image {round}"), damaged(&image, random)));
        inputs.push((format!("random image {round}"), image));
    }
    inputs
}

/// 1,024 strains of 16 wells.
pub fn largest(random: &mut Random) -> Library {
    let tree = made(Kind { strains: 1024, wells: 16, metric: 1, data: Data::Uniform, codes: Order::Random }, random);
    any_shape(tree, random)
}

/// As large, every number in it as long as it may be: ten digits for a code, two signs for a level, six for a value. Profiles so far apart
/// have levels above 9.
pub fn longest(random: &mut Random) -> Library {
    let mut code = 1_000_000_000;
    let mut strain = || {
        code += 1 + random.below(3_000_000) as u32;
        (code, (0..16).map(|_| i16::MIN + random.below(22_769) as i16).collect())
    };
    Library::built(1, &(0..1024).map(|_| strain()).collect::<Vec<_>>())
}

#[cfg(test)]
mod tests {
    use super::*;

    #[test]
    fn the_longest_text_has_no_shorter_number() {
        let (header, line) =
            ("wells 16 metric 1 count 1024 root 1000000001\n".len(), "1000000001 1000000001 10".len() + 16 * " -10000".len() + 1);
        assert_eq!(plain::listing(&longest(&mut Random::new(1)).bytes()).len(), header + 1024 * line);
    }

    #[test]
    fn what_a_program_prints_is_read_to_its_end_and_what_it_does_not_read_is_no_fault() {
        let long = vec![7; 1 << 20];
        assert_eq!(printed("cat", &long).unwrap(), long);
        assert_eq!(printed("true", &long).unwrap(), []);
    }
}
