//! Prints the worked examples of document 01, C1 to C12, as a program that uses the library comes to them.
use kwalgimo::{Library, Match, Metric, Record, Refusal};
use std::error::Error;

/// One well, metric 1, started and added in that order.
const STRAINS: [(u32, i16); 4] = [(101, 0), (102, 3), (103, 10), (104, 11)];

fn main() -> Result<(), Box<dyn Error>> {
    let library = built(&STRAINS)?;
    println!("started with 101, added 102, 103, 104:");
    print!("{}", library.listing());
    nearest(&library)?;
    short(&library)?;
    within(&library)?;
    growing(&library);
    levels()?;
    filing(&library)?;
    checks(&library);
    Ok(())
}

fn built(strains: &[(u32, i16)]) -> Result<Library, Refusal> {
    let (code, value) = strains[0];
    let mut library = Library::start(1, Metric::CityBlock, code, &[value])?;
    for (code, value) in &strains[1..] {
        library.add(*code, &[*value])?;
    }
    Ok(library)
}

fn records(library: &Library) -> Vec<Record> {
    library.records().collect()
}

fn nearest(library: &Library) -> Result<(), Refusal> {
    for (case, k) in [("C1", 3), ("C2", 2), ("C3", 5)] {
        println!("{case}: plate 7, k = {k}: {}", listed(library.nearest(&[7], k)?.plate(0)));
    }
    Ok(())
}

/// As a host program in C gets them: five places of code and distance, the last of which no strain takes.
fn short(library: &Library) -> Result<(), Box<dyn Error>> {
    let mut out = [0xff; 40];
    kwalgimo::short(library.bytes(), &7i16.to_le_bytes(), &mut out)?;
    let number = |bytes: &[u8; 4]| u32::from_le_bytes(*bytes);
    let places = out.as_chunks().0.iter().map(number).collect::<Vec<_>>();
    println!("the same by the short call: {places:?}");
    Ok(())
}

fn within(library: &Library) -> Result<(), Refusal> {
    for (case, radius, plate) in [("C4", 4, 7), ("C5", 0, -31), ("C6", 0, -40)] {
        let near = library.within(&[plate], radius)?;
        println!("{case}: within {radius} of {plate}: {}; measured {}", listed(&near.strains), near.measured);
    }
    Ok(())
}

fn listed(found: &[Match]) -> String {
    let found: Vec<_> = found.iter().map(|one| format!("{} at {}", one.code, one.distance)).collect();
    if found.is_empty() {
        "none".into()
    } else {
        found.join(", ")
    }
}

fn growing(library: &Library) {
    for (case, value) in [("C7", 12), ("C8", 10)] {
        let mut grown = library.clone();
        let added = match grown.add(105, &[value]) {
            Ok(()) => node(&grown, 4),
            Err(refusal) => refusal.to_string(),
        };
        println!("{case}: adding 105 with {value}: {added}");
    }
}

/// The level that a second strain gets is the fitting level of its distance.
fn levels() -> Result<(), Refusal> {
    for d in [1, 2, 3, 4, 5] {
        println!("C9: fitting level of {d}: {}", records(&built(&[(1, 0), (2, d)])?)[1].level());
    }
    // sixteen wells at opposite ends of their range: no two profiles are further apart
    let mut library = Library::start(16, Metric::CityBlock, 1, &[i16::MIN; 16])?;
    library.add(2, &[i16::MAX; 16])?;
    let distance = library.nearest(&[i16::MAX; 16], 2)?.plate(0)[1].distance;
    println!("C10: fitting level of {distance}: {}", records(&library)[1].level());
    Ok(())
}

fn filing(library: &Library) -> Result<(), Refusal> {
    let backwards = built(&STRAINS.into_iter().rev().collect::<Vec<_>>())?;
    println!("C11: started with 104, added 103, 102, 101:");
    for (record, strain) in backwards.strains().enumerate() {
        println!("  {}: {}", strain.code, node(&backwards, record));
    }
    let same = if backwards.filing_form() == *library { "the library started with 101" } else { "another library" };
    println!("  its filing form: {same}");
    Ok(())
}

fn node(library: &Library, record: usize) -> String {
    let records = records(library);
    format!("parent {}, level {}", records[usize::from(records[record].parent)].code, records[record].level())
}

fn checks(library: &Library) {
    let mut image = library.bytes().to_vec();
    image[16 + 8 + 6] = 1;
    let told = match Library::from_bytes(image) {
        Ok(_) => "accepted".into(),
        Err(refusal) => refusal.to_string(),
    };
    println!("C12: with 102's level byte set to 1: {told}");
}
