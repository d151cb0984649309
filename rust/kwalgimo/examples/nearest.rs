use kwalgimo::{Library, Metric, Refusal};

fn main() -> Result<(), Refusal> {
    let mut library = Library::start(2, Metric::CityBlock, 101, &[0, 0])?;
    library.add(102, &[30, 12])?;
    for strain in library.nearest(&[25, 9], 2)?.plate(0) {
        println!("strain {} at {}", strain.code, strain.distance);
    }
    Ok(())
}
