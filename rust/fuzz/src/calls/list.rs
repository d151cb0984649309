//! The listing.
use crate::call::{ensure, Answer, Call, Memory};
use kwalgimo::{Library, Strain, LISTING_BYTES};
use plain::{data::Random, lent::any_room};

#[derive(Debug, PartialEq)]
pub struct List {
    image: Vec<u8>,
    room: Vec<u8>,
}

impl Call for List {
    const NAME: &'static str = "list";

    fn refused_by(number: u8) -> bool {
        matches!(number, 1..=13 | 16)
    }

    /// A room for a listing takes its time to lend, so that most calls get a short one.
    fn any(image: Vec<u8>, random: &mut Random) -> Self {
        let room = if random.below(8) == 0 { any_room(LISTING_BYTES, random) } else { random.below(64) };
        List { image, room: vec![random.byte(); room] }
    }

    fn image(&self) -> Option<&[u8]> {
        Some(&self.image)
    }

    fn make(&self, [a, b, ..]: &mut Memory) -> (Answer, Self) {
        let (image, room) = (a.lend(&self.image), b.lend(&self.room));
        let answer = kwalgimo::list(image, room).map(|length| [length, 0]);
        (answer, List { image: image.to_vec(), room: room.to_vec() })
    }

    fn holds(&self, [length, _]: [usize; 2], left: &Self) -> Result<(), String> {
        let library = Library::from_bytes(self.image.clone()).map_err(|refusal| format!("what it took: {refusal}"))?;
        ensure(left.image == self.image, "the image is changed")?;
        ensure(length <= LISTING_BYTES && LISTING_BYTES <= self.room.len(), "there is no room for this answer")?;
        ensure(left.room[length..] == self.room[length..], "the rest of the room is changed")?;
        let text = str::from_utf8(&left.room[..length]).map_err(|_| "bytes that are no text")?;
        tells(text, &library)
    }
}

/// Whether the header tells the library's wells, metric and count, and each line behind it a strain's code and profile.
fn tells(text: &str, library: &Library) -> Result<(), String> {
    let mut lines = text.split_inclusive('\n');
    let header = format!("wells {} metric {} count {} root ", library.wells(), library.metric() as u8, library.len());
    ensure(lines.next().is_some_and(|line| line.starts_with(&header)), "the header tells of another library")?;
    ensure(lines.clone().count() == library.len(), "there are not as many lines as strains")?;
    ensure(lines.zip(library.strains()).all(|(line, strain)| tells_strain(line, &strain)), "a line tells another strain")
}

/// Code, parent's code, level, and the values.
fn tells_strain(line: &str, strain: &Strain) -> bool {
    let words: Vec<_> = line.strip_suffix('\n').map_or(Vec::new(), |words| words.split(' ').collect());
    let values: Vec<_> = strain.profile.iter().map(i16::to_string).collect();
    words.first() == Some(&&*strain.code.to_string()) && words.get(3..).is_some_and(|told| told == values)
}

#[cfg(test)]
mod tests {
    use super::*;
    use kwalgimo::Metric;

    #[test]
    fn a_listing_tells_of_its_own_library() {
        let mut library = Library::start(2, Metric::Largest, 7, &[-1, 40]).unwrap();
        library.add(9, &[5, -50]).unwrap();
        let text = library.listing();
        assert_eq!(tells(&text, &library), Ok(()));
        for (right, wrong) in [("wells 2", "wells 3"), ("count 2", "count 1"), ("-1 40\n", "1 40\n"), ("9 7", "8 7"), (" -50\n", "\n")] {
            assert!(text.contains(right) && tells(&text.replace(right, wrong), &library).is_err(), "{right}");
        }
        assert!(tells(text.trim_end(), &library).is_err() && tells(&format!("{text}\n"), &library).is_err());
    }
}
