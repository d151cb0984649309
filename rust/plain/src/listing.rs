//! A library as text.
use crate::{
    check::checked,
    layout::{values_of, Image},
    verdict::Verdict,
};
use std::fmt::Write;

/// The room that is asked for, which every listing fits into.
pub const LISTING_BYTES: usize = 147_456;

/// The listing at the front of a room.
pub fn list(bytes: &[u8], room: &mut [u8]) -> Verdict {
    let image = match checked(bytes) {
        Ok(image) => image,
        Err(refusal) => return refusal,
    };
    if room.len() < LISTING_BYTES {
        return Verdict::nowhere(16);
    }
    let text = listed(&image);
    room[..text.len()].copy_from_slice(text.as_bytes());
    Verdict::made(text.len())
}

/// A header and one line for each record in file order, or `refused` and the number. Each line ends in one line feed.
pub fn listing(bytes: &[u8]) -> String {
    match checked(bytes) {
        Ok(image) => listed(&image),
        Err(refusal) => format!("refused {}\n", refusal.number()),
    }
}

fn listed(image: &Image) -> String {
    let code = |record| image.node(record).code;
    let mut text = format!("wells {} metric {} count {} root {}\n", image.wells, image.metric, image.n(), code(image.root));
    for (v, profile) in image.records() {
        write!(text, "{} {} {}", v.code, code(v.parent), v.level).expect("a text takes any words");
        for value in values_of(profile) {
            write!(text, " {value}").expect("a text takes any words");
        }
        text.push('\n');
    }
    text
}

#[cfg(test)]
mod tests {
    use super::listing;
    use crate::images::example;

    #[test]
    fn the_example_is_listed_as_in_document_01() {
        let lines = "wells 1 metric 1 count 4 root 101\n101 101 4 0\n102 101 1 3\n103 101 3 10\n104 103 -1 11\n";
        assert_eq!(listing(&example().bytes()), lines);
    }

    #[test]
    fn a_refused_image_is_listed_by_its_number() {
        assert_eq!(listing(&[]), "refused 1\n");
        let mut damaged = example();
        damaged.records[1].level = 0;
        assert_eq!(listing(&damaged.bytes()), "refused 12\n");
    }
}
