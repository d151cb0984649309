//! The sitting.
use crate::{
    call::{ensure, Answer, Call, Memory},
    draw,
    found::in_order,
    image,
};
use plain::{data::Random, lent::any_room, near::resized};

#[derive(Debug, PartialEq)]
pub struct Sitting {
    image: Vec<u8>,
    plates: Vec<i16>,
    neighbours: u32,
    codes: Vec<u32>,
    distances: Vec<u32>,
}

impl Call for Sitting {
    const NAME: &'static str = "sitting";

    fn refused_by(number: u8) -> bool {
        matches!(number, 1..=16)
    }

    fn any(image: Vec<u8>, random: &mut Random) -> Self {
        let count = [1, 1 + random.below(4), random.below(67)][random.below(3)];
        let plates: Vec<i16> = (0..count).flat_map(|_| draw::profile(&image, random)).collect();
        let plates = if count == 1 && random.below(8) == 0 { resized(&plates, random) } else { plates };
        let neighbours = [1 + random.below(6) as u32, random.below(35) as u32, random.number()][random.below(16).saturating_sub(13)];
        let needed = count * neighbours.min(40) as usize;
        let (codes, distances) = (any_room(needed, random), any_room(needed, random));
        Sitting { image, plates, neighbours, codes: draw::numbers(codes, random), distances: draw::numbers(distances, random) }
    }

    fn image(&self) -> Option<&[u8]> {
        Some(&self.image)
    }

    fn make(&self, [a, b, c, d]: &mut Memory) -> (Answer, Self) {
        let neighbours = self.neighbours;
        let (image, plates) = (a.lend(&self.image), b.lend(&self.plates));
        let (codes, distances) = (c.lend(&self.codes), d.lend(&self.distances));
        let answer = kwalgimo::sitting(image, plates, neighbours, codes, distances).map(|filled| [filled, 0]);
        let (image, plates, codes, distances) = (image.to_vec(), plates.to_vec(), codes.to_vec(), distances.to_vec());
        (answer, Sitting { image, plates, neighbours, codes, distances })
    }

    fn holds(&self, [filled, _]: [usize; 2], left: &Self) -> Result<(), String> {
        let (k, plates) = (self.neighbours as usize, self.plates.len() / image::wells(&self.image));
        ensure((&left.image, &left.plates) == (&self.image, &self.plates), "the image or the plates are changed")?;
        ensure((1..=32).contains(&k) && (1..=64).contains(&plates), "so many neighbours or plates may not be served")?;
        ensure(filled == k.min(image::strains(&self.image)), "the places filled are not min(k, n)")?;
        let ends = plates * k;
        ensure(ends <= self.codes.len() && ends <= self.distances.len(), "there is no room for this answer")?;
        ensure(left.codes[ends..] == self.codes[ends..], "codes behind the last plate's are changed")?;
        ensure(left.distances[ends..] == self.distances[ends..], "distances behind the last plate's are changed")?;
        for (codes, distances) in left.codes[..ends].chunks(k).zip(left.distances[..ends].chunks(k)) {
            in_order(&codes[..filled], &distances[..filled])?;
            ensure(codes[filled..].iter().chain(&distances[filled..]).all(|empty| *empty == 0), "an empty place is not 0")?;
        }
        Ok(())
    }
}
