//! The search within a radius.
use crate::{
    call::{ensure, Answer, Call, Memory},
    draw,
    found::in_order,
    image,
};
use kwalgimo::Inside;
use plain::{data::Random, lent::any_room};

#[derive(Debug, PartialEq)]
pub struct Within {
    image: Vec<u8>,
    plate: Vec<i16>,
    radius: u32,
    codes: Vec<u32>,
    distances: Vec<u32>,
}

impl Call for Within {
    const NAME: &'static str = "within";

    fn refused_by(number: u8) -> bool {
        matches!(number, 1..=14 | 16)
    }

    fn any(image: Vec<u8>, random: &mut Random) -> Self {
        let plate = draw::any_profile(&image, random);
        let radius = match random.below(6) {
            0 => u32::MAX - random.below(2) as u32,
            1 => random.number(),
            2 => random.below(4) as u32,
            _ => random.number() >> (11 + random.below(21)),
        };
        let needed = image::strains(&image).min(2000);
        let (codes, distances) = (any_room(needed, random), any_room(needed, random));
        Within { image, plate, radius, codes: draw::numbers(codes, random), distances: draw::numbers(distances, random) }
    }

    fn image(&self) -> Option<&[u8]> {
        Some(&self.image)
    }

    fn make(&self, [a, b, c, d]: &mut Memory) -> (Answer, Self) {
        let radius = self.radius;
        let (image, plate) = (a.lend(&self.image), b.lend(&self.plate));
        let (codes, distances) = (c.lend(&self.codes), d.lend(&self.distances));
        let inside = kwalgimo::within(image, plate, radius, codes, distances);
        let answer = inside.map(|Inside { strains, measured }| [strains, measured]);
        let (image, plate, codes, distances) = (image.to_vec(), plate.to_vec(), codes.to_vec(), distances.to_vec());
        (answer, Within { image, plate, radius, codes, distances })
    }

    fn holds(&self, [strains, measured]: [usize; 2], left: &Self) -> Result<(), String> {
        let held = image::strains(&self.image);
        ensure((&left.image, &left.plate) == (&self.image, &self.plate), "the image or the plate is changed")?;
        ensure(strains <= measured && (1..=held).contains(&measured), "the counts cannot be")?;
        ensure(held <= self.codes.len() && held <= self.distances.len(), "there is no room for this answer")?;
        ensure(left.codes[strains..] == self.codes[strains..], "codes behind the last strain's are changed")?;
        ensure(left.distances[strains..] == self.distances[strains..], "distances behind the last strain's are changed")?;
        in_order(&left.codes[..strains], &left.distances[..strains])?;
        ensure(left.distances[..strains].iter().all(|distance| *distance <= self.radius), "a strain lies outside")?;
        ensure(self.radius < u32::MAX || strains == held, "within the largest radius not all strains are found")
    }
}
