//! The short call.
use crate::{
    call::{ensure, Answer, Call, Memory},
    draw, image,
};
use kwalgimo::{Place, Refusal};
use plain::{
    data::{bytes_of, Random},
    lent::any_room,
};

#[derive(Debug, PartialEq)]
pub struct Short {
    image: Vec<u8>,
    plate: Vec<u8>,
    out: Vec<u8>,
}

/// It asks for so many neighbours, and writes so many bytes.
const STRAINS: usize = 5;
const WRITTEN: usize = 40;

impl Call for Short {
    const NAME: &'static str = "short";
    const TELLS_PLACES: bool = false;

    fn refused_by(number: u8) -> bool {
        matches!(number, 1..=14 | 16)
    }

    fn any(image: Vec<u8>, random: &mut Random) -> Self {
        let mut plate = bytes_of(&draw::any_profile(&image, random));
        if random.below(12) == 0 {
            plate.resize(random.below(plate.len() + 3), 0);
        }
        let room = any_room(WRITTEN, random);
        Short { image, plate, out: draw::bytes(room, random) }
    }

    fn image(&self) -> Option<&[u8]> {
        Some(&self.image)
    }

    fn make(&self, [a, b, c, _]: &mut Memory) -> (Answer, Self) {
        let (image, plate, out) = (a.lend(&self.image), b.lend(&self.plate), c.lend(&self.out));
        let answer = kwalgimo::short(image, plate, out);
        let answer = answer.map(|()| [0, 0]).map_err(|reason| Refusal { reason, place: Place::None });
        (answer, Short { image: image.to_vec(), plate: plate.to_vec(), out: out.to_vec() })
    }

    /// It is the sitting of one plate.
    fn holds(&self, _: [usize; 2], left: &Self) -> Result<(), String> {
        ensure((&left.image, &left.plate) == (&self.image, &self.plate), "the image or the plate is changed")?;
        ensure(WRITTEN <= self.out.len(), "there is no room for this answer")?;
        ensure(left.out[WRITTEN..] == self.out[WRITTEN..], "bytes behind the answer are changed")?;
        let (mut codes, mut distances) = ([0; STRAINS], [0; STRAINS]);
        kwalgimo::sitting(&self.image, &image::values(&self.plate), STRAINS as u32, &mut codes, &mut distances)
            .map_err(|refusal| format!("the sitting is refused: {refusal}"))?;
        let told = codes.iter().zip(&distances).flat_map(|(code, distance)| [code, distance]).flat_map(|number| number.to_le_bytes());
        ensure(told.eq(left.out[..WRITTEN].iter().copied()), "the sitting finds other strains")
    }
}
