//! The check.
use crate::call::{ensure, Answer, Call, Memory};
use plain::data::Random;

#[derive(Debug, PartialEq)]
pub struct Check {
    image: Vec<u8>,
}

impl Call for Check {
    const NAME: &'static str = "check";

    fn refused_by(number: u8) -> bool {
        matches!(number, 1..=13)
    }

    fn any(image: Vec<u8>, _: &mut Random) -> Self {
        Check { image }
    }

    fn image(&self) -> Option<&[u8]> {
        Some(&self.image)
    }

    fn make(&self, [a, ..]: &mut Memory) -> (Answer, Self) {
        let image = a.lend(&self.image);
        let answer = kwalgimo::check(image).map(|()| [0, 0]);
        (answer, Check { image: image.to_vec() })
    }

    fn holds(&self, _: [usize; 2], left: &Self) -> Result<(), String> {
        ensure(self == left, "the image is changed")
    }
}
