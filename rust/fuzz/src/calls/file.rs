//! Filing.
use crate::{
    call::{ensure, Answer, Call, Memory},
    draw,
};
use kwalgimo::{Library, Strain};
use plain::{data::Random, lent::any_room};

/// More strains are not added once more, since every addition checks the whole image.
const FEW: usize = 64;

#[derive(Debug, PartialEq)]
pub struct File {
    image: Vec<u8>,
    buffer: Vec<u8>,
}

impl Call for File {
    const NAME: &'static str = "file";

    fn refused_by(number: u8) -> bool {
        matches!(number, 1..=13 | 16)
    }

    fn any(image: Vec<u8>, random: &mut Random) -> Self {
        let room = any_room(image.len(), random);
        File { image, buffer: draw::bytes(room, random) }
    }

    fn image(&self) -> Option<&[u8]> {
        Some(&self.image)
    }

    fn make(&self, [a, b, ..]: &mut Memory) -> (Answer, Self) {
        let (image, buffer) = (a.lend(&self.image), b.lend(&self.buffer));
        let answer = kwalgimo::file(image, buffer).map(|length| [length, 0]);
        (answer, File { image: image.to_vec(), buffer: buffer.to_vec() })
    }

    fn holds(&self, [length, _]: [usize; 2], left: &Self) -> Result<(), String> {
        let before = Library::from_bytes(self.image.clone()).map_err(|refusal| format!("what it took: {refusal}"))?;
        ensure(left.image == self.image, "the image is changed")?;
        ensure(length == self.image.len() && length <= self.buffer.len(), "the length is wrong")?;
        ensure(left.buffer[length..] == self.buffer[length..], "the rest of the buffer is changed")?;
        let form = Library::from_bytes(left.buffer[..length].to_vec()).map_err(|refusal| format!("what it made: {refusal}"))?;
        ensure((form.wells(), form.metric()) == (before.wells(), before.metric()), "the wells or the metric are changed")?;
        let mut strains: Vec<Strain> = before.strains().collect();
        strains.sort_by_key(|strain| strain.code);
        ensure(form.strains().eq(strains.iter().cloned()), "the strains are not those held, by code")?;
        ensure(form.filing_form() == form, "filed again it is another")?;
        ensure(strains.len() > FEW || form == built(&before, &strains)?, "it is not what start and add make of the strains")
    }
}

/// Started with the first strain, the others added in turn.
fn built(like: &Library, strains: &[Strain]) -> Result<Library, String> {
    let said = |refusal| format!("start or add: {refusal}");
    let mut library = Library::start(like.wells(), like.metric(), strains[0].code, &strains[0].profile).map_err(said)?;
    strains[1..].iter().try_for_each(|strain| library.add(strain.code, &strain.profile)).map_err(said)?;
    Ok(library)
}
