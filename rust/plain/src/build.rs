//! The calls that make an image: start, add and filing.
use crate::{
    check::checked,
    distance::{pair, Wells},
    layout::{self, wells_of, Header, Image, Node, NODES},
    level,
    verdict::Verdict,
};

pub fn start(wells: u32, metric: u32, code: u32, profile: &[i16], buffer: &mut [u8]) -> Verdict {
    let length = layout::length(1, profile.len());
    let refusals = [
        (3, !(1..=16).contains(&wells)),
        (4, metric != 1 && metric != 2),
        (17, profile.len() != wells as usize),
        (18, code == 0),
        (16, buffer.len() < length),
    ];
    if let Some((number, _)) = refusals.iter().find(|(_, applies)| *applies) {
        return Verdict::nowhere(*number);
    }
    hang(&mut buffer[..length], profile.len(), metric as u8, &[(code, &wells_of(profile))]);
    Verdict::made(length)
}

pub fn add(buffer: &mut [u8], image_len: usize, code: u32, profile: &[i16]) -> Verdict {
    answer(added(buffer, image_len, code, &wells_of(profile)))
}

pub fn file(image: &[u8], buffer: &mut [u8]) -> Verdict {
    answer(filed(image, buffer))
}

/// The image that is started with the first of these strains, the others added in turn.
pub fn built(metric: u8, strains: &[(u32, Vec<i16>)]) -> Vec<u8> {
    let wells = strains[0].1.len();
    let profiles: Vec<_> = strains.iter().map(|(_, profile)| wells_of(profile)).collect();
    let strains: Vec<_> = strains.iter().zip(&profiles).map(|((code, _), profile)| (*code, &profile[..])).collect();
    let mut image = vec![0; layout::length(strains.len(), wells)];
    hang(&mut image, wells, metric, &strains);
    image
}

fn answer(made: Result<usize, Verdict>) -> Verdict {
    made.map_or_else(|refusal| refusal, Verdict::made)
}

fn added(buffer: &mut [u8], image_len: usize, code: u32, profile: &Wells) -> Result<usize, Verdict> {
    let image = checked(buffer.get(..image_len).ok_or(Verdict::nowhere(1))?)?;
    image.admit(code, profile)?;
    let (n, wells, root) = (image.n(), image.wells, image.root);
    let length = layout::length(n + 1, wells);
    if buffer.len() < length {
        return Err(Verdict::nowhere(16));
    }
    let new = image.new_node(code, profile);
    let header = Header::right(wells, image.metric, n + 1, root);
    let nodes_end = layout::profiles(n);
    buffer.copy_within(nodes_end..image_len, nodes_end + 8);
    buffer[..NODES].copy_from_slice(&header.bytes());
    buffer[nodes_end..nodes_end + 8].copy_from_slice(&new.bytes());
    buffer[image_len + 8..length].copy_from_slice(profile.as_flattened());
    raise(&mut buffer[NODES..].as_chunks_mut().0[root], new.level);
    Ok(length)
}

/// Started with the lowest code, the rest added in ascending order of code.
fn filed(bytes: &[u8], buffer: &mut [u8]) -> Result<usize, Verdict> {
    let image = checked(bytes)?;
    let form = buffer.get_mut(..bytes.len()).ok_or(Verdict::nowhere(16))?;
    let mut strains: Vec<_> = image.records().map(|(v, profile)| (v.code, profile)).collect();
    strains.sort_unstable_by_key(|(code, _)| *code);
    hang(form, image.wells, image.metric, &strains);
    Ok(bytes.len())
}

/// Writes the image that is started with the first of these strains, the others added in turn. The whole form is laid out first, so that
/// nothing moves, and node after node is put in.
fn hang(form: &mut [u8], wells: usize, metric: u8, strains: &[(u32, &Wells)]) {
    let (front, rest) = form.split_at_mut(NODES);
    let (nodes, profiles) = rest.split_at_mut(8 * strains.len());
    let (nodes, profiles) = (nodes.as_chunks_mut().0, profiles.as_chunks_mut().0);
    front.copy_from_slice(&Header::right(wells, metric, strains.len(), 0).bytes());
    for (place, (_, profile)) in profiles.chunks_exact_mut(wells).zip(strains) {
        place.copy_from_slice(profile);
    }
    nodes[0] = Node { code: strains[0].0, parent: 0, level: level::STARTED, spare: 0 }.bytes();
    for (record, (code, profile)) in strains.iter().enumerate().skip(1) {
        let so_far = Image { wells, metric, root: 0, nodes: &nodes[..record], profiles: &profiles[..record * wells] };
        let new = so_far.new_node(*code, profile);
        nodes[record] = new.bytes();
        raise(&mut nodes[0], new.level);
    }
}

impl Image<'_> {
    /// Numbers 17 to 20.
    fn admit(&self, code: u32, profile: &Wells) -> Result<(), Verdict> {
        if profile.len() != self.wells {
            return Err(Verdict::nowhere(17));
        }
        if code == 0 {
            return Err(Verdict::nowhere(18));
        }
        if let Some(record) = self.records().position(|(v, _)| v.code == code) {
            return Err(Verdict::at_record(18, record));
        }
        if let Some(record) = self.records().position(|(_, p)| p == profile) {
            return Err(Verdict::at_record(19, record));
        }
        if self.n() == 1024 {
            return Err(Verdict::nowhere(20));
        }
        Ok(())
    }

    /// The node of a strain that is added.
    fn new_node(&self, code: u32, profile: &Wells) -> Node {
        // two copies of the loop, each with its metric built in
        let (d, parent) = if self.metric == 1 { self.parent(|p| pair(1, p, profile)) } else { self.parent(|p| pair(2, p, profile)) };
        Node { code, parent, level: level::fitting(d), spare: 0 }
    }

    /// The distance and the record of the nearest node that can take a strain, the lowest code on a tie. The root can always take it.
    fn parent(&self, distance: impl Fn(&Wells) -> u32) -> (u32, usize) {
        let mut best = (u32::MAX, u32::MAX, self.root);
        for (record, (v, p)) in self.records().enumerate() {
            let d = distance(p);
            if record == self.root || level::within(d, v.level) {
                best = best.min((d, v.code, record));
            }
        }
        (best.0, best.2)
    }
}

fn raise(root: &mut [u8; 8], new: i32) {
    let node = Node::read(root);
    *root = Node { level: level::raised(node.level, new), ..node }.bytes();
}
