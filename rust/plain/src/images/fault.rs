//! Images with one fault of a wanted number, so that the check comes to that number and to none before it.
use super::{Library, Record};
use crate::{
    data::Random,
    distance,
    layout::{node_at, LONGEST},
    level,
};

/// Plants a fault of this number, 1 to 13, in an image that has none of it or of a lower number. Nothing, where the image has no place for
/// it. The place is any that will do.
pub fn planted(image: &[u8], number: usize, random: &mut Random) -> Option<Vec<u8>> {
    let mut bytes = image.to_vec();
    if number <= 8 {
        in_header(&mut bytes, number, random);
        return Some(bytes);
    }
    let mut tree = Library::read(image);
    let record = random.below(tree.records.len());
    match number {
        9 => {
            in_node(&mut bytes[node_at(record)..][..8], tree.records.len(), random);
            return Some(bytes);
        }
        10 => repeat_code(&mut tree, random)?,
        11 => lift(&mut tree, random)?,
        12 => uncover(&mut tree, random)?,
        _ => crowd(&mut tree, random)?,
    }
    Some(tree.bytes())
}

/// Numbers 1 to 8.
fn in_header(bytes: &mut Vec<u8>, number: usize, random: &mut Random) {
    let n = u16::from_le_bytes([bytes[4], bytes[5]]);
    let two = |wrong: [u16; 4], random: &mut Random| wrong[random.below(4)].to_le_bytes();
    match number {
        1 => bytes.resize([random.below(16), 15, LONGEST + 1, LONGEST + 1 + random.below(100)][random.below(4)], 0),
        2 => bytes[..2].copy_from_slice(&two([0, 2, 257, 2 + random.below(65_534) as u16], random)),
        3 => bytes[2] = [0, 17, 17 + random.below(239) as u8][random.below(3)],
        4 => bytes[3] = [0, 3, 3 + random.below(253) as u8][random.below(3)],
        5 => bytes[4..6].copy_from_slice(&two([0, 1025, n + 1024, 1025 + random.below(64_511) as u16], random)),
        6 => bytes[8 + random.below(8)] ^= 1 << random.below(8),
        7 => bytes.resize(if bytes.len() < LONGEST && random.below(2) == 0 { bytes.len() + 1 } else { bytes.len() - 1 }, 0),
        _ => bytes[6..8].copy_from_slice(&two([n, n + 1, u16::MAX, n | 1 << 15], random)),
    }
}

/// Number 9, in an image of so many strains.
fn in_node(node: &mut [u8], n: usize, random: &mut Random) {
    match random.below(4) {
        0 => node[..4].fill(0),
        1 => node[4..6].copy_from_slice(&[n as u16, n as u16 + 1, u16::MAX][random.below(3)].to_le_bytes()),
        2 => node[6] = [22, 255, 22 + random.below(234) as u8][random.below(3)],
        _ => node[7] = 1 + random.below(255) as u8,
    }
}

fn repeat_code(tree: &mut Library, random: &mut Random) -> Option<()> {
    let (one, other) = (any_of(tree, |_| true, random)?, any_of(tree, |_| true, random)?);
    if one == other {
        return None;
    }
    tree.records[one].code = tree.records[other].code;
    Some(())
}

/// Number 11: the root below another, or another as high as its parent or below itself.
fn lift(tree: &mut Library, random: &mut Random) -> Option<()> {
    let root = tree.root;
    let other = any_of(tree, |record| record != root, random)?;
    match random.below(3) {
        0 => tree.records[root].parent = other,
        1 => tree.records[other].parent = other,
        _ => tree.records[other].level = tree.records[tree.records[other].parent].level,
    }
    Some(())
}

/// Number 12: a leaf one level lower, where its parent no longer covers it, or a node below another that does not cover it.
fn uncover(tree: &mut Library, random: &mut Random) -> Option<()> {
    let (lower, root) = (random.below(2) as i32, tree.root);
    let far = |p: &Record, v: &Record| distance::lists(tree.metric, &p.profile, &v.profile) > level::cover_limit(v.level - lower);
    if lower == 1 {
        let leaf = |record: usize| record != root && tree.records.iter().all(|v| v.parent != record);
        let uncovered = |v: &Record| v.level >= 0 && far(&tree.records[v.parent], v);
        let record = any_of(tree, |record| leaf(record) && uncovered(&tree.records[record]), random)?;
        tree.records[record].level -= 1;
    } else {
        let record = any_of(tree, |record| record != root, random)?;
        let v = &tree.records[record];
        let parent = any_of(tree, |p| tree.records[p].level > v.level && far(&tree.records[p], v), random)?;
        tree.records[record].parent = parent;
    }
    Some(())
}

/// Number 13: a node one level higher, where its parent lies too near. The root makes room for it.
fn crowd(tree: &mut Library, random: &mut Random) -> Option<()> {
    let root = tree.root;
    let record = any_of(tree, |record| record != root, random)?;
    let higher = tree.records[record].level + 1;
    let parent = tree.records[record].parent;
    if tree.records[parent].level == higher {
        if parent != root || higher == 20 {
            return None;
        }
        tree.records[root].level += 1;
    }
    tree.records[record].level = higher;
    Some(())
}

/// A record that will do, each as likely as the others.
fn any_of(tree: &Library, will_do: impl Fn(usize) -> bool, random: &mut Random) -> Option<usize> {
    let those: Vec<_> = (0..tree.records.len()).filter(|record| will_do(*record)).collect();
    (!those.is_empty()).then(|| those[random.below(those.len())])
}

#[cfg(test)]
mod tests {
    use super::*;
    use crate::{check, images::any_library};

    #[test]
    fn the_fault_is_the_one_that_the_check_comes_to() {
        let mut random = Random::new(1);
        let mut counts = [0; 14];
        for round in 0..5000 {
            let number = 1 + round % 13;
            if let Some(image) = planted(&any_library(&mut random).bytes(), number, &mut random) {
                assert_eq!(check(&image).number(), number);
                counts[number] += 1;
            }
        }
        assert!(counts[1..].iter().all(|count| *count > 100), "{counts:?}");
    }
}
