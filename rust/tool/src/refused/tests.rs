//! The numbers in a refusal's line are those that plain Rust comes to, and they show the fault.
use super::image;
use kwalgimo::{Place, Reason, Refusal};
use plain::{
    data::Random,
    distance, images,
    layout::{self, Header, Image, Node},
};

/// The whole numbers in a text, in their order. `1/2` has none.
fn numbers(text: &str) -> Vec<i64> {
    let words = text.split([' ', ',', ';', ':', '(', ')']);
    words.filter_map(|word| word.parse().ok()).collect()
}

/// Those that belong into the line, behind the refusal's own.
fn expected(bytes: &[u8], Refusal { reason, place }: Refusal) -> Vec<i64> {
    match place {
        Place::None if reason == Reason::Size => size(bytes.len()),
        Place::None => header(bytes, reason),
        Place::Record(record) if reason == Reason::Node => node(bytes, record.into()),
        Place::Record(record) => at_record(&Image::read(bytes).unwrap(), reason, record.into()),
        Place::Pair { earlier, later } => at_pair(&Image::read(bytes).unwrap(), reason, earlier.into(), later.into()),
    }
    .into_iter()
    .map(|number| number as i64)
    .collect()
}

fn size(length: usize) -> Vec<usize> {
    assert!(!(16..=40_976).contains(&length));
    // a limit is written 40,976
    if length < 16 {
        vec![length, 16]
    } else {
        vec![40, 976]
    }
}

fn header(bytes: &[u8], reason: Reason) -> Vec<usize> {
    let Header { edition, wells, metric, n, root, profiles, nodes } = Header::read(bytes);
    match reason {
        Reason::Edition => vec![0, 1, edition, 1],
        Reason::Wells => vec![2, wells, 1, 16],
        Reason::Metric => vec![3, metric.into(), 1, 2],
        Reason::Count => vec![4, 5, n, 1, 1, 24],
        Reason::Length => {
            assert_ne!(bytes.len(), layout::length(n, wells));
            vec![bytes.len(), n, wells, layout::length(n, wells), 16, 8, n, 2, wells, n]
        }
        Reason::RootNumber if n == 1 => vec![6, 7, root, 0],
        Reason::RootNumber => vec![6, 7, root, 0, n - 1],
        Reason::Offsets => {
            let right = layout::profiles(n);
            let first = if profiles == right { vec![] } else { vec![8, 11, profiles, n, right, 16, 8, n] };
            let second = if nodes == 16 { vec![] } else { vec![12, 15, nodes, 16] };
            [first, second].concat()
        }
        _ => panic!("{reason} has a place"),
    }
}

fn node(bytes: &[u8], record: usize) -> Vec<usize> {
    let (n, at) = (Header::read(bytes).n, layout::node_at(record));
    let Node { code, parent, level, spare } = Node::read(bytes[at..at + 8].try_into().unwrap());
    let last = if n == 1 { vec![0] } else { vec![0, n - 1] };
    let faults = [
        (code == 0, vec![0, 1]),
        (parent >= n, [vec![parent], last].concat()),
        (level > 20, vec![(level + 1) as usize, 1, 0, 21]),
        (spare != 0, vec![at + 7, spare.into(), 0]),
    ];
    let wrong = faults.into_iter().filter(|(wrong, _)| *wrong).flat_map(|(_, numbers)| numbers);
    [record, code as usize, at].into_iter().chain(wrong).collect()
}

fn at_record(image: &Image, reason: Reason, record: usize) -> Vec<usize> {
    let Node { code, parent, level, .. } = image.node(record);
    let above = image.node(parent);
    let own = [record, code as usize];
    let rest = match reason {
        Reason::Level if record == image.root => vec![parent, above.code as usize],
        Reason::Level if record == parent => vec![image.root],
        Reason::Level => {
            assert!(level >= above.level);
            vec![level as usize, above.level as usize, above.code as usize, parent]
        }
        _ => {
            let apart = distance::pair(image.metric, image.profile(record), image.profile(parent)) as usize;
            let allowed = 1 << (level + 1);
            assert!(apart > allowed);
            vec![apart, above.code as usize, level as usize, allowed]
        }
    };
    [&own, rest.as_slice()].concat()
}

fn at_pair(image: &Image, reason: Reason, earlier: usize, later: usize) -> Vec<usize> {
    let (one, other) = (image.node(earlier), image.node(later));
    if reason == Reason::EqualCodes {
        assert_eq!(one.code, other.code);
        return vec![earlier, later, one.code as usize];
    }
    let apart = distance::pair(image.metric, image.profile(earlier), image.profile(later));
    let level = one.level.min(other.level);
    let limit = if level < 0 { vec![] } else { vec![1 << level] };
    assert!(apart <= limit.first().map_or(0, |limit| *limit as u32));
    [vec![earlier, one.code as usize, later, other.code as usize, apart as usize, level as usize], limit].concat()
}

/// Tries one image. The number by which it is refused.
fn tried(bytes: &[u8]) -> Option<usize> {
    let refusal = kwalgimo::check(bytes).err()?;
    let (line, number) = (image(bytes, refusal), refusal.reason.number().into());
    let head = format!("refused: {number} {}: ", refusal.reason.name());
    let told = line.strip_prefix(&head).unwrap_or_else(|| panic!("{line}"));
    assert_eq!(numbers(told), expected(bytes, refusal), "{line}");
    Some(number)
}

#[test]
fn every_fault_is_shown_by_its_figures() {
    let mut random = Random::new(8);
    let mut seen = [0; 14];
    for turn in 0..3_000 {
        let library = images::any_library(&mut random).bytes();
        let planted = images::planted(&library, 1 + turn % 13, &mut random);
        if let Some(number) = planted.and_then(|image| tried(&image)) {
            seen[number] += 1;
        }
    }
    assert!(seen[1..].iter().all(|times| *times > 20), "{seen:?}");
}

#[test]
fn so_is_random_damage() {
    let mut random = Random::new(9);
    let refused = (0..3_000).filter_map(|_| tried(&images::damaged(&images::any_library(&mut random).bytes(), &mut random)));
    assert!(refused.count() > 1_000);
}
