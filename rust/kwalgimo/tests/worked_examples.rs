//! The worked examples of document 01, through the owning type: one well, metric 1, unless it says otherwise.
use kwalgimo::{Library, Match, Metric, Place, Reason, Refusal, LISTING_BYTES};

fn built(strains: &[(u32, i16)]) -> Library {
    let mut library = Library::start(1, Metric::CityBlock, strains[0].0, &[strains[0].1]).expect("one strain");
    strains[1..].iter().for_each(|(code, value)| library.add(*code, &[*value]).expect("another strain"));
    library
}

fn example() -> Library {
    built(&[(101, 0), (102, 3), (103, 10), (104, 11)])
}

/// Of each record its parent's and its level.
fn nodes(library: &Library) -> Vec<(u16, i32)> {
    library.records().map(|record| (record.parent, record.level())).collect()
}

fn found(pairs: &[(u32, u32)]) -> Vec<Match> {
    pairs.iter().map(|(code, distance)| Match { code: *code, distance: *distance }).collect()
}

#[test]
fn the_listing() {
    let library = example();
    let lines = ["wells 1 metric 1 count 4 root 101", "101 101 4 0", "102 101 1 3", "103 101 3 10", "104 103 -1 11", ""];
    assert_eq!(library.listing(), lines.join("\n"));
    assert_eq!((library.wells(), library.metric(), library.len()), (1, Metric::CityBlock, 4));
    let strains: Vec<_> = library.strains().map(|strain| (strain.code, strain.profile)).collect();
    assert_eq!(strains, [(101, vec![0]), (102, vec![3]), (103, vec![10]), (104, vec![11])]);
    assert_eq!(nodes(&library), [(0, 4), (0, 1), (0, 3), (2, -1)]);
}

#[test]
fn the_listing_on_lent_memory() {
    let (image, lines) = (example().bytes().to_vec(), example().listing());
    let mut room = vec![0xee; LISTING_BYTES + 1];
    assert_eq!(kwalgimo::list(&image, &mut room[..LISTING_BYTES - 1]), Err(Refusal { reason: Reason::Room, place: Place::None }));
    assert_eq!(kwalgimo::list(&image[..55], &mut room), Err(Refusal { reason: Reason::Length, place: Place::None }));
    assert!(room.iter().all(|byte| *byte == 0xee));
    assert_eq!(kwalgimo::list(&image, &mut room), Ok(lines.len()));
    assert_eq!(&room[..lines.len()], lines.as_bytes());
    assert!(room[lines.len()..].iter().all(|byte| *byte == 0xee));
}

#[test]
fn a_listing_may_be_longer_than_16_bits_tell() {
    let mut library = Library::start(16, Metric::CityBlock, u32::MAX, &[i16::MIN; 16]).expect("one strain");
    (1..1024).for_each(|code| library.add(u32::MAX - code, &[i16::MIN + 8 * code as i16; 16]).expect("another strain"));
    let (listing, image) = (library.listing(), library.bytes().to_vec());
    assert!(listing.len() > u16::MAX.into());
    assert_eq!(listing.lines().count(), 1 + 1024);
    assert!(listing.ends_with(&format!("{}\n", " -24584".repeat(16))));
    assert_eq!(kwalgimo::list(&image, &mut vec![0; LISTING_BYTES]), Ok(listing.len()));
}

#[test]
fn c1_to_c3_the_sitting() {
    let nearest = |k| example().nearest(&[7], k).expect("a plate").plate(0).to_vec();
    assert_eq!(nearest(3), found(&[(103, 3), (102, 4), (104, 4)]));
    assert_eq!(nearest(2), found(&[(103, 3), (102, 4)]));
    assert_eq!(nearest(5), found(&[(103, 3), (102, 4), (104, 4), (101, 7)]));
}

#[test]
fn several_plates_each_have_their_own_strains() {
    let sitting = example().nearest(&[7, 0, 12], 2).expect("three plates");
    let rows = [[(103, 3), (102, 4)], [(101, 0), (102, 3)], [(104, 1), (103, 2)]].map(|row| found(&row));
    assert!(sitting.plates().eq(&rows));
    // as many as there are, where more are asked for
    let sitting = example().nearest(&[7, 0], 5).expect("two plates");
    let rows = [[(103, 3), (102, 4), (104, 4), (101, 7)], [(101, 0), (102, 3), (103, 10), (104, 11)]].map(|row| found(&row));
    assert!(sitting.plates().eq(&rows));
}

#[test]
fn the_short_call_is_c3_in_bytes() {
    let (image, mut out) = (example().bytes().to_vec(), [0xee; 41]);
    assert_eq!(kwalgimo::short(&image, &[7, 0, 0], &mut out), Err(Reason::Plate));
    assert_eq!(kwalgimo::short(&image, &[7, 0], &mut out[..39]), Err(Reason::Room));
    assert_eq!(out, [0xee; 41]);
    assert_eq!(kwalgimo::short(&image, &[7, 0], &mut out), Ok(()));
    let told: Vec<u8> = [103u32, 3, 102, 4, 104, 4, 101, 7, 0, 0].into_iter().flat_map(u32::to_le_bytes).chain([0xee]).collect();
    assert_eq!(out, told[..]);
}

#[test]
fn the_largest_difference() {
    let mut library = Library::start(2, Metric::Largest, 1, &[0, 0]).expect("one strain");
    library.add(2, &[3, 8]).expect("another strain");
    assert_eq!((library.wells(), library.metric(), library.len()), (2, Metric::Largest, 2));
    assert_eq!(library.within(&[1, 0], 8).map(|near| near.strains), Ok(found(&[(1, 1), (2, 8)])));
}

#[test]
fn c4_to_c6_within_a_radius() {
    let within = |radius, plate| example().within(&[plate], radius).map(|near| (near.strains, near.measured));
    assert_eq!(within(4, 7), Ok((found(&[(103, 3), (102, 4), (104, 4)]), 4)));
    assert_eq!(within(0, -31), Ok((vec![], 3)));
    assert_eq!(within(0, -40), Ok((vec![], 1)));
}

#[test]
fn c7_the_nearest_may_be_unable_to_take_a_strain() {
    let mut library = example();
    library.add(105, &[12]).expect("a new strain");
    assert_eq!(nodes(&library)[4], (2, 0));
}

#[test]
fn c8_a_profile_that_is_held() {
    let mut library = example();
    assert_eq!(library.add(105, &[10]), Err(Refusal { reason: Reason::Held, place: Place::Record(2) }));
    assert_eq!(library, example());
}

#[test]
fn c9_and_c10_fitting_levels() {
    let levels = [1, 2, 3, 4, 5].map(|d| nodes(&built(&[(1, 0), (2, d)]))[1].1);
    assert_eq!(levels, [-1, 0, 1, 1, 2]);
    let mut furthest = Library::start(16, Metric::CityBlock, 1, &[i16::MIN; 16]).expect("one strain");
    furthest.add(2, &[i16::MAX; 16]).expect("another strain");
    assert_eq!(nodes(&furthest)[1], (0, 19));
}

#[test]
fn c11_another_order_and_its_filing_form() {
    let library = built(&[(104, 11), (103, 10), (102, 3), (101, 0)]);
    assert_eq!(nodes(&library), [(0, 3), (0, -1), (0, 2), (2, 1)]);
    assert_eq!(library.filing_form(), example());
}

#[test]
fn c12_a_level_that_does_not_cover() {
    let mut image = example().bytes().to_vec();
    image[16 + 8 + 6] = 1;
    assert_eq!(Library::from_bytes(image), Err(Refusal { reason: Reason::Cover, place: Place::Record(1) }));
}

#[test]
fn what_is_asked_may_be_refused() {
    let reason = |refusal: Refusal| refusal.reason;
    let library = example();
    assert_eq!(library.nearest(&[7], 0).map_err(reason), Err(Reason::Neighbours));
    assert_eq!(library.nearest(&[7], usize::MAX).map_err(reason), Err(Reason::Neighbours));
    assert_eq!(library.nearest(&[7; 65], 1).map_err(reason), Err(Reason::Plate));
    assert_eq!(library.nearest(&[], 1).map_err(reason), Err(Reason::Plate));
    assert_eq!(library.within(&[7, 7], 1).map_err(reason), Err(Reason::Plate));
    assert_eq!(Library::start(usize::MAX, Metric::Largest, 1, &[0]).map_err(reason), Err(Reason::Wells));
    assert_eq!(Library::start(2, Metric::Largest, 1, &[0]).map_err(reason), Err(Reason::NewProfile));
}

#[test]
fn a_library_grows_until_it_is_full() {
    let mut library = Library::start(1, Metric::Largest, 1, &[0]).expect("one strain");
    let moves = (2..=1024).filter(|code| {
        let before = library.bytes().as_ptr();
        library.add(*code, &[*code as i16 * 3]).expect("another strain");
        library.bytes().as_ptr() != before
    });
    assert!(moves.count() < 100, "the image moves for every strain");
    assert_eq!(library.add(1025, &[-1]), Err(Refusal { reason: Reason::Full, place: Place::None }));
    assert_eq!(Library::from_bytes(library.bytes().to_vec()), Ok(library));
}
