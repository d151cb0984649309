//! Each kind of wrong answer is counted under the rules that it breaks, and told.
use super::{
    fake::{Fake, Fault, NO_FAULT},
    tried, Report,
};
use crate::tree::samples::example;
use kwalgimo::{Library, Match, Metric, Place, Reason, Refusal, MOST_DISTANCE};

const REFUSAL: Refusal = Refusal { reason: Reason::Plate, place: Place::None };

/// The example of document 01 with a fault, in its filing form with another.
fn faulty(fault: Fault, filed: Fault) -> Report {
    let library = example();
    let strains: Vec<_> = library.strains().collect();
    tried(&Fake { library, fault, filed }, &strains)
}

fn counts(report: &Report) -> ([usize; 7], usize) {
    (report.held, report.found())
}

/// 103 is hidden within the greatest distance of 104's profile.
const HIDES_103: Fault = Fault {
    within: |plate, radius, mut found| {
        found.retain(|strain| strain.code != 103 || plate != [11] || radius != MOST_DISTANCE);
        Ok(found)
    },
    ..NO_FAULT
};

/// The same in the search that reaches less far.
const HIDES_103_NEAR: Fault = Fault {
    within: |plate, radius, mut found| {
        found.retain(|strain| strain.code != 103 || plate != [11] || radius == MOST_DISTANCE);
        Ok(found)
    },
    ..NO_FAULT
};

/// Of 104's profile, the second and the third of the nearest change places.
const SWAPS: Fault = Fault {
    nearest: |mut plates| {
        plates[3].swap(1, 2);
        Ok(plates)
    },
    ..NO_FAULT
};

#[test]
fn the_example_holds() {
    let report = faulty(NO_FAULT, NO_FAULT);
    assert_eq!(counts(&report), ([4; 7], 4));
    assert_eq!(report.findings, [""; 0]);
    assert_eq!((report.tries(), report.broken()), (28, 0));
}

#[test]
fn more_strains_than_one_sitting_takes() {
    let mut library = Library::start(2, Metric::Largest, 1_000, &[0, 0]).unwrap();
    (1..130).for_each(|at: i16| library.add(1_000 - at as u32, &[at * 7 % 130, at * at % 101]).unwrap());
    let strains: Vec<_> = library.strains().collect();
    let report = tried(&library, &strains);
    assert_eq!(counts(&report), ([130; 7], 130), "{:?}", report.findings);
}

#[test]
fn a_strain_hidden_in_one_search() {
    let report = faulty(HIDES_103, NO_FAULT);
    assert_eq!(counts(&report), ([3, 4, 3, 3, 4, 3, 4], 3));
    assert_eq!(
        report.findings,
        [
            "from the profile of 104 it is not so that within the greatest distance every strain is listed, each once: \
             expected 4 codes, got 3; missing 103",
            "from the profile of 104 it is not so that the nearest strains are the first of those within the greatest distance: \
             in place 2, expected 102 at distance 8, got 103 at distance 1",
            "from the profile of 104 it is not so that within the distance of the last of the nearest, exactly the strains so near are listed: \
             within 11, in place 2, expected 102 at distance 8, got 103 at distance 1",
            "from the profile of 104 it is not so that the filing form lists the same within the greatest distance: \
             in place 2, expected 102 at distance 8, got 103 at distance 1",
        ]
    );
    assert_eq!(report.broken(), 4);
}

#[test]
fn a_strain_hidden_in_the_search_that_reaches_less_far() {
    let report = faulty(HIDES_103_NEAR, NO_FAULT);
    assert_eq!(counts(&report), ([4, 4, 4, 3, 4, 4, 3], 4));
    assert!(report.findings[0].ends_with(": within 11, in place 2, expected 103 at distance 1, got 102 at distance 8; missing 103"));
}

#[test]
fn a_strain_hidden_in_the_filing_form_alone_or_too() {
    let form = faulty(NO_FAULT, HIDES_103);
    assert_eq!(counts(&form), ([4, 4, 4, 4, 4, 3, 4], 3));
    assert!(form.findings[0].ends_with("in place 2, expected 103 at distance 1, got 102 at distance 8; missing 103"));
    assert_eq!(counts(&faulty(HIDES_103, HIDES_103)), ([3, 4, 3, 3, 4, 4, 4], 3));
    assert_eq!(counts(&faulty(NO_FAULT, HIDES_103_NEAR)), ([4, 4, 4, 4, 4, 4, 3], 4));
}

#[test]
fn two_neighbours_that_change_places() {
    let report = faulty(SWAPS, NO_FAULT);
    assert_eq!(counts(&report), ([4, 4, 3, 4, 3, 4, 4], 4));
    assert!(report.findings[0].ends_with(": in place 2, expected 103 at distance 1, got 102 at distance 8"));
    assert_eq!(counts(&faulty(NO_FAULT, SWAPS)), ([4, 4, 4, 4, 3, 4, 4], 4));
}

#[test]
fn another_strain_comes_first() {
    let nearest = |mut plates: Vec<Vec<Match>>| {
        plates[3].swap(0, 1);
        Ok(plates)
    };
    let report = faulty(Fault { nearest, ..NO_FAULT }, NO_FAULT);
    assert_eq!(counts(&report), ([4, 3, 3, 4, 3, 4, 4], 4));
    assert_eq!(
        report.findings[0],
        "from the profile of 104 it is not so that from its own profile each strain comes first, at distance 0: \
         expected 104 at distance 0, got 103 at distance 1"
    );
}

#[test]
fn another_code_comes_first_at_distance_0() {
    let nearest = |mut plates: Vec<Vec<Match>>| {
        plates[3][0].code = 105;
        Ok(plates)
    };
    let report = faulty(Fault { nearest, ..NO_FAULT }, NO_FAULT);
    assert_eq!(counts(&report), ([4, 3, 3, 4, 3, 4, 4], 4));
    assert!(report.findings[0].ends_with(": expected 104 at distance 0, got 105 at distance 0"));
}

#[test]
fn a_wrong_distance() {
    let nearest = |mut plates: Vec<Vec<Match>>| {
        plates[0][0].distance = 1;
        Ok(plates)
    };
    assert_eq!(counts(&faulty(Fault { nearest, ..NO_FAULT }, NO_FAULT)), ([4, 3, 3, 4, 3, 4, 4], 4));
    let within = |plate: &[i16], radius, mut found: Vec<Match>| {
        let wrong = found.last_mut().filter(|_| plate == [0] && radius == MOST_DISTANCE);
        wrong.into_iter().for_each(|strain| strain.distance += 1);
        Ok(found)
    };
    let report = faulty(Fault { within, ..NO_FAULT }, NO_FAULT);
    assert_eq!(counts(&report), ([4, 4, 3, 3, 4, 3, 4], 4));
    assert!(report.findings[0].ends_with(": in place 4, expected 104 at distance 12, got 104 at distance 11"));
}

#[test]
fn a_strain_listed_twice_does_not_stand_for_another() {
    let within = |_: &[i16], radius, mut found: Vec<Match>| {
        let twice = found.iter().position(|strain| strain.code == 102 && radius == MOST_DISTANCE);
        twice.into_iter().for_each(|place| found[place].code = 103);
        Ok(found)
    };
    let fault = Fault { within, ..NO_FAULT };
    let report = faulty(fault, fault);
    assert_eq!(counts(&report), ([0, 4, 0, 0, 4, 4, 4], 3));
    assert!(report.findings[0].ends_with(": expected 4 codes, got 4; missing 102; more than once 103"));
}

#[test]
fn a_search_that_is_refused() {
    let within = |plate: &[i16], _, found| if plate == [11] { Err(REFUSAL) } else { Ok(found) };
    let report = faulty(Fault { within, ..NO_FAULT }, NO_FAULT);
    assert_eq!(counts(&report), ([3, 4, 3, 3, 4, 3, 3], 0));
    assert!(report.findings[0].ends_with(&format!(": the search was refused: {REFUSAL}")));
}

#[test]
fn two_refusals_are_no_answers_alike() {
    let fault = Fault { nearest: |_| Err(REFUSAL), ..NO_FAULT };
    assert_eq!(counts(&faulty(fault, fault)), ([4, 0, 0, 4, 0, 4, 4], 4));
}

#[test]
fn a_sitting_that_leaves_out_a_plate() {
    let nearest = |mut plates: Vec<Vec<Match>>| {
        plates.pop();
        Ok(plates)
    };
    let report = faulty(Fault { nearest, ..NO_FAULT }, NO_FAULT);
    assert_eq!(counts(&report), ([4, 3, 3, 4, 3, 4, 4], 4));
    assert!(report.findings[0].ends_with(": expected 104 at distance 0, got none"));
}
