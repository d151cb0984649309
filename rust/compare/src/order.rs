//! The order by call: the refusal numbers that each call can give, the first that applies being told.
use crate::call::Name;

pub fn order(name: Name) -> Vec<usize> {
    let own: &[usize] = match name {
        Name::Start => return vec![3, 4, 17, 18, 16],
        Name::Check => &[],
        Name::Add => &[17, 18, 19, 20, 16],
        Name::Filing | Name::List => &[16],
        Name::Sitting => &[14, 15, 16],
        Name::Within | Name::Short => &[14, 16],
    };
    (1..=13).chain(own.iter().copied()).collect()
}
