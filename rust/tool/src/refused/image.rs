//! What the check refuses an image for, in figures.
use super::{line, METRICS};
use crate::{
    image::editions,
    measure,
    numbers::{counted, grouped},
};
use kwalgimo::{Header, Metric, Place, Reason, Record, Refusal, MOST_BYTES};

/// What the check found in these bytes.
pub fn image(bytes: &[u8], refusal: Refusal) -> String {
    let figures = figures(bytes, refusal).unwrap_or_else(|| refusal.reason.sentence().into());
    let hint = if is_text(bytes) { "; this is a file of text, and an image is not" } else { "" };
    line(refusal.reason, &(figures + hint))
}

/// Such as a file of plates that was named in an image's place.
fn is_text(bytes: &[u8]) -> bool {
    let text = str::from_utf8(bytes).unwrap_or_default();
    !text.is_empty() && !text.contains(|letter: char| letter.is_control() && !letter.is_whitespace())
}

/// None of what the bytes do not show; but whatever the check refuses, they do.
fn figures(bytes: &[u8], Refusal { reason, place }: Refusal) -> Option<String> {
    match place {
        Place::None => header(bytes, reason),
        Place::Record(record) => at_record(bytes, reason, record.into()),
        Place::Pair { earlier, later } => at_pair(bytes, reason, earlier.into(), later.into()),
    }
}

fn header(bytes: &[u8], reason: Reason) -> Option<String> {
    if reason == Reason::Size {
        return Some(size(bytes.len()));
    }
    let Header { edition, wells, metric, count, root, .. } = Header::of(bytes)?;
    Some(match reason {
        Reason::Edition => format!("bytes 0 and 1 say edition {edition} (known: {})", editions()),
        Reason::Wells => format!("byte 2 says {}, and a profile has 1 to 16", counted(wells.into(), "well")),
        Reason::Metric => format!("byte 3 says metric {metric}, and {METRICS}"),
        Reason::Count => format!("bytes 4 and 5 say {}, and a library has 1 to 1,024", counted(count.into(), "strain")),
        Reason::Offsets => offsets(bytes)?,
        Reason::Length => length(bytes)?,
        Reason::RootNumber => format!("bytes 6 and 7 say that the root is record {root}, and {}", records(count)),
        _ => return None,
    })
}

fn size(bytes: usize) -> String {
    match bytes > MOST_BYTES {
        true => format!("the file has more than {} bytes, which no image has", grouped(MOST_BYTES)),
        false => format!("the file has {}, and the header alone has 16", counted(bytes, "byte")),
    }
}

fn offsets(bytes: &[u8]) -> Option<String> {
    let header = Header::of(bytes)?;
    let Header { count, profiles, nodes, .. } = header;
    let expected = header.profile_at(0);
    let wrong = [
        (profiles as usize != expected).then(|| {
            let strains = counted(count.into(), "strain");
            let right = format!("with {strains} they begin at {expected}, which is 16 + 8 * {count}");
            format!("bytes 8 to 11 say that the profiles begin at {profiles}, and {right}")
        }),
        (nodes != 16).then(|| format!("bytes 12 to 15 say that the nodes begin at {nodes}, and they begin at 16")),
    ];
    joined(wrong)
}

fn length(bytes: &[u8]) -> Option<String> {
    let header = Header::of(bytes)?;
    let Header { count, wells, .. } = header;
    let layout = format!("{} of {} take {}", counted(count.into(), "strain"), counted(wells.into(), "well"), header.length());
    Some(format!("the file has {}, and {layout}, which is 16 + 8 * {count} + 2 * {wells} * {count}", counted(bytes.len(), "byte")))
}

fn at_record(bytes: &[u8], reason: Reason, number: usize) -> Option<String> {
    let record = Record::of(bytes, number)?;
    let wrong = match reason {
        Reason::Node => node(bytes, number, &record)?,
        Reason::Level => level(bytes, number, &record)?,
        Reason::Cover => cover(bytes, &record)?,
        _ => return None,
    };
    Some(format!("record {number} (code {}){wrong}", record.code))
}

fn level(bytes: &[u8], number: usize, record: &Record) -> Option<String> {
    let root = Header::of(bytes)?.root;
    let above = usize::from(record.parent);
    let parent = Record::of(bytes, above)?;
    Some(match (usize::from(root) == number, above == number) {
        (true, _) => format!(" is the root, and its parent is record {above} (code {}) and not itself", parent.code),
        (false, true) => format!(" is its own parent, which only the root is, record {root}"),
        (false, false) => {
            let (level, parents) = (record.level(), parent.level());
            format!(" has level {level}, which is not below the level {parents} of its parent {} (record {above})", parent.code)
        }
    })
}

fn cover(bytes: &[u8], record: &Record) -> Option<String> {
    let parent = Record::of(bytes, record.parent.into())?;
    let apart = measure::apart(Metric::numbered(Header::of(bytes)?.metric)?, &record.profile, &parent.profile)?;
    let (level, allowed) = (record.level(), two_to(record.level() + 1)?);
    Some(format!(" lies {apart} from its parent {}, and its level {level} allows {allowed}", parent.code))
}

/// All that is wrong with one node.
fn node(bytes: &[u8], number: usize, record: &Record) -> Option<String> {
    let header = Header::of(bytes)?;
    let (count, at) = (header.count, header.node_at(number));
    let wrong = [
        (record.code == 0).then(|| "the code is 0, and codes begin at 1".to_string()),
        (record.parent >= count).then(|| format!("the parent is record {}, and {}", record.parent, records(count))),
        (record.level_byte > 21).then(|| format!("the level byte is {}, and it is the level plus 1, from 0 to 21", record.level_byte)),
        (record.spare != 0).then(|| format!("the spare byte at {} is {} and not 0", at + 7, record.spare)),
    ];
    Some(format!(", node at byte {at}: {}", joined(wrong)?))
}

fn at_pair(bytes: &[u8], reason: Reason, earlier: usize, later: usize) -> Option<String> {
    let (one, other) = (Record::of(bytes, earlier)?, Record::of(bytes, later)?);
    if reason == Reason::EqualCodes {
        return Some(format!("records {earlier} and {later} both have code {}", one.code));
    }
    let apart = measure::apart(Metric::numbered(Header::of(bytes)?.metric)?, &one.profile, &other.profile)?;
    let level = one.level().min(other.level());
    let limit = two_to(level).map_or("1/2".to_string(), |limit| limit.to_string());
    let records = format!("records {earlier} (code {}) and {later} (code {})", one.code, other.code);
    Some(format!("{records} lie {apart} apart, and level {level}, the lower of their levels, asks for more than {limit}"))
}

/// None where the level is below 0: then it is no whole number.
fn two_to(level: i32) -> Option<u32> {
    1u32.checked_shl(u32::try_from(level).ok()?)
}

fn records(count: u16) -> String {
    match count {
        1 => "the only record is 0".into(),
        _ => format!("the records are 0 to {}", count.saturating_sub(1)),
    }
}

fn joined<const N: usize>(parts: [Option<String>; N]) -> Option<String> {
    let parts: Vec<_> = parts.into_iter().flatten().collect();
    (!parts.is_empty()).then(|| parts.join("; "))
}
