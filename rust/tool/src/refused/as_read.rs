//! Records of a refused image, shown as they were read.
use kwalgimo::{Header, Place, Reason, Record, Refusal};

/// The records at which a refusal applies, as they were read, a line each: by them a wrong coding is seen.
pub fn as_read(bytes: &[u8], Refusal { reason, place }: Refusal) -> Vec<String> {
    let records = match place {
        Place::None => vec![],
        Place::Record(record) => vec![record],
        Place::Pair { earlier, later } => vec![earlier, later],
    };
    let parents = records.iter().filter_map(|record| Some(Record::of(bytes, (*record).into())?.parent));
    let parents: Vec<_> = parents.filter(|parent| [Reason::Level, Reason::Cover].contains(&reason) && !records.contains(parent)).collect();
    records.iter().chain(&parents).filter_map(|record| line(bytes, (*record).into())).collect()
}

fn line(bytes: &[u8], number: usize) -> Option<String> {
    let record = Record::of(bytes, number)?;
    let profile: Vec<_> = record.profile.iter().map(i16::to_string).collect();
    let (code, parent, level) = (record.code, record.parent, record.level());
    let header = Header::of(bytes)?;
    let node = format!("from byte {} code {code}, parent record {parent}, level {level}", header.node_at(number));
    Some(format!("  record {number} as read: {node}; from byte {} profile {}\n", header.profile_at(number), profile.join(" ")))
}
