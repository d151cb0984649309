//! What has to hold from every strain's own profile.
use super::{differ, Answer, Tried};
use kwalgimo::{Match, MOST_NEIGHBOURS};

pub struct Rule {
    pub says: &'static str,
    /// Why not, where it does not hold.
    pub holds: fn(&Tried) -> Held,
}

type Held = Result<(), String>;

pub const ALL: [Rule; 7] = [
    Rule { says: "within the greatest distance every strain is listed, each once", holds: each_once },
    Rule { says: "from its own profile each strain comes first, at distance 0", holds: itself_first },
    Rule { says: "the nearest strains are the first of those within the greatest distance", holds: nearest_lead },
    Rule { says: "within the distance of the last of the nearest, exactly the strains so near are listed", holds: so_near },
    Rule { says: "the filing form names the same nearest strains", holds: |tried| alike(&tried.library.nearest, &tried.form.nearest) },
    Rule { says: "the filing form lists the same within the greatest distance", holds: |tried| alike(&tried.library.all, &tried.form.all) },
    Rule {
        says: "the filing form lists the same within the distance of the last of the nearest",
        holds: |tried| alike(&tried.library.near, &tried.form.near),
    },
];

fn each_once(tried: &Tried) -> Held {
    let mut listed: Vec<_> = strains(&tried.library.all)?.iter().map(|strain| strain.code).collect();
    listed.sort_unstable();
    differ::codes(tried.codes, &listed)
}

fn itself_first(tried: &Tried) -> Held {
    let itself = Match { code: tried.code, distance: 0 };
    match strains(&tried.library.nearest)?.first() {
        Some(first) if *first == itself => Ok(()),
        first => Err(format!("expected {}, got {}", differ::said(Some(&itself)), differ::said(first))),
    }
}

fn nearest_lead(tried: &Tried) -> Held {
    let all = strains(&tried.library.all)?;
    differ::lists(&all[..all.len().min(MOST_NEIGHBOURS)], strains(&tried.library.nearest)?)
}

fn so_near(tried: &Tried) -> Held {
    let radius = tried.radius;
    let so_near: Vec<_> = strains(&tried.library.all)?.iter().filter(|strain| strain.distance <= radius).copied().collect();
    differ::lists(&so_near, strains(&tried.library.near)?).map_err(|why| format!("within {radius}, {why}"))
}

fn alike(library: &Answer, form: &Answer) -> Held {
    differ::lists(strains(library)?, strains(form)?)
}

/// No search of a library's own profile may be refused.
fn strains(answer: &Answer) -> Result<&[Match], String> {
    answer.as_deref().map_err(|refusal| format!("the search was refused: {refusal}"))
}
