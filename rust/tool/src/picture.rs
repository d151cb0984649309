//! A library's tree as a picture for print, in SVG: a row for each strain, in the order of the text, and a column for each level.
//!
//! All below a strain stands in the rows right below it, further right. So the line down from it crosses no text, and no two texts meet.
mod layout;
mod xml;

use crate::tree::Tree;
use layout::{
    Layout, ABOVE, BELOW, CIRCLE, DISTANCE, KEY, KEY_LINE, LABEL, LEVEL_LINE, LEVEL_WORD, MARGIN, ROOT_WORD, TITLE, TITLE_LINE,
    TO_DISTANCE, TO_LABEL,
};

/// The picture, one element a line, so that stored pictures can be compared. Each record has its label.
pub fn svg(title: &str, tree: &Tree, labels: &[String]) -> String {
    let layout = Layout::of(title, tree, labels);
    let levels = layout.levels.iter().map(|level| column(&layout, *level));
    let strains = tree.steps().into_iter().map(|step| strain(&layout, tree, step.record, &labels[step.record]));
    let lines: Vec<_> = [head(&layout, title)].into_iter().chain(levels).chain(strains).flatten().collect();
    format!("{}\n</svg>\n", lines.join("\n"))
}

fn head(Layout { width, height, .. }: &Layout, title: &str) -> Vec<String> {
    let (title, key) = (xml::text(title), xml::text(KEY));
    let size = format!(r#"width="{width}" height="{height}""#);
    vec![
        r#"<?xml version="1.0" encoding="UTF-8"?>"#.into(),
        format!(
            r#"<svg xmlns="http://www.w3.org/2000/svg" {size} viewBox="0 0 {width} {height}" font-family="sans-serif" font-size="{LABEL}">"#
        ),
        format!("<title>{title}</title>"),
        format!(r#"<rect {size} fill="white"/>"#),
        format!(r#"<text x="{MARGIN}" y="{TITLE_LINE}" font-size="{TITLE}">{title}</text>"#),
        format!(r#"<text x="{MARGIN}" y="{KEY_LINE}" font-size="{DISTANCE}">{key}</text>"#),
        format!(r#"<text x="{MARGIN}" y="{LEVEL_LINE}" font-size="{DISTANCE}">{LEVEL_WORD}</text>"#),
    ]
}

/// A level, above a faint line through all rows.
fn column(layout: &Layout, level: i32) -> Vec<String> {
    let (x, top, bottom) = (layout.x(level), LEVEL_LINE + BELOW, layout.height - BELOW);
    vec![
        format!(r#"<text x="{x}" y="{LEVEL_LINE}" font-size="{DISTANCE}" text-anchor="middle">{level}</text>"#),
        format!(r##"<path d="M{x} {top}V{bottom}" stroke="#ccc"/>"##),
    ]
}

/// A strain, with all that belongs to it placed from the middle of its circle.
fn strain(layout: &Layout, tree: &Tree, record: usize, label: &str) -> Vec<String> {
    let (x, y) = (layout.x(tree.records[record].level()), layout.y(record));
    let to_children = tree.children(record).last().map(|last| line(format!("M0 0V{}", layout.y(*last) - y)));
    let mut lines = vec![format!(r#"<g transform="translate({x} {y})">"#)];
    lines.extend(to_children);
    let fill = match tree.distance(record) {
        Some(distance) => {
            lines.push(line(format!("M-{} 0H0", x - layout.x(tree.parent(record).level()))));
            lines.push(format!(r#"<text x="-{TO_DISTANCE}" y="-{ABOVE}" font-size="{DISTANCE}" text-anchor="end">{distance}</text>"#));
            "white"
        }
        None => {
            lines.push(format!(r#"<text x="-{TO_LABEL}" y="{BELOW}" font-size="{DISTANCE}" text-anchor="end">{ROOT_WORD}</text>"#));
            "black"
        }
    };
    lines.push(format!(r#"<circle r="{CIRCLE}" fill="{fill}" stroke="black"/>"#));
    lines.push(format!(r#"<text x="{TO_LABEL}" y="{BELOW}">{}</text>"#, xml::text(label)));
    lines.push("</g>".into());
    lines
}

fn line(way: String) -> String {
    format!(r##"<path d="{way}" stroke="#666"/>"##)
}

#[cfg(test)]
mod tests {
    use super::*;
    use crate::tree::samples;
    use std::collections::BTreeSet;

    #[test]
    fn every_strain_once_on_a_row_of_its_own() {
        let tree = Tree::of(&samples::strewn());
        let labels: Vec<_> = tree.records.iter().map(|record| format!("strain {}", record.code)).collect();
        let picture = svg("", &tree, &labels);
        for label in &labels {
            assert_eq!(picture.matches(&format!(">{label}</text>")).count(), 1, "{label}");
        }
        let rows: BTreeSet<_> =
            picture.lines().filter_map(|line| line.strip_prefix("<g transform=\"translate(")?.split(' ').nth(1)).collect();
        assert_eq!(rows.len(), labels.len());
        assert_eq!(picture.matches("<circle").count(), labels.len());
        assert_eq!(picture.matches(">root</text>").count(), 1);
    }

    #[test]
    fn every_distance_of_the_example() {
        let tree = Tree::of(&samples::example());
        let picture = svg("", &tree, &["a", "b", "c", "d"].map(String::from));
        let ends = "text-anchor=\"end\">";
        let texts: Vec<_> = picture.lines().filter_map(|line| line.split_once(ends)?.1.strip_suffix("</text>")).collect();
        assert_eq!(texts, ["root", "3", "10", "1"]);
        // down from 101 and 103, and across to the other three
        assert_eq!(picture.matches("stroke=\"#666\"").count(), 5);
    }

    #[test]
    fn a_lone_root_has_no_lines() {
        let picture = svg("alone", &Tree::of(&samples::lone_root()), &["5".into()]);
        assert_eq!((picture.matches("<circle").count(), picture.matches("stroke=\"#666\"").count()), (1, 0));
        assert!(picture.contains(">root</text>") && picture.contains("<title>alone</title>"));
    }

    #[test]
    fn any_name_and_title_is_escaped() {
        let picture = svg("<a&b>.kwl", &Tree::of(&samples::lone_root()), &["5 \"<Loop & 4>\"".into()]);
        assert!(picture.contains(">5 &quot;&lt;Loop &amp; 4&gt;&quot;</text>"));
        assert_eq!(picture.matches("&lt;a&amp;b&gt;.kwl</").count(), 2);
    }
}
