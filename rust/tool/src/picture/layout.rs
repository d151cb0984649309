//! Where everything stands in the picture, in its own units.
//!
//! Reckoned for an upright A4 page with margins of 10 mm, which leaves 190 by 277 mm. A picture of 100 strains is 1,788 high. If it is no
//! wider than 1,226, the page gives each row 2.6 mm, the letters of a label 5.3 points, and those of a distance 4.4.
use crate::tree::Tree;
use std::collections::BTreeSet;

pub const ROW: usize = 17;
/// The sizes of letters.
pub const TITLE: usize = 14;
pub const LABEL: usize = 12;
pub const DISTANCE: usize = 10;
/// From a strain's middle to the edge of its circle, to its distance and to its label.
pub const CIRCLE: usize = 4;
pub const TO_DISTANCE: usize = 6;
pub const TO_LABEL: usize = 8;
/// How far a label's baseline is below the middle of its row, and a distance's above: so it is clear of its line and of the label above.
pub const BELOW: usize = 4;
pub const ABOVE: usize = 2;
pub const MARGIN: usize = 14;
/// The baselines of the title, of the words that explain the picture, and of the levels; then the middle of the first row.
pub const TITLE_LINE: usize = 26;
pub const KEY_LINE: usize = 44;
pub const LEVEL_LINE: usize = 70;
const FIRST_ROW: usize = 88;

pub const KEY: &str = "Each level has its column, the root's at the left. The number on a line is the distance from the parent.";
/// The words left of the root's column, before the levels and before the root.
pub const LEVEL_WORD: &str = "level";
pub const ROOT_WORD: &str = "root";

pub struct Layout {
    /// The levels that occur, the root's first.
    pub levels: Vec<i32>,
    /// How far a column is from the next.
    column: usize,
    /// Of each record its row, counted from 0.
    rows: Vec<usize>,
    pub width: usize,
    pub height: usize,
}

impl Layout {
    pub fn of(title: &str, tree: &Tree, labels: &[String]) -> Self {
        let levels: BTreeSet<_> = tree.records.iter().map(|record| record.level()).collect();
        let furthest = (0..tree.records.len()).filter_map(|record| tree.distance(record)).max().unwrap_or(0);
        // a distance stands left of its strain, and clear of the line that comes down from the parent
        let column = TO_DISTANCE + letters(&furthest.to_string(), DISTANCE) + TO_DISTANCE;
        let height = FIRST_ROW + ROW * tree.records.len();
        let mut layout = Layout { levels: levels.into_iter().rev().collect(), column, rows: rows(tree), width: 0, height };
        let labels = tree.records.iter().zip(labels).map(|(record, label)| layout.x(record.level()) + TO_LABEL + letters(label, LABEL));
        let head = [(title, TITLE), (KEY, DISTANCE)].map(|(text, size)| MARGIN + letters(text, size));
        layout.width = labels.chain(head).max().unwrap_or(0) + MARGIN;
        layout
    }

    /// The middle of a level's column.
    pub fn x(&self, level: i32) -> usize {
        let before = self.levels.iter().filter(|other| **other > level).count();
        MARGIN + letters(LEVEL_WORD, DISTANCE) + TO_LABEL + self.column * before
    }

    /// The middle of a record's row.
    pub fn y(&self, record: usize) -> usize {
        FIRST_ROW + ROW * self.rows[record]
    }
}

fn rows(tree: &Tree) -> Vec<usize> {
    let mut rows = vec![0; tree.records.len()];
    for (row, step) in tree.steps().iter().enumerate() {
        rows[step.record] = row;
    }
    rows
}

/// How long a text gets at most. Which font it is printed with is not known here: these are the letters of DejaVu Sans, a wide one.
fn letters(text: &str, size: usize) -> usize {
    let hundredths = text.chars().map(|letter| match letter {
        ' ' | '.' | ',' | ':' | ';' | '\'' | '-' | '/' | '(' | ')' | 'f' | 'i' | 'j' | 'l' | 'r' | 't' => 42,
        'm' | 'w' | 'M' | 'W' => 100,
        'a'..='z' | '0'..='9' => 65,
        'A'..='Z' => 80,
        _ => 100,
    });
    (hundredths.sum::<usize>() * size).div_ceil(100)
}

#[cfg(test)]
mod tests {
    use super::*;
    use crate::tree::samples;

    fn laid_out(tree: &Tree) -> Layout {
        Layout::of("", tree, &vec![String::new(); tree.records.len()])
    }

    #[test]
    fn the_example() {
        let layout = laid_out(&Tree::of(&samples::example()));
        assert_eq!(layout.levels, [4, 3, 1, -1]);
        assert_eq!(layout.rows, [0, 1, 2, 3]);
    }

    #[test]
    fn children_stand_below_and_further_right() {
        let tree = Tree::of(&samples::strewn());
        let layout = laid_out(&tree);
        for (record, child) in (0..tree.records.len()).flat_map(|record| tree.children(record).iter().map(move |child| (record, *child))) {
            let [own, childs] = [record, child].map(|record| layout.x(tree.records[record].level()));
            let distance = tree.distance(child).unwrap().to_string();
            assert!(own + letters(&distance, DISTANCE) + TO_DISTANCE < childs, "{distance} meets the line from the parent");
            assert!(layout.y(record) + ROW <= layout.y(child));
        }
    }

    #[test]
    fn the_width_has_room_for_the_longest_text() {
        let tree = Tree::of(&samples::lone_root());
        let narrow = laid_out(&tree);
        assert_eq!(narrow.width, MARGIN + letters(KEY, DISTANCE) + MARGIN);
        let name = "Pseudomonas".repeat(40);
        let label_end = narrow.x(0) + TO_LABEL + letters(&name, LABEL);
        assert_eq!(Layout::of("", &tree, std::slice::from_ref(&name)).width, label_end + MARGIN);
        assert_eq!(Layout::of(&name, &tree, &[String::new()]).width, MARGIN + letters(&name, TITLE) + MARGIN);
    }
}
