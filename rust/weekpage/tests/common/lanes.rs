//! The marks of a row, and where in the lanes they stand.

use std::ops::RangeInclusive;

use crate::common::tree::Element;

/// A lane's width. There is one for each pantry, in their order, from the left.
const LANE: i32 = 68;

/// All lanes together are so wide.
pub const LANES: i32 = 8 * LANE;

/// The middle of the pantry's lane.
pub fn middle(pantry: u8) -> i32 {
    LANE * i32::from(pantry) + LANE / 2
}

/// From side to side of the pantry's lane.
pub fn lane(pantry: u8) -> RangeInclusive<i32> {
    middle(pantry) - LANE / 2..=middle(pantry) + LANE / 2
}

/// The marks of a row, without the texts above them.
pub fn marks(row: &Element) -> Vec<&Element> {
    let marks = row.one(".marks").elements();
    marks.filter(|mark| !mark.has_class("label")).collect()
}

/// Their classes and texts, in any order.
pub fn told(row: &Element) -> Vec<Mark> {
    let told = marks(row).into_iter().map(|mark| {
        let class = mark.attribute("class").expect("a mark has a class");
        (class.to_owned(), mark.text())
    });
    let mut told: Vec<Mark> = told.collect();
    told.sort();
    told
}

/// A mark's class and its text.
pub type Mark = (String, String);

/// A number of an element.
pub fn number(element: &Element, attribute: &str) -> i32 {
    let value = element.attribute(attribute).expect("it has the attribute");
    value.parse().expect("it is a number")
}

/// Where the path of an element begins.
pub fn start(path: &Element) -> i32 {
    let line = path.attribute("d").expect("a path has a line");
    let start = line.strip_prefix('M').and_then(|line| line.split_once(' '));
    let (x, _) = start.expect("a line begins somewhere");
    x.parse().expect("it is a number")
}

/// The kinds of pieces that the line of a path is made of: its shape.
pub fn shape(path: &Element) -> String {
    let line = path.attribute("d").expect("a path has a line");
    line.chars().filter(char::is_ascii_alphabetic).collect()
}

/// From where to where a mark reaches, as far as it tells.
pub fn reach(mark: &Element) -> (i32, i32) {
    if let [rect] = mark.select("rect")[..] {
        let x = number(rect, "x");
        return (x, x + number(rect, "width"));
    }
    if let [circle] = mark.select("circle")[..] {
        let (x, radius) = (number(circle, "cx"), number(circle, "r"));
        return (x - radius, x + radius);
    }
    let starts: Vec<i32> = mark.select("path").into_iter().map(start).collect();
    let ends = (starts.iter().min(), starts.iter().max());
    let (Some(&first), Some(&last)) = ends else {
        panic!("nothing is drawn");
    };
    (first, last)
}

/// A vote's arrow: where its shaft begins and ends, and where its head stands.
pub struct Arrow {
    /// The sender's end of the shaft.
    pub from: i32,
    /// Its other end.
    pub to: i32,
    /// The head.
    pub head: i32,
}

impl Arrow {
    /// The row's.
    pub fn of(row: &Element) -> Self {
        let shaft = row.one(".vote .shaft");
        let line = shaft.attribute("d").expect("a shaft has a line");
        let (_, to) = line.rsplit_once('H').expect("it ends on the level");
        Arrow {
            from: start(shaft),
            to: to.parse().expect("it is a number"),
            head: start(row.one(".vote .head")),
        }
    }

    /// Whether this is between its ends.
    pub fn spans(&self, x: i32) -> bool {
        (self.from.min(self.head)..=self.from.max(self.head)).contains(&x)
    }

    /// From the sender's middle into the receiver's lane, and the head at its
    /// end; a pantry's own vote comes back from the right.
    pub fn check(&self, sender: u8, receiver: u8, name: &str) {
        let Arrow { from, to, head } = *self;
        assert_eq!(from, middle(sender), "{name}");
        for end in [to, head] {
            assert!(lane(receiver).contains(&end), "{name}: ends at {end}");
        }
        let between = if sender < receiver {
            from..=head
        } else {
            head..=LANES
        };
        assert!(between.contains(&to), "{name}: {from}, {to}, {head}");
        assert!((to - head).abs() < 10, "{name}: {from}, {to}, {head}");
    }
}
