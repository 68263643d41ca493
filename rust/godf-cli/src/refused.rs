//! Refusals in words, with the file and the line of the fault.

use crate::text::OwnedFloor;
use godf::{Place, Refusal};

/// Rows about options, and not about the floor.
fn is_of_options(refusal: &Refusal) -> bool {
    matches!(refusal.number, 2 | 9..=15) || refusal.place == Place::AnisotropyAngle
}

/// The lines of a place in the floor's text, and what is there. A triangle of the refined floor has no line, and neither has a new point.
fn placed(refusal: &Refusal, floor: &OwnedFloor) -> (Vec<usize>, String) {
    let points = |points: &[usize]| {
        let lines = points.iter().filter_map(|&i| floor.point_lines.get(i).copied());
        lines.collect::<Vec<usize>>()
    };
    let named = refusal.place.to_string();
    match refusal.place {
        Place::None => (vec![], String::new()),
        Place::Point(i) => (points(&[i]), named),
        Place::Edge(a, b) => (points(&[a, b]), named),
        Place::Triangle(i) if refusal.pass < 2 => {
            let line = floor.triangle_lines.get(i).copied();
            let corners = floor.triangles.get(i).map(|t| t.map(|v| v.to_string()).join(" "));
            let corners = corners.map_or(String::new(), |corners| format!(" (corners {corners})"));
            (line.into_iter().collect(), named + &corners)
        }
        _ => (vec![], named),
    }
}

/// `my.txt, line 7: triangle 1 (corners 0 1 9): .. (refused by row 8)`
pub fn described(refusal: Refusal, floor: &OwnedFloor) -> String {
    let (lines, place) = placed(&refusal, floor);
    let mut parts = vec![];
    if !is_of_options(&refusal) {
        let name = &floor.name;
        parts.push(match lines[..] {
            [] => name.clone(),
            [line] => format!("{name}, line {line}"),
            _ => format!(
                "{name}, lines {}",
                lines.iter().map(ToString::to_string).collect::<Vec<_>>().join(" and ")
            ),
        });
    }
    if refusal.pass == 2 {
        parts.push("on the refined floor".to_string());
    }
    if !place.is_empty() {
        parts.push(place);
    }
    parts.push(refusal.words().to_string());
    parts.extend(refusal.reason_words().map(str::to_string));
    let mut text = parts.join(": ");
    if refusal.pass == 2 {
        text += "; --adaptive 0 gives the first pass's field";
    }
    let reason = match refusal.reason {
        0 => String::new(),
        reason => format!(", reason {reason}"),
    };
    format!("{text} (refused by row {}{reason})", refusal.number)
}
