// Shapes read from a picture: boxes, lines, and whether anything lies over anything. For the test of the pictures.

// Tags are balanced, attributes quoted, and every & begins an entity.
pub fn well_formed(text: &str) -> bool {
    let mut open: Vec<&str> = Vec::new();
    let mut parts = text.split('<');
    let entities = |s: &str| s.split('&').skip(1).all(|rest| ["amp;", "lt;", "gt;", "quot;", "#39;"].iter().any(|e| rest.starts_with(e)));
    if !entities(text) || !parts.next().unwrap_or("").trim().is_empty() {
        return false;
    }
    for part in parts {
        // A part without its > has an empty name, which is a fault below.
        let (tag, after) = part.split_once('>').unwrap_or(("", ""));
        let name = tag.split([' ', '/']).next().unwrap_or("");
        if let Some(closed) = tag.strip_prefix('/') {
            if open.pop() != Some(closed) {
                return false;
            }
        } else if tag.matches('"').count() % 2 == 1 || name.is_empty() {
            return false;
        } else if !tag.ends_with('/') {
            open.push(name);
        }
        if after.contains('>') || (open.is_empty() && !after.trim().is_empty()) {
            return false;
        }
    }
    open.is_empty()
}

// The corners of every box: left, top, right, bottom.
pub fn areas(picture: &str) -> Vec<[f64; 4]> {
    let boxes = picture.split("<g class=").skip(1).filter_map(|group| group.split("<rect").nth(1)?.split('>').next());
    boxes.filter_map(area).collect()
}

fn area(tag: &str) -> Option<[f64; 4]> {
    let value = |name: &str| tag.split(&format!(" {name}=\"")).nth(1)?.split('"').next()?.parse::<f64>().ok();
    let (x, y) = (value("x")?, value("y")?);
    Some([x, y, x + value("width")?, y + value("height")?])
}

pub fn apart(areas: &[[f64; 4]]) -> bool {
    let clear = |a: &[f64; 4], b: &[f64; 4]| a[2] < b[0] || b[2] < a[0] || a[3] < b[1] || b[3] < a[1];
    areas.iter().enumerate().all(|(i, a)| areas[..i].iter().all(|b| clear(a, b)))
}

// The boxes of one part: the tag of each, and its left and upper edge.
pub fn boxes_of(part: &str) -> Vec<(String, f64, f64)> {
    let groups = part.split("<g class=").skip(1);
    let one = |group: &str| {
        let told = group.split("<title>").nth(1)?.split("</title>").next()?.to_string();
        let corner = area(group.split("<rect").nth(1)?.split('>').next()?)?;
        Some((told, corner[0], corner[1]))
    };
    groups.filter_map(one).collect()
}

// The box with this name, as far as its end.
pub fn box_of<'a>(picture: &'a str, name: &str) -> &'a str {
    let mut boxes = picture.split("<g class=").filter_map(|group| group.split("</g>").next());
    boxes.find(|one| one.contains("<text class=\"name\"") && one.contains(&format!(">{name}</text>"))).unwrap_or("")
}

// The points of a line's path, close to one another. Its parts are a move, curves and level lines.
fn points(path: &str) -> Vec<(f64, f64)> {
    let (mut list, mut rest): (Vec<(f64, f64)>, &str) = (vec![], path);
    while !rest.is_empty() {
        let end = rest[1..].find(|c: char| c.is_ascii_uppercase()).map_or(rest.len(), |at| at + 1);
        let numbers: Vec<f64> = rest[1..end].split(' ').filter_map(|word| word.parse().ok()).collect();
        let (x, y) = list.last().copied().unwrap_or_default();
        let parts = (1..=40).map(|i| f64::from(i) / 40.0);
        match (&rest[..1], &numbers[..]) {
            ("M", [x, y]) => list.push((*x, *y)),
            ("H", [to]) => list.extend(parts.map(|t| (x + t * (to - x), y))),
            ("C", [x1, y1, x2, y2, x3, y3]) => {
                let at = |t: f64, a: f64, b: f64, c: f64, d: f64| (1.0 - t).powi(3) * a + 3.0 * t * (1.0 - t) * ((1.0 - t) * b + t * c) + t.powi(3) * d;
                list.extend(parts.map(|t| (at(t, x, *x1, *x2, *x3), at(t, y, *y1, *y2, *y3))));
            }
            _ => return vec![],
        }
        rest = &rest[end..];
    }
    list
}

// The lines of a picture: whether each is dashed for a missing term, and its points.
pub fn lines_of(picture: &str) -> Vec<(bool, Vec<(f64, f64)>)> {
    let lines = picture.split("<path class=\"line").skip(1).filter_map(|rest| rest.split("\"/>").next()?.split_once("\" d=\""));
    lines.map(|(class, path)| (class == " lack", points(path))).collect()
}

// No point of a line is inside a box.
pub fn clear(lines: &[(bool, Vec<(f64, f64)>)], areas: &[[f64; 4]]) -> bool {
    let inside = |(x, y): &(f64, f64), a: &[f64; 4]| *x > a[0] + 0.2 && *x < a[2] - 0.2 && *y > a[1] + 0.2 && *y < a[3] - 0.2;
    lines.iter().all(|(_, points)| !points.is_empty() && points.iter().all(|point| areas.iter().all(|area| !inside(point, area))))
}
