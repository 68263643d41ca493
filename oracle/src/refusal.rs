//! Document 01's number, place, reason and pass for a refusal of the reference, by the exact table of its texts (messages.txt, which
//! the build compares with the source).

#[derive(Clone, Copy, PartialEq, Eq, Debug)]
pub struct Refusal {
    pub number: u32,
    /// A point, a triangle or a vertex in the first; an edge's two ends. 0 where there is none.
    pub place: [u64; 2],
    /// Of row 24; otherwise 0.
    pub reason: u32,
    /// 1 or 2 from row 19 on; otherwise 0.
    pub pass: u32,
}

impl Refusal {
    pub fn row(number: u32, place: u64) -> Self {
        Self {
            number,
            place: [place, 0],
            reason: 0,
            pass: 0,
        }
    }
}

/// What a text has in the places of a template's names, if it has its form: `size[{i}] = {value} ..` gives i and value.
fn fields<'a, 'b>(template: &'a str, text: &'b str) -> Option<Vec<(&'a str, &'b str)>> {
    let mut found = vec![];
    let (mut template, mut text) = (template, text);
    while let Some((literal, rest)) = template.split_once('{') {
        text = text.strip_prefix(literal)?;
        let (name, after) = rest.split_once('}')?;
        let next = after.split('{').next().unwrap_or("");
        let end = if next.is_empty() { text.len() } else { text.find(next)? };
        found.push((name, &text[..end]));
        (template, text) = (after, &text[end..]);
    }
    (template == text).then_some(found)
}

/// The refusal that a text of the reference stands for, met in this pass (0 before the first). Panics for a text that is not in the
/// table, that fits two of its rows, or that document 01 says can never come up.
pub fn of_message(text: &str, pass: u32) -> Refusal {
    let mut all = vec![];
    for row in include_str!("../messages.txt")
        .lines()
        .filter(|row| !row.starts_with('#'))
    {
        let parts: Vec<&str> = row.splitn(5, " | ").collect();
        if let Some(fields) = fields(parts[4], text) {
            all.push((parts, fields));
        }
    }
    let [(parts, fields)] = &all[..] else {
        panic!("{} rows of messages.txt fit: {text}", all.len())
    };
    assert!(
        parts[0] != "never",
        "document 01 says that this is never reached: {text}"
    );
    let number: u32 = parts[0].parse().expect("a number");
    let mut place = [0; 2];
    for (k, name) in parts[2].split(' ').filter(|name| *name != "-").enumerate() {
        let field = fields.iter().find(|f| f.0 == name).expect("a place in the text");
        place[k] = field.1.parse().expect("a whole number as place");
    }
    let pass = if number < 19 { 0 } else { pass };
    assert!(number < 19 || pass > 0, "a refusal of a pass before the first: {text}");
    Refusal {
        number,
        place,
        reason: parts[1].parse().expect("a reason"),
        pass,
    }
}
