//! The page taken apart: its sections, the tables in them, and the worked bytes.

use crate::layout::{Field, Layout};
use crate::Checked;

pub struct Page<'a> {
    pub sections: Vec<Section<'a>>,
}

pub struct Section<'a> {
    pub heading: &'a str,
    pub lines: Vec<&'a str>,
}

/// A row of a table of codes: `| code | name |`, and behind them, where there is one, the name in C.
pub struct Code<'a> {
    pub code: u64,
    pub name: &'a str,
    pub in_c: Option<&'a str>,
}

/// Worked bytes: the lines that say in words what they are, the bytes, and how many of them stand together at a time.
#[derive(Default)]
pub struct Item<'a> {
    pub heading: &'a str,
    pub said: Vec<&'a str>,
    pub bytes: Vec<u8>,
    pub groups: Vec<usize>,
}

impl<'a> Page<'a> {
    pub fn of(text: &'a str) -> Page<'a> {
        let mut sections = Vec::new();
        for line in text.lines() {
            if line.starts_with('#') {
                let heading = line.trim_start_matches('#').trim();
                let lines = Vec::new();
                sections.push(Section { heading, lines });
            } else if let Some(section) = sections.last_mut() {
                section.lines.push(line);
            }
        }
        Page { sections }
    }

    pub fn section(&self, heading: &str) -> Checked<&Section<'a>> {
        let mut sections = self.sections.iter();
        let found = sections.find(|section| section.heading == heading);
        found.ok_or_else(|| format!("there is no section \"{}\"", heading))
    }

    /// The table of offsets in a section.
    pub fn layout(&self, heading: &str) -> Checked<Layout> {
        let rows = self
            .section(heading)?
            .table("| offset | bytes | field | values |")?;
        let fields: Checked<Vec<Field>> = rows.iter().map(|row| Field::of(row)).collect();
        Layout::of(heading, fields?)
    }

    /// The table of codes in a section.
    pub fn codes(&self, heading: &str) -> Checked<Vec<Code<'a>>> {
        let rows = self.section(heading)?.table("| code | name |")?;
        let code = |row: &Vec<&'a str>| match row[..] {
            [code, name, ..] => Ok(Code {
                code: code.parse().map_err(|_| format!("{} is no code", code))?,
                name,
                in_c: row.get(2).copied().filter(|name| !name.is_empty()),
            }),
            _ => Err(format!("{}: a row without code and name", heading)),
        };
        rows.iter().map(code).collect()
    }

    /// All worked bytes, in the order of the page.
    pub fn worked(&self) -> Checked<Vec<Item<'a>>> {
        let items = self.sections.iter().map(Section::worked);
        let items: Checked<Vec<Vec<Item<'a>>>> = items.collect();
        Ok(items?.into_iter().flatten().collect())
    }
}

impl<'a> Section<'a> {
    /// The cells of the one table whose first line begins so, row by row.
    pub fn table(&self, first: &str) -> Checked<Vec<Vec<&'a str>>> {
        let starts: Vec<usize> = (0..self.lines.len())
            .filter(|place| self.lines[*place].starts_with(first))
            .collect();
        match starts[..] {
            [start] => Ok(self.lines[start + 2..]
                .iter()
                .take_while(|line| line.starts_with('|'))
                .map(|line| cells(line))
                .collect()),
            _ => Err(format!(
                "{}: {} tables {}",
                self.heading,
                starts.len(),
                first
            )),
        }
    }

    /// What stands in blocks of bytes. Lines of words begin an item, and lines of bytes end it.
    fn worked(&self) -> Checked<Vec<Item<'a>>> {
        let mut items: Vec<Item<'a>> = Vec::new();
        let mut inside = false;
        for line in &self.lines {
            match (inside, line.starts_with("```")) {
                (_, true) => inside = *line == "```bytes",
                (false, false) => {}
                (true, false) => self.take_line(&mut items, line)?,
            }
        }
        let heading = self.heading;
        match items.iter().find(|item| item.bytes.is_empty()) {
            Some(item) => Err(format!("{}: no bytes for {:?}", heading, item.said)),
            None => Ok(items),
        }
    }

    fn take_line(&self, items: &mut Vec<Item<'a>>, line: &'a str) -> Checked {
        if line.is_empty() {
            return Ok(());
        }
        let groups: Option<Vec<Vec<u8>>> = line.split("  ").map(group).collect();
        match (groups, items.last_mut()) {
            (Some(groups), Some(item)) => {
                item.groups.extend(groups.iter().map(Vec::len));
                item.bytes.extend(groups.concat());
            }
            (Some(_), None) => return Err(format!("{}: bytes without words", self.heading)),
            (None, Some(item)) if item.bytes.is_empty() => item.said.push(line),
            (None, _) => items.push(Item {
                heading: self.heading,
                said: vec![line],
                ..Item::default()
            }),
        }
        Ok(())
    }
}

/// Bytes with one space between two of them.
fn group(text: &str) -> Option<Vec<u8>> {
    let byte = |digits: &str| match digits.len() {
        2 => u8::from_str_radix(digits, 16).ok(),
        _ => None,
    };
    text.split(' ').map(byte).collect()
}

/// The cells of a line of a table.
pub fn cells(line: &str) -> Vec<&str> {
    let inner = line.trim().trim_start_matches('|');
    let inner = inner.strip_suffix('|').unwrap_or(inner);
    inner.split('|').map(str::trim).collect()
}
