//! The offsets of a structure, as a table of the page has them.

use crate::sums::{sum, Known, Set};
use crate::Checked;

pub struct Field {
    pub offset: usize,
    /// How many bytes it has, perhaps in names: `9 x accesses`.
    bytes: String,
    pub name: String,
    pub values: String,
}

pub struct Layout {
    pub heading: String,
    pub fields: Vec<Field>,
}

/// How a number becomes so many bytes.
type Written = fn(u64, usize) -> Vec<u8>;

/// The first byte counts most.
pub fn big_endian(value: u64, width: usize) -> Vec<u8> {
    (0..width)
        .rev()
        .map(|place| value.checked_shr(8 * place as u32).unwrap_or(0) as u8)
        .collect()
}

/// The last byte counts most.
pub fn little_endian(value: u64, width: usize) -> Vec<u8> {
    let mut bytes = big_endian(value, width);
    bytes.reverse();
    bytes
}

impl Field {
    pub fn of(row: &[&str]) -> Checked<Field> {
        match row[..] {
            [offset, bytes, name, values] => Ok(Field {
                offset: offset
                    .parse()
                    .map_err(|_| format!("{} is no offset", offset))?,
                bytes: bytes.to_string(),
                name: name.to_string(),
                values: values.to_string(),
            }),
            _ => Err(format!("{:?} has not four cells", row)),
        }
    }

    pub fn width(&self, known: Known) -> Checked<usize> {
        sum(&self.bytes, known).map(|width| width as usize)
    }

    /// Whether it is a number, and no structure of its own that the page links to.
    pub fn is_number(&self) -> bool {
        !self.values.starts_with('[')
    }
}

impl Layout {
    /// Fields that stand one after the other without gaps; only the last may have a length that is not fixed.
    pub fn of(heading: &str, fields: Vec<Field>) -> Checked<Layout> {
        let mut end = 0;
        let last = fields.len().saturating_sub(1);
        for (place, field) in fields.iter().enumerate() {
            if field.offset != end {
                let where_it_is = (field.offset, end);
                let said = format!("{} of {} is at", field.name, heading);
                return Err(format!("{} {:?}", said, where_it_is));
            }
            end += match field.width(&[]) {
                Err(_) if place == last => 0,
                width => width?,
            };
        }
        let heading = heading.to_string();
        Ok(Layout { heading, fields })
    }

    pub fn length(&self, known: Known) -> Checked<usize> {
        let widths = self.fields.iter().map(|field| field.width(known));
        widths.sum()
    }

    pub fn field(&self, name: &str) -> Checked<&Field> {
        let found = self.fields.iter().find(|field| field.name == name);
        found.ok_or_else(|| format!("{} has no field {}", self.heading, name))
    }

    /// The fields that are numbers.
    pub fn numbers(&self) -> impl Iterator<Item = &Field> {
        self.fields.iter().filter(|field| field.is_number())
    }

    /// The bytes in which each number stands where its field is; what is no number is left to whoever lays it behind them.
    pub fn laid(&self, values: &[(&str, u64)]) -> Checked<Vec<u8>> {
        self.laid_as(values, big_endian)
    }

    pub fn laid_as(&self, values: &[(&str, u64)], written: Written) -> Checked<Vec<u8>> {
        let mut bytes = Vec::new();
        for field in self.numbers() {
            let value = values.iter().find(|(name, _)| *name == field.name);
            let (_, value) = value.ok_or_else(|| format!("{}: {}?", self.heading, field.name))?;
            let width = field.width(&[])?;
            bytes.resize(bytes.len().max(field.offset + width), 0);
            bytes[field.offset..field.offset + width].copy_from_slice(&written(*value, width));
        }
        match values.len() == self.numbers().count() {
            true => Ok(bytes),
            false => Err(format!("{} has not {} numbers", self.heading, values.len())),
        }
    }

    /// Writes a number over the field of that name.
    pub fn put(&self, bytes: &mut [u8], name: &str, value: u64) -> Checked {
        self.put_as(bytes, name, value, big_endian)
    }

    pub fn put_as(&self, bytes: &mut [u8], name: &str, value: u64, written: Written) -> Checked {
        let field = self.field(name)?;
        let width = field.width(&[])?;
        let place = bytes.get_mut(field.offset..field.offset + width);
        let place = place.ok_or_else(|| format!("{}: {} is outside", self.heading, name))?;
        place.copy_from_slice(&written(value, width));
        Ok(())
    }

    /// The number that stands in the field of that name.
    pub fn number(&self, bytes: &[u8], name: &str) -> Checked<u64> {
        let field = self.field(name)?;
        let width = field.width(&[])?;
        let outside = || format!("{}: {} is outside", self.heading, name);
        let part = bytes.get(field.offset..field.offset + width);
        let mut value: u64 = 0;
        for byte in part.ok_or_else(outside)? {
            value = value.checked_mul(256).ok_or_else(outside)? + u64::from(*byte);
        }
        Ok(value)
    }

    /// That each number is one of those that its field allows.
    pub fn allows(&self, bytes: &[u8], known: Known) -> Checked {
        for field in self.numbers() {
            let value = self.number(bytes, &field.name)?;
            if !Set::of(&field.values, known)?.has(value) {
                return Err(format!("{}: {} is {}", self.heading, field.name, value));
            }
        }
        Ok(())
    }
}
