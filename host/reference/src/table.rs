//! "The table image: contents first, bodies after"

use crate::body::Body;
use crate::bytes::{put, Source};
use crate::group::f_of;
use crate::numbers::{first_that_applies, Number};
use crate::row::{HeldOutcome, HeldPrepare, Row, Rows};
use crate::stamps::is_stamp;
use crate::{Model, VALLEY};

const FORMAT: u8 = 1;
const HEADER_LENGTH: usize = 24;
const ROW_LENGTH: usize = 24;

/// "Normal: promised = view. Changing: promised > view."
#[derive(Clone, Copy, Debug, PartialEq, Eq)]
pub enum Mode {
    Normal,
    Changing { promised: u32 },
}

/// All that an image says, without its offsets and lengths: those follow from the rest.
#[derive(Clone, Debug, PartialEq, Eq)]
pub struct Table {
    pub box_number: u8,
    pub n: u8,
    pub mode: Mode,
    /// "view (last normal)"
    pub view: u32,
    /// "rows when this view began"
    pub start_rows: usize,
    pub rows: Rows,
}

/// A header as it stands in the image, with the numbers that only the rows and bodies behind it can confirm.
struct Header {
    box_number: u8,
    n: u8,
    mode: Mode,
    rows: usize,
    view: u32,
    start_rows: usize,
    total_length: usize,
}

impl Header {
    /// "Header, 24 bytes: format 1; box; n; mode (0 normal, 1 changing); then 4 bytes each: rows, view (last normal),
    /// promised view, rows when this view began, total length."
    fn parse(bytes: &[u8]) -> Option<Header> {
        let mut source = Source::new(bytes);
        let format = source.one()?;
        let (box_number, n, mode) = (source.one()?, source.one()?, source.one()?);
        let rows = source.four()? as usize;
        let (view, promised) = (source.four()?, source.four()?);
        let start_rows = source.four()? as usize;
        let header = Header {
            box_number,
            n,
            mode: mode_of(mode, view, promised)?,
            rows,
            view,
            start_rows,
            total_length: source.four()? as usize,
        };
        let good = format == FORMAT && f_of(n).is_some() && box_number < n;
        // "Start rows never exceed rows."
        (good && start_rows <= rows).then_some(header)
    }
}

fn mode_of(byte: u8, view: u32, promised: u32) -> Option<Mode> {
    match byte {
        0 if promised == view => Some(Mode::Normal),
        1 if promised > view => Some(Mode::Changing { promised }),
        _ => None,
    }
}

/// Row number `index` with its stamp, if its body lies where the bodies before it end.
fn parse_row(bytes: &[u8], index: usize, body_starts: usize) -> Option<(u64, Row)> {
    let mut source = Source::starting_at(bytes, HEADER_LENGTH + ROW_LENGTH * index)?;
    let (stamp, retry_stamp) = (source.eight()?, source.eight()?);
    let offset = source.four()? as usize;
    let counts = (source.one()?, source.one()?);
    let prepare = HeldPrepare::from_byte(source.one()?, retry_stamp)?;
    let outcome = HeldOutcome::from_byte(source.one()?)?;
    // "Not both zero." "Bodies follow in row order without gaps; offsets count from the image's start."
    if !is_stamp(stamp) || offset != body_starts || (prepare.is_none() && outcome.is_none()) {
        return None;
    }
    let body = Body::take(&mut Source::starting_at(bytes, offset)?, counts, stamp)?;
    Some((
        stamp,
        Row {
            body,
            prepare,
            outcome,
        },
    ))
}

impl Table {
    /// The table whose image the bytes begin with, and the length of that image.
    pub fn parse(bytes: &[u8]) -> Option<(Table, usize)> {
        Table::parse_for(VALLEY, bytes)
    }

    pub fn parse_for(model: Model, bytes: &[u8]) -> Option<(Table, usize)> {
        let header = Header::parse(bytes)?;
        if header.rows > model.rows {
            return None;
        }
        let mut rows = Rows::new();
        let mut end = HEADER_LENGTH + ROW_LENGTH * header.rows;
        for index in 0..header.rows {
            let (stamp, row) = parse_row(bytes, index, end)?;
            // "stamps strictly rising"
            if rows.range(stamp..).next().is_some() {
                return None;
            }
            end += row.body.length();
            rows.insert(stamp, row);
        }
        let table = Table {
            box_number: header.box_number,
            n: header.n,
            mode: header.mode,
            view: header.view,
            start_rows: header.start_rows,
            rows,
        };
        (header.total_length == end).then_some((table, end))
    }

    /// The one image of this table.
    pub fn image(&self) -> Vec<u8> {
        let mut contents = Vec::new();
        let mut bodies = Vec::new();
        let bodies_start = HEADER_LENGTH + ROW_LENGTH * self.rows.len();
        for (stamp, row) in &self.rows {
            let offset = (bodies_start + bodies.len()) as u32;
            contents.extend(stamp.to_be_bytes());
            contents.extend(row.retry_stamp().to_be_bytes());
            contents.extend(offset.to_be_bytes());
            contents.extend(row.body.counts());
            contents.extend([row.prepare_byte(), row.outcome_byte()]);
            bodies.extend(row.body.bytes());
        }
        let header = self.header(bodies_start + bodies.len());
        [header, contents, bodies].concat()
    }

    fn header(&self, total_length: usize) -> Vec<u8> {
        let mode = u8::from(self.mode != Mode::Normal);
        let mut header = vec![FORMAT, self.box_number, self.n, mode];
        header.extend((self.rows.len() as u32).to_be_bytes());
        header.extend(self.view.to_be_bytes());
        header.extend(self.promised().to_be_bytes());
        header.extend((self.start_rows as u32).to_be_bytes());
        header.extend((total_length as u32).to_be_bytes());
        header
    }

    pub fn promised(&self) -> u32 {
        match self.mode {
            Mode::Normal => self.view,
            Mode::Changing { promised } => promised,
        }
    }

    /// A normal table in which everything stood when its view began.
    pub fn beginning(n: u8, box_number: u8, view: u32, rows: Rows) -> Table {
        Table {
            box_number,
            n,
            mode: Mode::Normal,
            view,
            start_rows: rows.len(),
            rows,
        }
    }

    /// The fresh table, unless "bad n or box".
    pub fn fresh(n: u8, box_number: u8) -> Option<Table> {
        let good = f_of(n).is_some() && box_number < n;
        good.then(|| Table::beginning(n, box_number, 0, Rows::new()))
    }
}

/// "A fresh table writes its 24 bytes only", and never looks at what the buffer held.
pub fn fresh_for(model: Model, buffer: &mut [u8], n: u8, box_number: u8) -> Number {
    let fresh = Table::fresh(n, box_number);
    let number = first_that_applies(|number| match number {
        Number::SmallBuffer => buffer.len() < model.buffer,
        Number::BadMessage => fresh.is_none(),
        _ => false,
    });
    if number == Number::Done {
        put(buffer, &fresh.map_or(Vec::new(), |table| table.image()));
    }
    number
}
