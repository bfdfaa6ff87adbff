//! A table as plain numbers. Nothing here keeps a rule: whoever fills it in may break any of them.

pub const HEADER_LENGTH: usize = 24;
pub const ROW_LENGTH: usize = 24;
pub const ACCESS_LENGTH: usize = 9;

/// A register, and a read's version or a write's value.
#[derive(Clone, Copy, Debug)]
pub struct Access {
    pub register: u8,
    pub number: u64,
}

#[derive(Clone, Debug)]
pub struct Row {
    pub stamp: u64,
    pub retry: u64,
    pub reads: Vec<Access>,
    pub writes: Vec<Access>,
    pub prepare: u8,
    pub outcome: u8,
}

#[derive(Clone, Debug)]
pub struct Table {
    pub box_number: u8,
    pub n: u8,
    pub mode: u8,
    pub view: u32,
    pub promised: u32,
    pub start_rows: u32,
    pub rows: Vec<Row>,
}

impl Row {
    /// A transaction of which nothing is held yet.
    pub fn of(stamp: u64, reads: Vec<Access>, writes: Vec<Access>) -> Row {
        Row {
            stamp,
            retry: 0,
            reads,
            writes,
            prepare: 0,
            outcome: 0,
        }
    }

    pub fn body_length(&self) -> usize {
        ACCESS_LENGTH * (self.reads.len() + self.writes.len())
    }

    pub fn body(&self) -> Vec<u8> {
        let mut bytes = Vec::with_capacity(self.body_length());
        for access in self.reads.iter().chain(&self.writes) {
            bytes.push(access.register);
            bytes.extend(access.number.to_be_bytes());
        }
        bytes
    }

    /// "stamp 8, retry stamp 8, body offset 4, read count, write count, prepare byte, outcome byte"
    pub fn head(&self, offset: usize) -> Vec<u8> {
        let mut bytes = Vec::with_capacity(ROW_LENGTH);
        bytes.extend(self.stamp.to_be_bytes());
        bytes.extend(self.retry.to_be_bytes());
        bytes.extend((offset as u32).to_be_bytes());
        bytes.extend([self.reads.len() as u8, self.writes.len() as u8]);
        bytes.extend([self.prepare, self.outcome]);
        bytes
    }
}

impl Table {
    /// Box 0 of 3 in view 0, which all these rows were added to since it was fresh.
    pub fn in_view_0(rows: Vec<Row>) -> Table {
        Table {
            box_number: 0,
            n: 3,
            mode: 0,
            view: 0,
            promised: 0,
            start_rows: 0,
            rows,
        }
    }

    /// Where the body of a row begins, or, for the number of rows, where the image ends.
    pub fn body_place(&self, index: usize) -> usize {
        let earlier: usize = self.rows[..index].iter().map(Row::body_length).sum();
        HEADER_LENGTH + ROW_LENGTH * self.rows.len() + earlier
    }

    pub fn length(&self) -> usize {
        self.body_place(self.rows.len())
    }

    /// "format 1; box; n; mode (0 normal, 1 changing); then 4 bytes each: rows, view (last normal), promised view, rows
    /// when this view began, total length"
    fn header(&self) -> Vec<u8> {
        let mut bytes = vec![1, self.box_number, self.n, self.mode];
        let numbers = [
            self.rows.len() as u32,
            self.view,
            self.promised,
            self.start_rows,
            self.length() as u32,
        ];
        bytes.extend(numbers.iter().flat_map(|number| number.to_be_bytes()));
        bytes
    }

    /// "contents first, bodies after", in row order and without gaps.
    pub fn image(&self) -> Vec<u8> {
        let mut image = self.header();
        let mut place = self.body_place(0);
        for row in &self.rows {
            image.extend(row.head(place));
            place += row.body_length();
        }
        image.extend(self.rows.iter().flat_map(Row::body));
        image
    }
}

/// The row of "message 1 with stamp 65,537 and one write, register 5, value 7", with this prepare byte and no outcome.
pub fn row_of_the_paper(prepare: u8) -> Row {
    let write = Access {
        register: 5,
        number: 7,
    };
    Row {
        prepare,
        ..Row::of(65_537, Vec::new(), vec![write])
    }
}

#[cfg(test)]
mod tests {
    use super::{row_of_the_paper, Table};

    /// "After message 1 with stamp 65,537 and one write, register 5, value 7: rows 1, length 57; one row with offset 48,
    /// counts 0 and 1, prepare 1, outcome 0; body 05 00 00 00 00 00 00 00 07."
    #[test]
    fn the_worked_table_has_the_image_of_the_paper() {
        let table = Table::in_view_0(vec![row_of_the_paper(1)]);
        let header = [&[1, 0, 3, 0, 0, 0, 0, 1][..], &[0; 12], &[0, 0, 0, 57]];
        let row = [
            &[0, 0, 0, 0, 0, 1, 0, 1][..],
            &[0; 8],
            &[0, 0, 0, 48, 0, 1, 1, 0],
        ];
        let body = [5, 0, 0, 0, 0, 0, 0, 0, 7];
        let image = [header.concat(), row.concat(), body.to_vec()].concat();
        assert_eq!(table.image(), image);
    }
}
