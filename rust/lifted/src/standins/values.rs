//! Stands in for a feed's CSV file as the maker of a `Record`: a record whose
//! columns are the ones named, with the values given for them.
use super::{Column, Record, Table};

pub struct Values {
    table: Table,
    data: String,
    ends: Vec<usize>,
    columns: [usize; Column::ALL.len()],
}

impl Values {
    pub fn new<'a>(table: Table, values: impl IntoIterator<Item = (Column, &'a str)>) -> Self {
        let mut made = Self {
            table,
            data: String::new(),
            ends: Vec::new(),
            columns: [usize::MAX; Column::ALL.len()],
        };
        for (column, value) in values {
            made.columns[column as usize] = made.ends.len();
            made.data.push_str(value);
            made.ends.push(made.data.len());
        }
        made
    }
    pub fn record(&self) -> Record<'_> {
        Record { table: self.table, data: &self.data, ends: &self.ends, columns: &self.columns }
    }
}
