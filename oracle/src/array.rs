//! Arrays, schemas and record batches: every array is a column of cells.
use crate::datatypes::{DataType, SchemaRef};
use crate::{Result, internal_err};
use std::sync::Arc;

pub type Cell = Option<i64>;

#[derive(Debug, Clone, PartialEq)]
pub struct Cells {
    pub cells: Vec<Cell>,
    pub width: u8,
}

pub type ArrayRef = Arc<Cells>;
pub type UInt8Array = Cells;
pub type UInt16Array = Cells;
pub type UInt32Array = Cells;
pub type UInt64Array = Cells;
pub type BooleanArray = Cells;

impl Cells {
    pub fn new(cells: Vec<Cell>) -> ArrayRef {
        Arc::new(Cells { cells, width: 64 })
    }

    pub fn as_boolean(&self) -> &BooleanArray {
        self
    }
}

macro_rules! cells_from {
    ($($number:ty: $width:literal),*) => {$(
        impl From<Vec<$number>> for Cells {
            fn from(numbers: Vec<$number>) -> Self {
                Cells { cells: numbers.into_iter().map(|n| Some(n as i64)).collect(), width: $width }
            }
        }
    )*};
}

cells_from!(bool: 1, u8: 8, u16: 16, u32: 32, u64: 64);

pub fn new_null_array(_: &DataType, rows: usize) -> ArrayRef {
    Cells::new(vec![None; rows])
}

#[derive(Debug, Clone)]
pub struct RecordBatch {
    schema: SchemaRef,
    columns: Vec<ArrayRef>,
}

impl RecordBatch {
    /// Fails where there are not as many columns as fields, or where their lengths differ.
    pub fn try_new(schema: SchemaRef, columns: Vec<ArrayRef>) -> Result<Self> {
        if columns.len() != schema.fields.len() {
            return internal_err!("{} columns for {} fields", columns.len(), schema.fields.len());
        }
        if columns.iter().any(|c| c.cells.len() != columns[0].cells.len()) {
            return internal_err!("columns of different lengths");
        }
        Ok(RecordBatch { schema, columns })
    }

    pub fn num_rows(&self) -> usize {
        self.columns[0].cells.len()
    }

    pub fn columns(&self) -> &[ArrayRef] {
        &self.columns
    }

    pub fn row(&self, row: usize) -> Vec<Cell> {
        self.columns.iter().map(|c| c.cells[row]).collect()
    }

    pub fn slice(&self, offset: usize, length: usize) -> Self {
        let cut = |c: &ArrayRef| Cells::new(c.cells[offset..offset + length].to_vec());
        RecordBatch { schema: Arc::clone(&self.schema), columns: self.columns.iter().map(cut).collect() }
    }
}

pub mod record_batch {
    pub use super::RecordBatch;
}

pub mod datatypes {
    use std::sync::Arc;

    /// The number of bits.
    #[derive(Debug, Clone, PartialEq)]
    pub struct DataType(pub u8);

    #[derive(Debug)]
    pub struct Field {
        name: String,
        data_type: DataType,
    }

    pub type FieldRef = Arc<Field>;

    impl Field {
        pub fn new(name: impl Into<String>, data_type: DataType, _nullable: bool) -> Self {
            Field { name: name.into(), data_type }
        }

        pub fn with_metadata(self, _: ()) -> Self {
            self
        }

        pub fn metadata(&self) -> &() {
            &()
        }

        pub fn name(&self) -> &String {
            &self.name
        }

        pub fn data_type(&self) -> &DataType {
            &self.data_type
        }
    }

    #[derive(Debug)]
    pub struct Schema {
        pub fields: Arc<[FieldRef]>,
    }

    pub type SchemaRef = Arc<Schema>;

    impl Schema {
        pub fn new(fields: Vec<FieldRef>) -> Self {
            Schema { fields: fields.into() }
        }

        pub fn new_with_metadata(fields: Vec<FieldRef>, _: ()) -> Self {
            Schema::new(fields)
        }

        pub fn metadata(&self) -> &() {
            &()
        }

        pub fn fields(&self) -> &[FieldRef] {
            &self.fields
        }
    }
}
