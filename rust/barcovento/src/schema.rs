//! Schemas: the columns of blocks and buckets.

use crate::raw;
use crate::refusal::{settled, Refusal};
use std::fmt;

/// A column's type, by its id.
#[derive(Clone, Copy, Debug, PartialEq, Eq, Hash)]
#[repr(u8)]
#[allow(missing_docs)]
pub enum Type {
    Boolean = 0,
    TinyInt = 1,
    SmallInt = 2,
    Int = 3,
    BigInt = 4,
    Float = 5,
    Double = 6,
    Date = 7,
    Char = 8,
    Varchar = 9,
    String = 10,
    Binary = 11,
    Varbinary = 12,
    Bytes = 13,
    Decimal = 14,
    Time = 15,
    Timestamp = 16,
}

/// The types in the order of their ids, each with its name.
const TYPES: [(Type, &str); 17] = [
    (Type::Boolean, "BOOLEAN"),
    (Type::TinyInt, "TINYINT"),
    (Type::SmallInt, "SMALLINT"),
    (Type::Int, "INT"),
    (Type::BigInt, "BIGINT"),
    (Type::Float, "FLOAT"),
    (Type::Double, "DOUBLE"),
    (Type::Date, "DATE"),
    (Type::Char, "CHAR"),
    (Type::Varchar, "VARCHAR"),
    (Type::String, "STRING"),
    (Type::Binary, "BINARY"),
    (Type::Varbinary, "VARBINARY"),
    (Type::Bytes, "BYTES"),
    (Type::Decimal, "DECIMAL"),
    (Type::Time, "TIME"),
    (Type::Timestamp, "TIMESTAMP"),
];

impl Type {
    /// The type's name, as in `VARCHAR`.
    pub fn name(self) -> &'static str {
        TYPES[self as usize].1
    }

    /// Whether its fields are text.
    pub fn is_text(self) -> bool {
        matches!(self, Type::Char | Type::Varchar | Type::String)
    }
}

/// One column of a schema.
#[derive(Clone, Copy, Debug, PartialEq, Eq, Hash)]
pub struct Column {
    /// Its type.
    pub kind: Type,
    /// Whether it may be null.
    pub nullable: bool,
    /// Its length or precision; 0 where the type has none.
    pub size: u32,
    /// The scale of a DECIMAL, else 0.
    pub scale: u32,
}

impl fmt::Display for Column {
    /// As in `DECIMAL(10,2) NOT NULL`.
    fn fmt(&self, f: &mut fmt::Formatter<'_>) -> fmt::Result {
        f.write_str(self.kind.name())?;
        match self.kind {
            Type::Decimal => write!(f, "({},{})", self.size, self.scale)?,
            Type::Char
            | Type::Varchar
            | Type::Binary
            | Type::Varbinary
            | Type::Time
            | Type::Timestamp => write!(f, "({})", self.size)?,
            _ => {}
        }
        f.write_str(if self.nullable { "" } else { " NOT NULL" })
    }
}

/// The columns of a schema, and its bytes.
///
/// ```
/// use barcovento::Schema;
/// let schema = Schema::new(&[2, 3, 0, 14, 1, 10, 2])?;
/// let columns: Vec<_> = schema.columns().iter().map(|column| column.to_string()).collect();
/// assert_eq!(columns, ["INT NOT NULL", "DECIMAL(10,2)"]);
/// # Ok::<(), barcovento::Refusal>(())
/// ```
#[derive(Clone, Debug, PartialEq, Eq, Hash)]
pub struct Schema {
    bytes: Vec<u8>,
    columns: Vec<Column>,
}

impl Schema {
    /// The schema in these bytes. Refusal 20.
    pub fn new(bytes: &[u8]) -> Result<Schema, Refusal> {
        let mut count = 0;
        // SAFETY: the pointers are those of a slice and of a number, good for the call.
        settled(unsafe { raw::bv_schema_check(bytes.as_ptr(), bytes.len(), &mut count) })?;
        let columns = (0..count).map(|i| column(bytes, i)).collect::<Result<_, _>>()?;
        Ok(Schema { bytes: bytes.to_vec(), columns })
    }

    /// The columns, 1 to 64.
    pub fn columns(&self) -> &[Column] {
        &self.columns
    }

    /// The bytes that were read.
    pub fn as_bytes(&self) -> &[u8] {
        &self.bytes
    }
}

/// One column. Refusals 20, 25.
fn column(bytes: &[u8], index: u32) -> Result<Column, Refusal> {
    let (mut kind, mut nullable, mut size, mut scale) = (0, 0, 0, 0);
    // SAFETY: the pointers are those of a slice and of four numbers, good for the call.
    let status = unsafe {
        raw::bv_schema_column(
            bytes.as_ptr(),
            bytes.len(),
            index,
            &mut kind,
            &mut nullable,
            &mut size,
            &mut scale,
        )
    };
    settled(status)?;
    Ok(Column { kind: TYPES[usize::from(kind)].0, nullable: nullable == 1, size, scale })
}

#[cfg(test)]
mod tests {
    use super::*;

    #[test]
    fn types_lie_by_their_ids() {
        for (id, (kind, _)) in TYPES.iter().enumerate() {
            assert_eq!(*kind as usize, id);
        }
    }
}
