//! Schema bytes: a count of columns, then type descriptors as in source 000. Every fault is 20.

use super::{varint, Refusal};

pub const MAX_COLUMNS: u32 = 64;

#[derive(Clone, Copy, Debug, PartialEq, Eq)]
pub enum Type {
    Boolean,
    TinyInt,
    SmallInt,
    Integer,
    BigInt,
    Float,
    Double,
    Date,
    Char { length: u32 },
    VarChar { length: u32 },
    String,
    Binary { length: u32 },
    VarBinary { length: u32 },
    Bytes,
    Decimal { precision: u32, scale: u32 },
    Time { precision: u32 },
    Timestamp { precision: u32 },
}

impl Type {
    pub fn id(self) -> u8 {
        match self {
            Type::Boolean => 0,
            Type::TinyInt => 1,
            Type::SmallInt => 2,
            Type::Integer => 3,
            Type::BigInt => 4,
            Type::Float => 5,
            Type::Double => 6,
            Type::Date => 7,
            Type::Char { .. } => 8,
            Type::VarChar { .. } => 9,
            Type::String => 10,
            Type::Binary { .. } => 11,
            Type::VarBinary { .. } => 12,
            Type::Bytes => 13,
            Type::Decimal { .. } => 14,
            Type::Time { .. } => 15,
            Type::Timestamp { .. } => 16,
        }
    }

    /// The length or precision, 0 where the type has none.
    pub fn size(self) -> u32 {
        match self {
            Type::Char { length }
            | Type::VarChar { length }
            | Type::Binary { length }
            | Type::VarBinary { length } => length,
            Type::Decimal { precision, .. }
            | Type::Time { precision }
            | Type::Timestamp { precision } => precision,
            _ => 0,
        }
    }

    pub fn scale(self) -> u32 {
        match self {
            Type::Decimal { scale, .. } => scale,
            _ => 0,
        }
    }
}

#[derive(Clone, Copy, Debug, PartialEq, Eq)]
pub struct Column {
    pub kind: Type,
    pub nullable: bool,
}

/// The columns of a schema.
pub fn read(bytes: &[u8]) -> Result<Vec<Column>, Refusal> {
    let mut reader = Reader { bytes, place: 0 };
    let count = reader.number(1, MAX_COLUMNS)?;
    let columns = (0..count).map(|_| reader.column()).collect::<Result<_, _>>()?;
    if reader.place != bytes.len() {
        return Err(20);
    }
    Ok(columns)
}

pub fn check(bytes: &[u8]) -> Result<u32, Refusal> {
    Ok(read(bytes)?.len() as u32)
}

pub fn column(bytes: &[u8], column: u32) -> Result<Column, Refusal> {
    read(bytes)?.get(column as usize).copied().ok_or(25)
}

struct Reader<'a> {
    bytes: &'a [u8],
    place: usize,
}

impl Reader<'_> {
    fn byte(&mut self) -> Result<u8, Refusal> {
        let &byte = self.bytes.get(self.place).ok_or(20u32)?;
        self.place += 1;
        Ok(byte)
    }

    fn number(&mut self, low: u32, high: u32) -> Result<u32, Refusal> {
        let (value, place) = varint::read(self.bytes, self.place).map_err(|_| 20u32)?;
        self.place = place;
        if (low..=high).contains(&value) {
            Ok(value)
        } else {
            Err(20)
        }
    }

    fn length(&mut self) -> Result<u32, Refusal> {
        self.number(0, u32::MAX)
    }

    fn column(&mut self) -> Result<Column, Refusal> {
        let id = self.byte()?;
        let nullable = match self.byte()? {
            0 => false,
            1 => true,
            _ => return Err(20),
        };
        let kind = self.kind(id)?;
        Ok(Column { kind, nullable })
    }

    fn kind(&mut self, id: u8) -> Result<Type, Refusal> {
        Ok(match id {
            0 => Type::Boolean,
            1 => Type::TinyInt,
            2 => Type::SmallInt,
            3 => Type::Integer,
            4 => Type::BigInt,
            5 => Type::Float,
            6 => Type::Double,
            7 => Type::Date,
            8 => Type::Char { length: self.length()? },
            9 => Type::VarChar { length: self.length()? },
            10 => Type::String,
            11 => Type::Binary { length: self.length()? },
            12 => Type::VarBinary { length: self.length()? },
            13 => Type::Bytes,
            14 => {
                let precision = self.number(1, 38)?;
                let scale = self.number(0, precision)?;
                Type::Decimal { precision, scale }
            }
            15 => Type::Time { precision: self.number(0, 9)? },
            16 => Type::Timestamp { precision: self.number(0, 9)? },
            _ => return Err(20),
        })
    }
}

#[cfg(test)]
mod tests {
    use super::super::varint::old;
    use super::*;

    #[test]
    fn every_type() {
        let schema = [
            17, 0, 0, 1, 1, 2, 0, 3, 1, 4, 0, 5, 1, 6, 0, 7, 1, 8, 0, 5, 9, 1, 0x80, 1, 10, 0, 11,
            1, 0, 12, 0, 0xFF, 0xFF, 0xFF, 0xFF, 0x0F, 13, 1, 14, 0, 38, 38, 15, 1, 9, 16, 0, 0,
        ];
        let columns = read(&schema).unwrap();
        assert!(columns.iter().enumerate().all(|(i, column)| usize::from(column.kind.id()) == i));
        assert!(columns.iter().enumerate().all(|(i, column)| column.nullable == (i % 2 == 1)));
        let sizes: Vec<u32> = columns[8..].iter().map(|column| column.kind.size()).collect();
        assert_eq!(sizes, [5, 128, 0, 0, u32::MAX, 0, 38, 9, 0]);
        assert_eq!(column(&schema, 14).unwrap().kind.scale(), 38);
        assert_eq!(column(&schema, 17), Err(25));
        for cut in 0..schema.len() {
            assert_eq!(check(&schema[..cut]), Err(20));
        }
    }

    #[test]
    fn bad_schemas() {
        let table: [&[u8]; 11] = [
            &[0],
            &[1, 17, 0],
            &[1, 0, 2],
            &[1, 0, 0, 0],
            &[0x81, 0x80, 0x80, 0x80, 0x10, 0, 0],
            &[1, 8, 0, 0x80, 0x80, 0x80, 0x80, 0x80, 0],
            &[1, 14, 0, 0, 0],
            &[1, 14, 0, 39, 0],
            &[1, 14, 0, 5, 6],
            &[1, 15, 0, 10],
            &[1, 16, 0, 10],
        ];
        for schema in table {
            assert_eq!(check(schema), Err(20), "{schema:?}");
        }
        let mut many = vec![65];
        many.extend([0, 0].repeat(65));
        assert_eq!(check(&many), Err(20));
        many[0] = 64;
        many.truncate(129);
        assert_eq!(check(&many), Ok(64));
    }

    #[test]
    fn padded_schemas() {
        let table: [(&[u8], &[u8]); 7] = [
            (&[1, 10, 0], &[0x81, 0, 10, 0]),
            (&[1, 8, 1, 0], &[1, 8, 1, 0x80, 0x80, 0]),
            (&[1, 9, 0, 0x80, 1], &[1, 9, 0, 0x80, 0x81, 0x80, 0]),
            (&[1, 14, 0, 19, 0], &[1, 14, 0, 0x93, 0, 0x80, 0x80, 0x80, 0x80, 0]),
            (&[1, 14, 1, 38, 38], &[0x81, 0x80, 0, 14, 1, 38, 0xA6, 0]),
            (&[1, 15, 0, 9], &[1, 15, 0, 0x89, 0x80, 0x80, 0]),
            (&[1, 16, 0, 0], &[0x81, 0x80, 0x80, 0x80, 0, 16, 0, 0x80, 0]),
        ];
        for (shortest, padded) in table {
            assert!(check(shortest).is_ok());
            assert_eq!(read(padded), read(shortest), "{padded:?}");
            assert_eq!(old::ask(|| check(padded)), Err(20), "{padded:?}");
            for cut in 0..padded.len() {
                assert_eq!(check(&padded[..cut]), Err(20), "{padded:?}");
            }
        }
    }

    #[test]
    fn padded_numbers_are_judged_by_value() {
        let mut many = vec![0xC1, 0];
        many.extend([0, 0].repeat(65));
        let table: [&[u8]; 8] = [
            &[0x80, 0],
            &many,
            &[1, 14, 0, 0x80, 0, 0],
            &[1, 14, 0, 0xA7, 0, 0],
            &[1, 14, 0, 5, 0x86, 0],
            &[1, 15, 0, 0x8A, 0x80, 0],
            &[1, 16, 0, 0x8A, 0],
            &[0x81, 0, 10, 0, 0],
        ];
        for schema in table {
            assert_eq!(check(schema), Err(20), "{schema:?}");
        }
    }
}
