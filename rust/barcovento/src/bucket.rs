//! Buckets.

use crate::field::{Field, Outputs, Page};
use crate::raw;
use crate::refusal::{settled, Refusal};
use crate::schema::Schema;

/// How many numbers the pages of all columns have together at most, in reading rows: 32 MiB. Every page
/// judges the bucket, so few and long ones are faster.
const PAGES: usize = 1 << 22;

/// A bucket that a schema and a number of rows accept.
///
/// Every call judges the whole bucket again. So many fields are read faster by [`rows`](Bucket::rows) or by
/// few and long pages than one by one.
///
/// ```
/// use barcovento::{Bucket, Field, Schema};
/// let schema = Schema::new(&[1, 1, 0])?;
/// let bucket = Bucket::new(&schema, 3, &[1, 0, 2, 0, 2, 1, 2, 2])?;
/// assert_eq!(bucket.field(2, 0)?, Field::Whole(1));
/// let page = bucket.page(0, 1, 2)?;
/// assert_eq!([page.field(0, 0), page.field(1, 0)], [Field::Whole(2), Field::Whole(1)]);
/// # Ok::<(), barcovento::Refusal>(())
/// ```
#[derive(Clone, Copy, Debug)]
pub struct Bucket<'a> {
    schema: &'a Schema,
    bytes: &'a [u8],
    rows: u32,
}

impl<'a> Bucket<'a> {
    /// The bucket of this many rows in these bytes. Refusals 37, then 30 to 36.
    pub fn new(schema: &'a Schema, rows: u32, bytes: &'a [u8]) -> Result<Bucket<'a>, Refusal> {
        let layout = schema.as_bytes();
        // SAFETY: the pointers are those of two slices, good for the call.
        let status = unsafe {
            raw::bv_bucket_check(layout.as_ptr(), layout.len(), rows, bytes.as_ptr(), bytes.len())
        };
        settled(status)?;
        Ok(Bucket { schema, bytes, rows })
    }

    /// The schema.
    pub fn schema(&self) -> &'a Schema {
        self.schema
    }

    /// The number of rows, 0 to 65,536.
    pub fn len(&self) -> u32 {
        self.rows
    }

    /// Whether there is no row.
    pub fn is_empty(&self) -> bool {
        self.rows == 0
    }

    /// One field. Refusal 25.
    pub fn field(&self, row: u32, column: u32) -> Result<Field<'a>, Refusal> {
        let layout = self.schema.as_bytes();
        let mut out = Outputs::default();
        // SAFETY: the pointers are those of two slices and of six numbers, good for the call.
        let status = unsafe {
            raw::bv_bucket_field(
                layout.as_ptr(),
                layout.len(),
                self.rows,
                self.bytes.as_ptr(),
                self.bytes.len(),
                row,
                column,
                &mut out.kind,
                &mut out.whole,
                &mut out.bits,
                &mut out.nanos,
                &mut out.start,
                &mut out.length,
            )
        };
        settled(status)?;
        Ok(out.field(self.bytes))
    }

    /// A column's rows from this one on, up to a number of rows, as a page: fewer where the bucket ends.
    /// Refusal 25.
    pub fn page(&self, column: u32, first: u32, rows: u32) -> Result<Page<'a>, Refusal> {
        let left = rows.min(self.rows.saturating_sub(first)) as usize;
        let mut numbers = vec![0; 3 * left];
        let given = self.page_into(column, first, &mut numbers)?;
        numbers.truncate(3 * given as usize);
        Ok(Page { first, columns: 1, numbers, bytes: self.bytes })
    }

    /// A column's rows from this one on into the list, three numbers for each, as many as it takes: how
    /// many. Refusal 25.
    pub fn page_into(&self, column: u32, first: u32, list: &mut [u64]) -> Result<u32, Refusal> {
        let layout = self.schema.as_bytes();
        let (mut place, mut given) = (first, 0);
        // SAFETY: the pointers are those of three slices and of two numbers, good for the call.
        let status = unsafe {
            raw::bv_bucket_page(
                layout.as_ptr(),
                layout.len(),
                self.rows,
                self.bytes.as_ptr(),
                self.bytes.len(),
                column,
                &mut place,
                list.as_mut_ptr(),
                list.len(),
                &mut given,
            )
        };
        settled(status)?;
        Ok(given)
    }

    /// A column's rows by pages of up to this many rows, at least one. Refusal 25.
    pub fn pages(&self, column: u32, rows: u32) -> Result<ColumnPages<'a>, Refusal> {
        self.page(column, 0, 0)?;
        Ok(ColumnPages { bucket: *self, column, place: 0, rows: rows.max(1) })
    }

    /// All rows, each as its fields, read by pages of the columns.
    pub fn rows(&self) -> BucketRows<'a> {
        self.rows_from(0)
    }

    /// The rows from this one on, each as its fields, read by pages of the columns.
    pub fn rows_from(&self, first: u32) -> BucketRows<'a> {
        BucketRows { bucket: *self, place: first, pages: Vec::new(), next: 0 }
    }
}

/// The rows of one column by pages.
#[derive(Clone, Debug)]
pub struct ColumnPages<'a> {
    bucket: Bucket<'a>,
    column: u32,
    place: u32,
    rows: u32,
}

impl<'a> Iterator for ColumnPages<'a> {
    type Item = Page<'a>;

    fn next(&mut self) -> Option<Page<'a>> {
        let page = self.bucket.page(self.column, self.place, self.rows).ok()?;
        self.place += page.rows() as u32;
        Some(page).filter(|page| page.rows() > 0)
    }
}

/// The rows of a bucket, each as its fields.
#[derive(Clone, Debug)]
pub struct BucketRows<'a> {
    bucket: Bucket<'a>,
    place: u32,
    pages: Vec<Page<'a>>,
    next: usize,
}

impl BucketRows<'_> {
    /// Reads the next rows of every column.
    fn read(&mut self) {
        let columns = self.bucket.schema.columns().len();
        let rows = (PAGES / (3 * columns)) as u32;
        let page = |column| self.bucket.page(column, self.place, rows).expect("a column that is");
        self.pages = (0..columns as u32).map(page).collect();
        self.place += self.pages[0].rows() as u32;
        self.next = 0;
    }
}

impl<'a> Iterator for BucketRows<'a> {
    type Item = Vec<Field<'a>>;

    fn next(&mut self) -> Option<Vec<Field<'a>>> {
        if self.pages.first().is_none_or(|page| page.rows() == self.next) {
            self.read();
        }
        if self.pages[0].rows() == 0 {
            return None;
        }
        self.next += 1;
        Some(self.pages.iter().map(|page| page.field(self.next - 1, 0)).collect())
    }
}
