//! Row blocks.

use crate::field::{Field, Outputs, Page};
use crate::raw;
use crate::refusal::{settled, Refusal};
use crate::schema::Schema;

/// How many numbers a page has at most, in reading rows: 8 MiB.
const PAGE: usize = 1 << 20;

/// A block that a schema accepts.
///
/// Every call judges the whole block again. So many fields are read faster by [`rows`](Block::rows) or by
/// few and long pages than one by one.
///
/// ```
/// use barcovento::{Block, Field, Schema};
/// let schema = Schema::new(&[1, 3, 0])?;
/// let bytes = [0, 5, 0, 0, 0, 0, 255, 255, 255, 255, 0, 0, 0, 0, 5, 0, 0, 0, 2, 0, 0, 0];
/// let block = Block::new(&schema, &bytes)?;
/// assert_eq!(block.field(1, 0)?, Field::Whole(-1));
/// let rows: Vec<_> = block.rows().collect();
/// assert_eq!(rows, [[Field::Whole(5)], [Field::Whole(-1)]]);
/// # Ok::<(), barcovento::Refusal>(())
/// ```
#[derive(Clone, Copy, Debug)]
pub struct Block<'a> {
    schema: &'a Schema,
    bytes: &'a [u8],
    rows: u32,
}

impl<'a> Block<'a> {
    /// The block in these bytes. Refusals 21 to 24.
    pub fn new(schema: &'a Schema, bytes: &'a [u8]) -> Result<Block<'a>, Refusal> {
        let mut rows = 0;
        let layout = schema.as_bytes();
        // SAFETY: the pointers are those of two slices and of a number, good for the call.
        let status = unsafe {
            raw::bv_block_check(
                layout.as_ptr(),
                layout.len(),
                bytes.as_ptr(),
                bytes.len(),
                &mut rows,
            )
        };
        settled(status)?;
        Ok(Block { schema, bytes, rows })
    }

    /// The schema.
    pub fn schema(&self) -> &'a Schema {
        self.schema
    }

    /// The number of rows, 0 to 65,536.
    pub fn len(&self) -> u32 {
        self.rows
    }

    /// Whether there is no row.
    pub fn is_empty(&self) -> bool {
        self.rows == 0
    }

    /// One field. Refusal 25.
    pub fn field(&self, row: u32, column: u32) -> Result<Field<'a>, Refusal> {
        let layout = self.schema.as_bytes();
        let mut out = Outputs::default();
        // SAFETY: the pointers are those of two slices and of six numbers, good for the call.
        let status = unsafe {
            raw::bv_block_field(
                layout.as_ptr(),
                layout.len(),
                self.bytes.as_ptr(),
                self.bytes.len(),
                row,
                column,
                &mut out.kind,
                &mut out.whole,
                &mut out.bits,
                &mut out.nanos,
                &mut out.start,
                &mut out.length,
            )
        };
        settled(status)?;
        Ok(out.field(self.bytes))
    }

    /// The rows from this one on, up to a number of rows, as a page: fewer where the block ends.
    pub fn page(&self, first: u32, rows: u32) -> Page<'a> {
        let columns = self.schema.columns().len();
        let left = rows.min(self.rows.saturating_sub(first)) as usize;
        let mut numbers = vec![0; 3 * columns * left];
        let given = self.page_into(first, &mut numbers);
        numbers.truncate(3 * columns * given as usize);
        Page { first, columns, numbers, bytes: self.bytes }
    }

    /// The rows from this one on into the list, three numbers for each field, as many whole rows as it
    /// takes: how many.
    pub fn page_into(&self, first: u32, list: &mut [u64]) -> u32 {
        let layout = self.schema.as_bytes();
        let (mut place, mut given, mut rows) = (first, 0, 0);
        // SAFETY: the pointers are those of three slices and of three numbers, good for the call.
        let status = unsafe {
            raw::bv_block_page(
                layout.as_ptr(),
                layout.len(),
                self.bytes.as_ptr(),
                self.bytes.len(),
                &mut place,
                list.as_mut_ptr(),
                list.len(),
                &mut given,
                &mut rows,
            )
        };
        settled(status).expect("the block was accepted");
        given
    }

    /// All rows by pages of up to this many rows, at least one.
    pub fn pages(&self, rows: u32) -> BlockPages<'a> {
        BlockPages { block: *self, place: 0, rows: rows.max(1) }
    }

    /// All rows, each as its fields, read by pages.
    pub fn rows(&self) -> BlockRows<'a> {
        self.rows_from(0)
    }

    /// The rows from this one on, each as its fields, read by pages.
    pub fn rows_from(&self, first: u32) -> BlockRows<'a> {
        let rows = (PAGE / (3 * self.schema.columns().len())) as u32;
        BlockRows { pages: BlockPages { block: *self, place: first, rows }, page: None, next: 0 }
    }
}

/// The rows of a block by pages.
#[derive(Clone, Debug)]
pub struct BlockPages<'a> {
    block: Block<'a>,
    place: u32,
    rows: u32,
}

impl<'a> Iterator for BlockPages<'a> {
    type Item = Page<'a>;

    fn next(&mut self) -> Option<Page<'a>> {
        let page = self.block.page(self.place, self.rows);
        self.place += page.rows() as u32;
        Some(page).filter(|page| page.rows() > 0)
    }
}

/// The rows of a block, each as its fields.
#[derive(Clone, Debug)]
pub struct BlockRows<'a> {
    pages: BlockPages<'a>,
    page: Option<Page<'a>>,
    next: usize,
}

impl<'a> Iterator for BlockRows<'a> {
    type Item = Vec<Field<'a>>;

    fn next(&mut self) -> Option<Vec<Field<'a>>> {
        if self.page.as_ref().is_none_or(|page| page.rows() == self.next) {
            self.page = Some(self.pages.next()?);
            self.next = 0;
        }
        let page = self.page.as_ref()?;
        self.next += 1;
        Some((0..page.columns()).map(|column| page.field(self.next - 1, column)).collect())
    }
}
