//! A mask written, asked and combined, and a refusal.
use barcovento::{Bitmap, Refusal};

fn main() -> Result<(), Refusal> {
    let zone = Bitmap::from_positions(&[0, 34, 255])?;
    println!("{} members, {} bytes", zone.len(), zone.as_bytes().len());
    println!("34 is a member: {}, rank {}", zone.contains(34), zone.rank(34));
    let more = &zone | &Bitmap::from_positions(&[256])?;
    println!("{:?}", more.iter().collect::<Vec<_>>());

    let mut damaged = zone.into_bytes();
    damaged[10] = 0;
    println!("{}", Bitmap::from_bytes(&damaged).unwrap_err());
    Ok(())
}
