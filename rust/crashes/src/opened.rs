//! A card that is opened again: what it shows, held to a table.

use crate::layer::{Fault, Lane};
use crate::tables::{Page, Pages};
use lane::BLOCK;

/// Every page and count must be the table's.
pub fn shows(lane: &mut dyn Lane, oids: &[u32], pages: &Pages) -> Result<(), String> {
    for (oid, page) in oids.iter().zip(pages) {
        let shown = shown(lane, *oid).map_err(|fault| format!("OID {oid}: {fault:?}"))?;
        if shown.count != page.count {
            let (is, right) = (shown.count, page.count);
            return Err(format!("OID {oid} has count {is}, and {right} is right"));
        }
        if shown.bytes != page.bytes {
            let differs = (0..BLOCK).find(|i| shown.bytes[*i] != page.bytes[*i]);
            let at = differs.expect("a byte that differs");
            let (is, right) = (shown.bytes[at], page.bytes[at]);
            return Err(format!(
                "OID {oid}: byte {at} is {is}, and {right} is right"
            ));
        }
    }
    Ok(())
}

fn shown(lane: &mut dyn Lane, oid: u32) -> Result<Page, Fault> {
    let count = lane.key(oid)?;
    let mut bytes = [0; BLOCK];
    lane.read(oid, count, &mut bytes)?;
    Ok(Page { count, bytes })
}
