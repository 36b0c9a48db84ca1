//! Terms as bytes without any judgement, so that scripts beyond the limits
//! can be made too.

use crate::form::*;

pub(super) fn write_unjudged(version: u32, terms: &[Row], out: &mut Vec<u8>) {
    out.clear();
    out.extend(header(version));
    for row in terms {
        let [kind, a, b, c, d] = row.map(|field| field as u8);
        match row[0] {
            NUMBER => {
                out.push(kind);
                out.extend(row[1].to_be_bytes());
            }
            BOX => out.push(kind),
            READING | LET | BLOCK => out.extend([kind, a]),
            BELOW | SUM => out.extend([kind, a, b, c, d]),
            _ => out.extend([kind, a, b]),
        }
    }
}
