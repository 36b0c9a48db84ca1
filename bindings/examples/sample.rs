//! Calls the script of E1 (LANGUAGE 8.2) from Rust, and prints the line that
//! the program prints for it (6.11).

use roomscript::{call, Called, Limits, Refusal};

const LIMITS: Limits = Limits::BASE;

const SCRIPT: [u8; 25] = [
    0x52, 0x43, 0x53, 0x00, 0x01, 0x0B, 0x04, 0x08, 0x00, 0x02, 0x00, 0x08, 0x01, 0x02, 0x01, 0x08,
    0x02, 0x05, 0x00, 0x00, 0x0A, 0x02, 0x01, 0x01, 0x00,
];

fn main() {
    let readings = [185, 200, 0, 0, 0, 0, 0, 0];
    let mut rows = [0; LIMITS.row_numbers()];
    let mut store = [0; LIMITS.store_numbers()];
    match call(LIMITS, &SCRIPT, &readings, &mut rows, &mut store) {
        Ok(Called {
            terms,
            answer,
            cells,
        }) => println!("accepted {terms} call {answer} cells {cells}"),
        Err(Refusal { number, place }) => println!("refused {number} at {place}"),
    }
}
