// SPDX-License-Identifier: Apache-2.0
//! Prints the titles of an item, and the offset of one that is not in its shortest spelling.
use ciborium_ll_proved::{strict_len, Decoder, Error};

fn main() -> Result<(), Error> {
    let data = b"\x82\x01\x19\x00\x02";
    let mut decoder = Decoder::from(&data[..]);
    while !decoder.rest().is_empty() {
        println!("{}: {:?}", decoder.offset(), decoder.pull()?);
    }
    if let Err(error) = strict_len(data, 3) {
        println!("{error}");
    }
    Ok(())
}
