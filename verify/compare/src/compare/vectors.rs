//! Inputs of a table, each cut at every place.

use crate::batch::Comparison;
use compare::word::{bytes_of, word_of};
use std::io;

/// The examples of RFC 7049, Appendix A.
const EXAMPLES: [&str; 82] = [
    "00",
    "01",
    "0a",
    "17",
    "1818",
    "1819",
    "1864",
    "1903e8",
    "1a000f4240",
    "1b000000e8d4a51000",
    "1bffffffffffffffff",
    "c249010000000000000000",
    "3bffffffffffffffff",
    "c349010000000000000000",
    "20",
    "29",
    "3863",
    "3903e7",
    "f90000",
    "f98000",
    "f93c00",
    "fb3ff199999999999a",
    "f93e00",
    "f97bff",
    "fa47c35000",
    "fa7f7fffff",
    "fb7e37e43c8800759c",
    "f90001",
    "f90400",
    "f9c400",
    "fbc010666666666666",
    "f97c00",
    "f97e00",
    "f9fc00",
    "fa7f800000",
    "fa7fc00000",
    "faff800000",
    "fb7ff0000000000000",
    "fb7ff8000000000000",
    "fbfff0000000000000",
    "f4",
    "f5",
    "f6",
    "f7",
    "f0",
    "f818",
    "f8ff",
    "c074323031332d30332d32315432303a30343a30305a",
    "c11a514b67b0",
    "c1fb41d452d9ec200000",
    "d74401020304",
    "d818456449455446",
    "d82076687474703a2f2f7777772e6578616d706c652e636f6d",
    "40",
    "4401020304",
    "60",
    "6161",
    "6449455446",
    "62225c",
    "62c3bc",
    "63e6b0b4",
    "64f0908591",
    "80",
    "83010203",
    "8301820203820405",
    "98190102030405060708090a0b0c0d0e0f101112131415161718181819",
    "a0",
    "a201020304",
    "a26161016162820203",
    "826161a161626163",
    "a56161614161626142616361436164614461656145",
    "5f42010243030405ff",
    "7f657374726561646d696e67ff",
    "9fff",
    "9f018202039f0405ffff",
    "9f01820203820405ff",
    "83018202039f0405ff",
    "83019f0203ff820405",
    "9f0102030405060708090a0b0c0d0e0f101112131415161718181819ff",
    "bf61610161629f0203ffff",
    "826161bf61626163ff",
    "bf6346756ef563416d7421ff",
];

/// Titles that are longer than needed, floats that fit into less, and strings of every odd form.
const OWN: [&str; 60] = [
    // Titles that are longer than needed, with and without a body after them.
    "1805",
    "190005",
    "1a00000005",
    "1b0000000000000005",
    "38ff",
    "3900ff",
    "580161",
    "59000161",
    "5a0000000161",
    "5b000000000000000161",
    "780161",
    "79000161",
    "7a0000000161",
    "7b000000000000000161",
    "7802c3a9",
    "7900026161ff",
    "9801f6",
    "b8010102",
    "d90001f6",
    "f800",
    "f817",
    "f810f818f81f",
    // The greatest lengths.
    "5bffffffffffffffff0102",
    "7bffffffffffffffff61c3",
    "9bffffffffffffffff",
    "bbffffffffffffffff",
    "7affffffff616263",
    // Floats that fit into less, and those that are no numbers.
    "fa3f800000",
    "fb3ff0000000000000",
    "fb40effc0000000000",
    "fb3e70000000000000",
    "fb36a0000000000000",
    "f97c01",
    "f9fdff",
    "fa7f800001",
    "fb7ff0000000000001",
    "fb7ff4000000000000",
    "fb8000000000000000",
    "fa00000001",
    "82fa3f80000082fb3ff8000000000000f97c01",
    // Strings in strings, of either kind.
    "5f5f4101ff4102ff00",
    "5f5fff5f5f4103ffff42ffffff",
    "5f01",
    "5f6161ff",
    "7f4161ff",
    "7f7f6161ff60ff",
    "7f7f7fffffff",
    "7fff",
    "5fff",
    "5f580201025900030405063bffff",
    // Characters of all lengths, cut between chunks and between pieces.
    "6d48656c6c6f2c20576f726c6421",
    "6c61c3a9e282acf09f988062c3a9",
    "7f64c3a9c3a963e282acff",
    "7f62c3a961c3ff",
    "7f62e28261acff",
    "7819c3a9e282acf09f9880c3a9e282acf09f9880c3a9e282acf09f",
    "64f09f9880",
    "78216161616161c3a9",
    "7f6161615fff",
    "82fb3ff00000000000006461c3a961",
];

/// Texts that are damaged, as bodies.
const DAMAGED: [&str; 22] = [
    "ff",
    "80",
    "c0af",
    "c1bf",
    "c3",
    "c328",
    "e0",
    "e080af",
    "e09fbf",
    "e2",
    "e282",
    "e28261",
    "eda080",
    "edbfbf",
    "f0",
    "f09f",
    "f09f98",
    "f0808080",
    "f08fbfbf",
    "f4908080",
    "f5808080",
    "61c3a9ff62",
];

/// The beginnings of the lines that each cut input is asked with.
const BEGINNINGS: [(&str, &[&str]); 5] = [
    ("cut vectors, heads", &["heads"]),
    (
        "cut vectors, chunks",
        &[
            "chunks 0",
            "chunks 1",
            "chunks 2",
            "chunks 3",
            "chunks 4",
            "chunks 5",
            "chunks 6",
            "chunks 7",
            "chunks 64",
            "chunks 65536",
        ],
    ),
    (
        "cut vectors, bytes",
        &[
            "bytes *",
            "bytes 0",
            "bytes 1",
            "bytes 3",
            "bytes 7",
            "bytes 4294967295",
        ],
    ),
    (
        "cut vectors, text",
        &[
            "text *",
            "text 0",
            "text 3",
            "text 4",
            "text 5",
            "text 7",
            "text 4294967295",
        ],
    ),
    (
        "cut vectors, recode",
        &[
            "recode 0",
            "recode 1",
            "recode 2",
            "recode 3",
            "recode 4294967295",
        ],
    ),
];

/// Returns all inputs of the table, whole.
fn inputs() -> Vec<Vec<u8>> {
    let mut inputs: Vec<Vec<u8>> = EXAMPLES
        .iter()
        .chain(&OWN)
        .filter_map(|word| bytes_of(word))
        .collect();
    for word in DAMAGED {
        let body = bytes_of(word).unwrap_or_default();
        let title = 0x60 | body.len() as u8;
        inputs.push(body.clone());
        inputs.push([&[title], &body[..]].concat());
        inputs.push([&[0x7f, 0x61, 0x61, title], &body[..], &[0xff]].concat());
        inputs.push([&[0x7f, 0x7f, 0x78, title & 0x1f], &body[..], &[0xff, 0xff]].concat());
    }
    inputs.extend(around_the_buffer());
    inputs
}

/// Returns texts whose characters are cut at the end of a copy's buffer of 64 bytes, or right before and after it.
fn around_the_buffer() -> Vec<Vec<u8>> {
    let mut inputs = Vec::new();
    for character in ["é", "€", "😀"] {
        for lead in 60..=66 {
            let body = "a".repeat(lead) + &character.repeat(3);
            inputs.push([&[0x78, body.len() as u8], body.as_bytes()].concat());
        }
        let body = character.repeat(70);
        let length = (body.len() as u16).to_be_bytes();
        inputs.push([&[0x79], &length[..], body.as_bytes()].concat());
    }
    inputs
}

/// Returns the lines of each kind: each input, cut at every place.
pub fn lines() -> Vec<(&'static str, Vec<Vec<u8>>)> {
    let words: Vec<String> = inputs()
        .iter()
        .flat_map(|input| (0..=input.len()).map(move |end| word_of(&input[..end])))
        .collect();
    BEGINNINGS
        .iter()
        .map(|(kind, beginnings)| {
            let lines = beginnings.iter().flat_map(|beginning| {
                words
                    .iter()
                    .map(move |word| format!("{beginning} {word}").into_bytes())
            });
            (*kind, lines.collect())
        })
        .collect()
}

/// Compares the answers to each input of the table, cut at every place, in lines of each kind.
pub fn compare(comparison: &mut Comparison<'_>) -> io::Result<()> {
    for (kind, lines) in lines() {
        comparison.begin(kind)?;
        for line in lines {
            comparison.add(line)?;
        }
    }
    comparison.finish()
}

#[cfg(test)]
mod tests {
    use super::{bytes_of, DAMAGED, EXAMPLES, OWN};

    #[test]
    fn each_row_is_a_word() {
        for word in EXAMPLES.iter().chain(&OWN).chain(&DAMAGED) {
            assert!(bytes_of(word).is_some(), "{word}");
        }
    }
}
