// SPDX-License-Identifier: Apache-2.0
//! Holds the crate to the table of rows that every binding is held to.

use ciborium_ll_proved::{
    canonical_into, deterministic, headers, recode, skip_item, strict_len, utf8, Checker, Copier,
    Copying, Decoder, Encoder, Error, Event, Float, Header, Item, Order, Parser, Progress, Span,
};

const TABLE: &str = include_str!("../../tests/rows");

fn bytes_of(hex: &str) -> Vec<u8> {
    let digits = if hex == "-" { "" } else { hex };
    (0..digits.len())
        .step_by(2)
        .map(|at| u8::from_str_radix(&digits[at..at + 2], 16).unwrap())
        .collect()
}

fn hex_of(bytes: &[u8]) -> String {
    let hex: String = bytes.iter().map(|byte| format!("{byte:02x}")).collect();
    if hex.is_empty() {
        "-".to_string()
    } else {
        hex
    }
}

/// Returns the title that `push` writes for a header, into `room` bytes.
fn title_of(header: Header, room: usize) -> Result<String, Error> {
    let mut out = vec![0; room];
    let mut encoder = Encoder::from(&mut out[..]);
    encoder.push(header)?;
    Ok(hex_of(encoder.written()))
}

/// Returns a header as the table shows it.
fn told(header: Header) -> String {
    let long = |name, length: Option<usize>| match length {
        Some(length) => format!("{name}/{length}"),
        None => format!("{name}/*"),
    };
    match header {
        Header::Positive(n) => format!("positive/{n}"),
        Header::Negative(n) => format!("negative/{n}"),
        Header::Bytes(length) => long("bytes", length),
        Header::Text(length) => long("text", length),
        Header::Array(length) => long("array", length),
        Header::Map(length) => long("map", length),
        Header::Tag(n) => format!("tag/{n}"),
        Header::Simple(n) => format!("simple/{n}"),
        Header::Float(Float::Half(bits)) => format!("half/{bits}"),
        Header::Float(Float::Single(bits)) => format!("single/{bits}"),
        Header::Float(Float::Double(bits)) => format!("double/{bits}"),
        Header::Break => "break/0".to_string(),
    }
}

/// Returns a header of the table. This crate has no type for headers that have no title.
fn header_of(text: &str) -> Option<Header> {
    let (kind, value) = text.split_once('/')?;
    let length = value.parse().ok();
    match kind {
        "positive" => Some(Header::Positive(value.parse().ok()?)),
        "text" => Some(Header::Text(length)),
        "array" => Some(Header::Array(length)),
        "map" => Some(Header::Map(length)),
        "simple" => Some(Header::Simple(value.parse().ok()?)),
        "half" => Some(Header::Float(Float::Half(value.parse().ok()?))),
        "break" if value == "0" => Some(Header::Break),
        _ => None,
    }
}

/// Returns the title with `width` bytes after its first one that `push_wide` writes for a header.
fn wide_title_of(header: Header, width: u32) -> Result<String, Error> {
    let mut out = [0; 9];
    let mut encoder = Encoder::from(&mut out[..]);
    encoder.push_wide(header, width)?;
    Ok(hex_of(encoder.written()))
}

/// Returns how many bytes a call consumes, and what it makes.
fn made(call: &str, number: u64, given: &str) -> Result<(usize, String), Error> {
    let data = if given.contains('/') {
        Vec::new()
    } else {
        bytes_of(given)
    };
    match call {
        "pull" => {
            let mut decoder = Decoder::from(&data[..]);
            let header = decoder.pull()?;
            Ok((
                decoder.offset(),
                format!("{}/{}", told(header), title_of(header, 9)?),
            ))
        }
        "push" => match header_of(given) {
            Some(header) => Ok((0, title_of(header, number as usize)?)),
            None => Err(Error::Argument),
        },
        "wide" => match header_of(given) {
            Some(header) => Ok((0, wide_title_of(header, number as u32)?)),
            None => Err(Error::Argument),
        },
        "recode" => {
            let mut out = vec![0; data.len()];
            let copied = recode(&data, number, &mut out).map_err(|stopped| stopped.error)?;
            Ok((copied.consumed, hex_of(&out[..copied.written])))
        }
        "strict" => Ok((strict_len(&data, number)?, "-".to_string())),
        "skip" => Ok((skip_item(&data, number as u32)?, "-".to_string())),
        "deterministic" => {
            let length = deterministic(&data, number as u32, Order::Bytewise)?;
            Ok((length, "-".to_string()))
        }
        "length_first" => {
            let length = deterministic(&data, number as u32, Order::LengthFirst)?;
            Ok((length, "-".to_string()))
        }
        "canonical" => rewritten(&data, number as u32, Order::Bytewise),
        "canonical_length_first" => rewritten(&data, number as u32, Order::LengthFirst),
        "utf8" => Ok((utf8(&data)?.len(), "-".to_string())),
        "item" => {
            let (item, rest) = Item::parse_prefix(&data, number as u32)?;
            assert_eq!(item.bytes(), &data[..data.len() - rest.len()]);
            Ok((item.bytes().len(), viewed(&item)))
        }
        _ => panic!("a row of no call: {call}"),
    }
}

/// Returns an item with all that it contains as the table shows it, by views of its parts.
fn viewed(item: &Item<'_>) -> String {
    let header = told(item.header());
    let body = item.byte_string().or(item.text().map(str::as_bytes));
    if let Some(body) = body {
        return format!("{header}={}", hex_of(body).trim_matches('-'));
    }
    let parts: Vec<String> = item.items().map(|part| viewed(&part)).collect();
    match item.header() {
        Header::Array(_) | Header::Map(_) | Header::Tag(_) | Header::Bytes(_) | Header::Text(_) => {
            format!("{header}[{}]", parts.join(","))
        }
        _ => {
            assert!(parts.is_empty());
            header
        }
    }
}

/// Looks a key up in an item. Returns its value as the table shows it.
fn found(call: &str, key: &str, data: &[u8]) -> String {
    let item = Item::parse(data, 16).unwrap();
    let value = match call {
        "get" => item.get(&bytes_of(key)),
        "get_text" => item.get_text(if key == "-" { "" } else { key }),
        _ => item.get_int(key.parse().unwrap()),
    };
    match value {
        Some(value) => format!("ok 0 0 {}", viewed(&value)),
        None => "absent 0 0 -".to_string(),
    }
}

/// Returns the length of an item and its deterministic encoding.
fn rewritten(data: &[u8], depth: u32, order: Order) -> Result<(usize, String), Error> {
    let mut out = vec![0; data.len() + 16];
    let mut spans = vec![Span::default(); data.len()];
    let copied = canonical_into(data, depth, order, &mut out, &mut spans)?;
    assert_eq!(
        (copied.elements, copied.whole, copied.spelled),
        (0, 0, 0),
        "a rewrite counts no elements"
    );
    Ok((copied.consumed, hex_of(&out[..copied.written])))
}

/// Goes over the titles. Returns them and the answer as the table shows them.
fn listed(data: &[u8]) -> String {
    let (mut titles, mut taken, mut answer) = (Vec::new(), 0, ("ok", 0));
    for title in headers(data) {
        match title {
            Ok(title) => {
                titles.push(format!(
                    "{}/{}/{}",
                    told(title.header),
                    title.start,
                    title.end
                ));
                taken = title.end + title.body.map_or(0, <[u8]>::len);
            }
            Err(Error::Short { .. }) => answer = ("short", taken),
            Err(error) => answer = (error.name(), error.place().unwrap()),
        }
    }
    let made = if titles.is_empty() {
        "-".to_string()
    } else {
        titles.join(",")
    };
    format!("{} {taken} {} {made}", answer.0, answer.1)
}

/// Gives a checker the bytes one by one. Returns its answer as the table shows it.
fn fed(depth: u32, data: &[u8], strict: bool) -> String {
    let made = if strict {
        Checker::strict(depth)
    } else {
        Checker::new(depth)
    };
    let mut checker = match made {
        Ok(checker) => checker,
        Err(error) => return format!("{} 0 0 -", error.name()),
    };
    let mut got = checker.feed(&[]);
    for byte in data {
        got = checker.feed(&[*byte]);
    }
    let taken = checker.taken();
    let has_ended = matches!(got, Ok(feed) if matches!(feed.progress, Progress::Ended(_)));
    assert_eq!(checker.is_ended(), has_ended);
    match got.map(|feed| feed.progress) {
        Ok(Progress::Ended(length)) => {
            assert_eq!(checker.end(), Ok(()));
            format!("ok {taken} 0 length/{length}")
        }
        Ok(Progress::More(due)) => {
            let want = if taken == 0 {
                Ok(())
            } else {
                Err(Error::Short { place: taken, due })
            };
            assert_eq!(checker.end(), want);
            format!("short {taken} {taken} due/{due}")
        }
        Err(error) => {
            assert_eq!(checker.end(), Err(error));
            format!("{} {taken} {} -", error.name(), error.place().unwrap_or(0))
        }
    }
}

/// Gives a copier the bytes one by one, with room for one each. Returns its answer as the table shows it.
fn copied(mut copier: Copier, data: &[u8]) -> String {
    let (mut out, mut made) = ([0; 1], Vec::new());
    let got = loop {
        let next = data
            .get(copier.taken()..)
            .map_or(&data[..0], |rest| &rest[..rest.len().min(1)]);
        let got = copier.feed(next, &mut out);
        if let Ok(fed) = got {
            made.extend_from_slice(&out[..fed.written]);
        }
        match got.map(|fed| fed.progress) {
            Ok(Copying::Room) => {}
            Ok(Copying::More) if copier.taken() < data.len() => {}
            got => break got,
        }
    };
    let (taken, made) = (copier.taken(), hex_of(&made));
    assert_eq!(copier.is_ended(), got == Ok(Copying::Ended));
    match got {
        Ok(Copying::Ended) => {
            assert_eq!(copier.end(), Ok(()));
            format!("ok {taken} 0 {made}")
        }
        Ok(_) => {
            let cut = Error::Short {
                place: taken,
                due: 0,
            };
            assert_eq!(copier.end(), Err(cut));
            format!("short {taken} {taken} {made}")
        }
        Err(error) => {
            assert_eq!(copier.end(), Err(error));
            format!(
                "{} {taken} {} {made}",
                error.name(),
                error.place().unwrap_or(0)
            )
        }
    }
}

/// Shows a title, or a part of a body, which follows what is there.
fn add_event(made: &mut String, event: Event<'_>) {
    let between = if made.is_empty() { "" } else { "," };
    match event {
        Event::Header { header, place } => *made += &format!("{between}{}/{place}", told(header)),
        Event::Close { place } => *made += &format!("{between}close/{place}"),
        Event::Bytes { part, .. } => add_part(made, part),
        Event::Text { first, rest, .. } => {
            let part: String = first.into_iter().chain(rest.chars()).collect();
            add_part(made, part.as_bytes());
        }
    }
}

/// Shows a part of a body. It is the first one if the last title has none.
fn add_part(made: &mut String, part: &[u8]) {
    let is_first = made
        .rsplit(',')
        .next()
        .map_or(false, |last| !last.contains('='));
    *made += if is_first { "=" } else { "" };
    *made += &hex_of(part);
}

/// Pushes the bytes to a parser in pieces of some size. Returns its answer as the table shows it.
fn parsed(size: usize, data: &[u8], strict: bool) -> String {
    let mut parser = if strict {
        Parser::strict()
    } else {
        Parser::new()
    };
    let mut made = String::new();
    let mut fault = None;
    for piece in data.chunks(size) {
        for event in parser.push(piece) {
            match event {
                Ok(event) => add_event(&mut made, event),
                Err(error) => fault = Some(error),
            }
        }
    }
    let (end, taken) = (parser.end(), parser.taken());
    assert_eq!(parser.is_between(), end.is_ok());
    if let Some(error) = fault {
        assert_eq!(end, Err(error));
    }
    let (name, place) = match end {
        Ok(()) => ("ok", 0),
        Err(error) => (error.name(), error.place().unwrap_or(0)),
    };
    if let Err(Error::Short { due, .. }) = end {
        let between = if made.is_empty() { "" } else { "," };
        made += &format!("{between}due/{due}");
    }
    let made = if made.is_empty() { "-" } else { &made };
    format!("{name} {taken} {place} {made}")
}

#[test]
fn rows_hold() {
    let rows = TABLE
        .lines()
        .filter(|line| !line.is_empty() && !line.starts_with('#'));
    let mut count = 0;
    for row in rows {
        let words: Vec<&str> = row.split(' ').collect();
        let (call, number, given, name, place) = (
            words[0],
            words[1].parse().unwrap_or(0),
            words[2],
            words[3],
            words[5],
        );
        if call == "feed" || call == "feed_strict" {
            let got = fed(number as u32, &bytes_of(given), call == "feed_strict");
            assert_eq!(got, words[3..].join(" "), "{row}");
            count += 1;
            continue;
        }
        if call.starts_with("get") {
            let got = found(call, words[1], &bytes_of(given));
            assert_eq!(got, words[3..].join(" "), "{row}");
            count += 1;
            continue;
        }
        if call == "headers" {
            assert_eq!(listed(&bytes_of(given)), words[3..].join(" "), "{row}");
            count += 1;
            continue;
        }
        if call == "events" || call == "events_strict" {
            let got = parsed(number as usize, &bytes_of(given), call == "events_strict");
            assert_eq!(got, words[3..].join(" "), "{row}");
            count += 1;
            continue;
        }
        if call == "copy" || call == "copy_strict" {
            let copier = if call == "copy" {
                Copier::new(number)
            } else {
                Copier::strict(number)
            };
            let got = copied(copier, &bytes_of(given));
            assert_eq!(got, words[3..].join(" "), "{row}");
            count += 1;
            continue;
        }
        let got = match made(call, number, given) {
            Ok((consumed, made)) => format!("ok {consumed} 0 {made}"),
            Err(error) => format!(
                "{} {} due/{}",
                error.name(),
                error.place().unwrap_or(0),
                error.due()
            ),
        };
        let want = if name == "ok" {
            words[3..].join(" ")
        } else {
            let due = words[6].rsplit("due/").next().unwrap();
            let due = due.parse().unwrap_or(0);
            format!("{name} {place} due/{due}")
        };
        assert_eq!(got, want, "{row}");
        count += 1;
    }
    assert!(count > 50);
}

#[test]
fn a_copy_that_stops_says_how_far_it_came() {
    let mut out = [0; 8];
    let stopped = recode(b"\x7f\x61a\x5f\xff", 1, &mut out).unwrap_err();
    assert_eq!(
        (
            stopped.error,
            stopped.copied.consumed,
            stopped.copied.written
        ),
        (Error::Syntax(3), 4, 3)
    );
    assert_eq!(&out[..4], b"\x7f\x61a\0");
    assert_eq!(
        recode(b"\x01\x02", 2, &mut out[..1]).unwrap_err().error,
        Error::Room
    );
}

#[test]
fn a_copy_without_room_goes_on_after_its_whole_elements() {
    let (data, mut out) = (b"\x18\x05\x58\x01a", [0; 4]);
    let stopped = recode(data, 2, &mut out[..2]).unwrap_err();
    let copied = stopped.copied;
    assert_eq!(
        (stopped.error, copied.elements, copied.whole, copied.spelled),
        (Error::Room, 1, 2, 1)
    );
    assert_eq!(copied.written, 2);
    let rest = recode(&data[copied.whole..], 1, &mut out[copied.spelled..]).unwrap();
    assert_eq!((rest.elements, rest.whole, rest.spelled), (1, 3, 2));
    assert_eq!(&out, b"\x05\x41a\0");
}
