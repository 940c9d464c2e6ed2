//! Streams whose copies are timed.

use compare::random::Random;
use compare::title::shortest;

/// A stream of elements.
pub struct Stream {
    /// The name in the table.
    pub name: &'static str,
    /// How many elements it has, or how many items.
    pub count: usize,
    /// Their bytes.
    pub bytes: Vec<u8>,
}

impl Stream {
    /// Returns a stream without elements.
    fn new(name: &'static str, size: usize) -> Stream {
        Stream {
            name,
            count: 0,
            bytes: Vec::with_capacity(size + 64),
        }
    }

    /// Adds the shortest title of a number.
    fn title(&mut self, major: u8, number: u64) {
        self.bytes.extend(shortest(major, number));
    }

    /// Adds a title that is an element of its own.
    fn title_alone(&mut self, major: u8, number: u64) {
        self.title(major, number);
        self.count += 1;
    }
}

/// A stream that has no more than one body is this many times as long as the others. It takes less time.
const BODY: usize = 8;

/// Returns all streams that are copied, each of about `size` bytes. A stream that is one body has some times as many.
pub fn all(size: usize) -> Vec<Stream> {
    vec![
        titles(size),
        mixed(size),
        pieces(size),
        byte_string(BODY * size),
        ascii_text(BODY * size),
        multibyte_text(BODY * size),
    ]
}

/// Returns numbers, tags, and titles of arrays and maps, with affixes of all widths.
pub fn titles(size: usize) -> Stream {
    titles_of("titles alone", size, |_| true)
}

/// Returns such titles without the tags that libcbor refuses: those below 24 whose meaning it did not know.
pub fn assigned_titles(size: usize) -> Stream {
    titles_of("titles that libcbor takes", size, |tag| !(6..=20).contains(&tag))
}

/// Returns such titles with the tags that are taken.
fn titles_of(name: &'static str, size: usize, is_taken: fn(u64) -> bool) -> Stream {
    let mut stream = Stream::new(name, size);
    let mut random = Random::new(1);
    while stream.bytes.len() < size {
        let major = random.pick(&[0, 0, 1, 4, 5, 6]);
        let number = random.number() >> random.pick(&[0, 32, 32, 48, 48, 56, 56, 60, 60, 60]);
        if major != 6 || is_taken(number) {
            stream.title_alone(major, number);
        }
    }
    stream
}

/// Returns one byte string.
pub fn byte_string(size: usize) -> Stream {
    one_string("one large byte string", 2, b"\x00\x7f\x80\xff", size)
}

/// The bytes that an ASCII text repeats.
const ASCII: &str = "The quick brown fox jumps over the lazy dog and runs far away.\n ";

/// The bytes that a multibyte text repeats. With the spaces after it no character lies across a multiple of 64 bytes.
/// There version 0.2.0 of the crate refuses a text.
const MULTIBYTE: &str = "Größe, été, 😀😀 und Žlutý kůň; ещё съешь же этих булок";

/// Returns one text of ASCII.
pub fn ascii_text(size: usize) -> Stream {
    one_string("one large ASCII text", 3, ASCII.as_bytes(), size)
}

/// Returns one text with characters of one, two and four bytes.
pub fn multibyte_text(size: usize) -> Stream {
    one_string("one large multibyte text", 3, MULTIBYTE.as_bytes(), size)
}

/// Returns a text with characters of one, two and four bytes, without a title.
pub fn plain_text(size: usize) -> Stream {
    Stream {
        name: "a multibyte text",
        count: 0,
        bytes: MULTIBYTE.repeat(size / MULTIBYTE.len()).into_bytes(),
    }
}

/// Returns maps as documents have them: small ones, with short texts as keys, numbers, short strings, halves and simple
/// values.
pub fn mixed(size: usize) -> Stream {
    mixed_maps(size).0
}

/// Returns the same bytes, but counts the maps.
pub fn mixed_items(size: usize) -> Stream {
    let (stream, count) = mixed_maps(size);
    Stream { count, ..stream }
}

/// Returns such maps as elements, and how many maps there are.
fn mixed_maps(size: usize) -> (Stream, usize) {
    let mut stream = Stream::new("small mixed items", size);
    let mut random = Random::new(2);
    let mut maps = 0;
    while stream.bytes.len() < size {
        stream.title_alone(5, 3);
        for _ in 0..3 {
            short_string(&mut stream, &mut random, 3, 12);
            value(&mut stream, &mut random);
        }
        maps += 1;
    }
    (stream, maps)
}

/// Returns arrays of three, each of two numbers and another such array, eight levels deep. It counts the outermost
/// ones.
pub fn nested_items(size: usize) -> Stream {
    let mut stream = Stream::new("arrays of numbers within arrays", size);
    let mut random = Random::new(5);
    while stream.bytes.len() < size {
        for _ in 0..8 {
            stream.title(4, 3);
            for _ in 0..2 {
                let number = random.number() >> random.pick(&[32, 48, 56, 60]);
                stream.title(0, number);
            }
        }
        stream.title_alone(7, 22);
    }
    stream
}

/// Returns such maps as one item, an array.
pub fn mixed_item(size: usize) -> Stream {
    let (stream, maps) = mixed_maps(size);
    array_of(stream, maps)
}

/// Returns such arrays within arrays as one item.
pub fn nested_item(size: usize) -> Stream {
    let stream = nested_items(size);
    let arrays = stream.count;
    array_of(stream, arrays)
}

/// Returns an array of numbers, whose titles have one, two or three bytes.
pub fn small_numbers(size: usize) -> Stream {
    let mut stream = Stream::new("numbers of one to three bytes", size);
    let mut random = Random::new(6);
    while stream.bytes.len() < size {
        let number = random.number() >> random.pick(&[48, 56, 60]);
        stream.title_alone(random.pick(&[0, 1]), number);
    }
    let numbers = stream.count;
    array_of(stream, numbers)
}

/// Returns an array of numbers of all widths. A third of them have a tag that libcbor takes.
pub fn tagged_numbers(size: usize) -> Stream {
    let mut stream = Stream::new("numbers of all widths, and tags", size);
    let mut random = Random::new(7);
    let mut items = 0;
    while stream.bytes.len() < size {
        if random.one_in(3) {
            stream.title_alone(6, 1000 + random.below(60000) as u64);
        }
        let number = random.number() >> random.pick(&[0, 32, 48, 56, 60]);
        stream.title_alone(random.pick(&[0, 1]), number);
        items += 1;
    }
    array_of(stream, items)
}

/// The letters of short texts. They have one byte to four bytes each.
const LETTERS: &[&str] = &["a", "e", "n", "s", " ", "é", "ß", "ж", "ё", "ő", "語", "字", "€", "😀"];

/// Returns an array of texts of 4 to 40 bytes, whose characters have one byte to four bytes.
pub fn short_texts(size: usize) -> Stream {
    let mut stream = Stream::new("short texts of many languages", size);
    let mut random = Random::new(8);
    let mut text = String::new();
    while stream.bytes.len() < size {
        let length = 4 + random.below(34);
        text.clear();
        while text.len() < length {
            text.push_str(random.pick(LETTERS));
        }
        stream.title_alone(3, text.len() as u64);
        stream.bytes.extend_from_slice(text.as_bytes());
    }
    let texts = stream.count;
    array_of(stream, texts)
}

/// Returns an array of these items. It counts as one item.
fn array_of(items: Stream, count: usize) -> Stream {
    let bytes = [shortest(4, count as u64), items.bytes].concat();
    Stream { name: items.name, count: 1, bytes }
}

/// Adds a small value.
fn value(stream: &mut Stream, random: &mut Random) {
    match random.below(6) {
        0 | 1 => {
            let number = random.number() >> random.pick(&[32, 48, 56, 60]);
            stream.title_alone(0, number);
        }
        2 => short_string(stream, random, 3, 40),
        3 => short_string(stream, random, 2, 40),
        4 => {
            stream.bytes.push(0xe0 | random.pick(&[20, 21, 22]));
            stream.count += 1;
        }
        _ => {
            // The greatest exponent is left out, so that the crate writes the half as it is.
            stream.bytes.push(0xf9);
            let half = random.number() as u16 & 0xbbff;
            stream.bytes.extend_from_slice(&half.to_be_bytes());
            stream.count += 1;
        }
    }
}

/// Adds a definite string shorter than `bound`, of letters.
fn short_string(stream: &mut Stream, random: &mut Random, major: u8, bound: usize) {
    let length = random.below(bound);
    stream.title_alone(major, length as u64);
    for _ in 0..length {
        stream.bytes.push(b'a' + random.below(26) as u8);
    }
}

/// Returns strings of indefinite length, of both kinds, in pieces of at most 15 bytes.
pub fn pieces(size: usize) -> Stream {
    let mut stream = Stream::new("indefinite strings in small pieces", size);
    let mut random = Random::new(3);
    while stream.bytes.len() < size {
        let major = random.pick(&[2, 3]);
        indefinite_string(&mut stream, &mut random, major, 100);
    }
    stream
}

/// Returns one byte string of indefinite length, in pieces of at most 15 bytes.
pub fn byte_pieces(size: usize) -> Stream {
    string_in_pieces("a byte string in small pieces", 2, size)
}

/// Returns one text of indefinite length, in pieces of at most 15 bytes.
pub fn text_pieces(size: usize) -> Stream {
    string_in_pieces("a text in small pieces", 3, size)
}

/// Returns one string of indefinite length. A piece has 7.5 bytes and its title on average.
fn string_in_pieces(name: &'static str, major: u8, size: usize) -> Stream {
    let mut stream = Stream::new(name, size);
    indefinite_string(&mut stream, &mut Random::new(4), major, size * 2 / 17);
    stream
}

/// Adds a string of indefinite length, in `pieces` pieces of at most 15 bytes.
fn indefinite_string(stream: &mut Stream, random: &mut Random, major: u8, pieces: usize) {
    stream.bytes.push(major << 5 | 31);
    let count = stream.count;
    for _ in 0..pieces {
        short_string(stream, random, major, 16);
    }
    stream.bytes.push(0xff);
    stream.count = count + 1;
}

/// Returns one string that repeats these bytes. They are padded with spaces to a multiple of 64.
fn one_string(name: &'static str, major: u8, pattern: &[u8], size: usize) -> Stream {
    let mut pattern = pattern.to_vec();
    pattern.resize((pattern.len() + 63) / 64 * 64, b' ');
    let repeated = size / pattern.len();
    let mut stream = Stream::new(name, size);
    stream.title_alone(major, (repeated * pattern.len()) as u64);
    for _ in 0..repeated {
        stream.bytes.extend_from_slice(&pattern);
    }
    stream
}
