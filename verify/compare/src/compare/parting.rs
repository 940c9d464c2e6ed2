//! The output of a run, parted into the answers to its lines.

/// The words with which lines begin that do not end the answer to `chunks`.
const INNER_WORDS: [&[u8]; 3] = [b"segment ", b"chunk ", b"stop\n"];

/// Returns the answers to these lines, in order. It is `None` if the output has not one answer to each.
pub fn part<'a>(lines: &[Vec<u8>], output: &'a [u8]) -> Option<Vec<&'a [u8]>> {
    let mut rest = output;
    let mut answers = Vec::with_capacity(lines.len());
    for line in lines {
        let length = answer_length(line, rest)?;
        let (answer, behind) = rest.split_at(length);
        answers.push(answer);
        rest = behind;
    }
    if rest.is_empty() {
        Some(answers)
    } else {
        None
    }
}

/// Returns the length of the answer to a line, with which the rest of the output begins.
fn answer_length(line: &[u8], rest: &[u8]) -> Option<usize> {
    let mut length = 0;
    loop {
        let behind = &rest[length..];
        length += behind.iter().position(|byte| *byte == b'\n')? + 1;
        if !goes_on(line, behind) {
            return Some(length);
        }
    }
}

/// Tells whether the answer to a line goes on after the first line of the output.
fn goes_on(line: &[u8], output: &[u8]) -> bool {
    if line.starts_with(b"heads ") {
        return output[0].is_ascii_digit();
    }
    line.starts_with(b"chunks ") && INNER_WORDS.iter().any(|word| output.starts_with(word))
}

#[cfg(test)]
mod tests {
    use super::part;

    #[test]
    fn answers_are_parted() {
        let lines = [b"heads 00".to_vec(), b"chunks 1 41".to_vec(), b"x".to_vec()];
        let output = b"0 positive 0\nend 1\nsegment 1\nshort 1\nerror: line\n";
        let want: [&[u8]; 3] = [
            b"0 positive 0\nend 1\n",
            b"segment 1\nshort 1\n",
            b"error: line\n",
        ];
        assert_eq!(part(&lines, output).unwrap(), want);
    }

    #[test]
    fn a_missing_or_further_answer_is_noticed() {
        let lines = [b"heads 00".to_vec()];
        assert_eq!(part(&lines, b"0 positive 0\n"), None);
        assert_eq!(part(&lines, b"end 0"), None);
        assert_eq!(part(&lines, b"end 0\nend 0\n"), None);
    }
}
