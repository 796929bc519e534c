//! Lines as bytes: in plain writing, or with blanks, comments and leading zeros wherever they may stand.

use super::random::Random;

/// Lists of lines as one list. The lines of each stay in their order.
pub fn interleaved(random: &mut Random, mut lists: Vec<Vec<String>>) -> Vec<String> {
    if random.one_in(2) {
        return lists.concat();
    }
    for list in &mut lists {
        list.reverse();
    }
    let mut lines = Vec::new();
    while !lists.is_empty() {
        let place = random.below(lists.len());
        match lists[place].pop() {
            Some(line) => lines.push(line),
            None => drop(lists.swap_remove(place)),
        }
    }
    lines
}

pub fn written(random: &mut Random, lines: &[String]) -> Vec<u8> {
    let plainly = !random.one_in(4);
    let mut script = Vec::new();
    for line in lines {
        if plainly {
            script.extend_from_slice(line.as_bytes());
        } else {
            write_freely(random, line, &mut script);
        }
        script.push(b'\n');
    }
    if random.one_in(10) {
        script.pop();
    }
    script
}

/// Writes the words of a line with other blanks between them, leading zeros and comments.
fn write_freely(random: &mut Random, line: &str, script: &mut Vec<u8>) {
    const BLANKS: [&[u8]; 5] = [b" ", b"\t", b"  ", b" \t", b"\r "];
    const ENDS: [&[u8]; 6] = [b"", b"", b" ", b"\r", b"# 7 back", b" #\xff\x00#\t"];
    if random.one_in(10) {
        script.extend_from_slice(b" \t# a line with no word\n\n");
    }
    if random.one_in(4) {
        script.extend_from_slice(random.pick(&BLANKS));
    }
    for (place, word) in line.split(' ').enumerate() {
        if place > 0 {
            script.extend_from_slice(random.pick(&BLANKS));
        }
        if word.bytes().all(|byte| byte.is_ascii_digit()) && random.one_in(5) {
            script.extend_from_slice(random.pick(&[&b"0"[..], b"00", b"000000000000000000000"]));
        }
        script.extend_from_slice(word.as_bytes());
    }
    script.extend_from_slice(random.pick(&ENDS));
}
