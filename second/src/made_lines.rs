//! Made lines, good and damaged.

use crate::draws::Draws;

/// Lines at the limits, each of which is tried once.
pub const EDGES: [&str; 30] = [
    "1 1 10 1 2 20\n",
    "126 0 10 1 2 18\n",
    "127 0 10 1 2 1\n",
    "1 125 10 1 2 18\n",
    "1 126 10 1 2 1\n",
    "63 1 100 3 4 9\n",
    "64 1 100 3 4 9\n",
    "0 1 10 1 2 3\n",
    "1 1 0 0 0 3\n",
    "1 1 65535 1 2 4\n",
    "1 1 65536 1 2 4\n",
    "1 255 10 1 2 3\n",
    "1 256 10 1 2 3\n",
    "255 0 10 1 2 3\n",
    "256 0 10 1 2 3\n",
    "1 1 10 3 7 5\n",
    "1 1 10 3 8 5\n",
    "1 1 10 10 0 5\n",
    "1 1 10 0 10 5\n",
    "1 1 10 0 0 5\n",
    "1 1 10 2147483648 2147483648 5\n",
    "1 1 10 4294967295 11 5\n",
    "4294967295 4294967295 4294967295 4294967295 4294967295 4294967295\n",
    "1 1 10 1 2 4294967296\n",
    "2 0 1 0 1 1003\n",
    "1 0 2 1 1 63\n",
    "1 1 3 1 1 4294967295\n",
    "",
    "\n",
    "\n1 1 10 1 2 3\n",
];

/// A line drawn at random: mostly a sheet within its limits, now and then a damaged one.
pub fn line(draws: &mut Draws) -> Vec<u8> {
    let d = draws.one_of(&[1, 2, 3, 4, 7, 10, 16, 100, 1000, 65_535]);
    let a = draws.below(d + 1);
    let b = draws.below(d - a + 1);
    let (e, m) = (1 + draws.below(5), draws.below(4));
    let mut words: Vec<String> = [e, m, d, a, b, draws.below(25)].iter().map(u64::to_string).collect();
    if draws.below(4) == 0 {
        let at = draws.below(6) as usize;
        words[at] = draws
            .one_of(&["0", "255", "256", "65536", "4294967295", "4294967296", "007", "00000000000000000001", "99999999999999999999"])
            .to_string();
        if words[5].len() > 3 && words[2] == "1" {
            words[2] = "2".to_string();
        }
    }
    let gap = draws.one_of(&[" ", " ", "  ", "\t", " \t "]);
    let mut line = words.join(gap).into_bytes();
    line.extend_from_slice(draws.one_of(&["\n", "\n", "", " \n", "\r\n", "\nmore\n"]).as_bytes());
    if draws.below(5) == 0 {
        damage(draws, &mut line);
    }
    line
}

/// One byte taken away, put in or changed.
fn damage(draws: &mut Draws, line: &mut Vec<u8>) {
    let at = draws.below(line.len() as u64) as usize;
    let byte = draws.one_of(b"0x+-.,; 9\t\r\x0b\0\x80\xff");
    match draws.below(3) {
        0 => {
            line.remove(at);
        }
        1 => line.insert(at, byte),
        _ => line[at] = byte,
    }
}
