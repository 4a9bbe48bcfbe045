//! Headers for cutcard, of every kind that R38 tells apart, each with a raster.

use crate::cutcard::{damaged, pixels, MOST_HEADER, MOST_READ, SIDES};
use crate::masks::Random;
use std::ops::RangeInclusive;

pub type Bytes = Vec<u8>;

// ---- lines

/// The five fields of a picture, in the order in which Netpbm writes them.
pub fn fields(h: usize, w: usize) -> Vec<Bytes> {
    let (w, h) = (format!("WIDTH {w}"), format!("HEIGHT {h}"));
    [&w, &h, "DEPTH 4", "MAXVAL 255", "TUPLTYPE RGB_ALPHA"]
        .map(|line| line.as_bytes().to_vec())
        .to_vec()
}

/// A header with these lines between P7 and ENDHDR.
fn header_with(lines: &[Bytes]) -> Bytes {
    let mut head = b"P7\n".to_vec();
    for line in lines {
        head.extend_from_slice(line);
        head.push(b'\n');
    }
    head.extend(b"ENDHDR\n");
    head
}

/// The parts of a text that are separated by `|`.
fn listed(text: &str) -> Vec<Bytes> {
    text.split('|')
        .map(|part| part.as_bytes().to_vec())
        .collect()
}

/// Lines that are skipped: an empty one, and comments with all that may stand in them.
fn skipped() -> Vec<Bytes> {
    let mut lines = listed(
        "|#|# |##|# #|#ENDHDR|# ENDHDR|#P7|# P7|#WIDTH 9|# WIDTH 9|#HEIGHT 9|# HEIGHT 9\
         |#DEPTH 3|#MAXVAL 65535|#TUPLTYPE RGB|# 7 # 8|#\t|# \t x \t|#\r|# a\r|#\rENDHDR\r\
         |#\0|# a\0b|#\0ENDHDR|#\x0b\x0c|# made by stand software 2.4|# grün, 日本",
    );
    lines.push(b"#\x80\xff\xfe\xc3".to_vec());
    let all = (0..=255).filter(|&b| b != b'\n');
    lines.push([b'#'].into_iter().chain(all).collect());
    // As long as, and longer than, what some readers hold of a line.
    for n in [79, 80, 127, 128, 254, 255, 256, 257, 511, 512, 1000] {
        lines.push(comment(n + 1, b"x"));
    }
    lines
}

/// Lines that stand in no header of R38.
fn unknown() -> Vec<Bytes> {
    listed(
        " |\t|\r|\0|\x0b|\x0c|  | #| # x|\t#|\r#|\0#|;|//|% x|!|FOO 1|FOO|COLOUR 3|PLANES 4\
         |P7|P7 |P6|WIDTH|WIDTH |HEIGHT|DEPTH|MAXVAL|TUPLTYPE|TUPLTYPE |WIDTHS 7|WIDT 7|7|4\
         |ENDHDR | ENDHDR|\tENDHDR|ENDHDR\r|ENDHDR\0|ENDHDR 1|ENDHDR#|ENDHDR # x|endhdr|Endhdr\
         |ENDHD|ENDHDRENDHDR|END|\u{feff}|\u{feff}#",
    )
}

/// Other forms of a line: blanks, tabs, signs, other ends of line, comments behind it, lower case. In
/// the list `L` stands for the line, `W` for its word and `V` for its value.
fn other_forms_of(line: &[u8]) -> Vec<Bytes> {
    let line = std::str::from_utf8(line).expect("a field");
    let (word, value) = line.split_once(' ').unwrap_or((line, ""));
    let forms = listed(
        "W  V|W\tV|W \tV|WV|W\0V|W\rV|W=V|W: V|W V V|W 0V|W 00000V|W V0|W V00000|W +V|W -V|W V.0\
         |W Ve0|W 0xV|W \"V\"|W\nV|W #V|W V\n|W|W |L |L\t|L\r|L\0|L#|L #|L # x|L\t# x|LL|L L\
         | L|\tL|\rL|\0L|\u{feff}L",
    );
    let written = |form: &Bytes| {
        form.iter()
            .flat_map(|letter| match letter {
                b'L' => line.as_bytes(),
                b'W' => word.as_bytes(),
                b'V' => value.as_bytes(),
                _ => std::slice::from_ref(letter),
            })
            .copied()
            .collect()
    };
    let mut forms: Vec<Bytes> = forms.iter().map(written).collect();
    let capital = format!("{}{}", &line[..1], line[1..].to_lowercase());
    let (first, last) = (&line[1..], &line[..line.len() - 1]);
    forms.extend([&line.to_lowercase(), &capital, first, last].map(|form| form.into()));
    forms
}

/// Lines of the same field as the `at`-th, with its own value first and then with others.
fn same_field(at: usize, h: usize, w: usize) -> Vec<Bytes> {
    let (own, word) = match at {
        0 => (w.to_string(), "WIDTH"),
        1 => (h.to_string(), "HEIGHT"),
        2 => ("4".into(), "DEPTH"),
        3 => ("255".into(), "MAXVAL"),
        _ => ("RGB_ALPHA".into(), "TUPLTYPE"),
    };
    let others = match at {
        0 | 1 => "0|1|11|2305|99999",
        2 => "1|2|3|5|44",
        3 => "1|254|256|2555|65535",
        _ => "RGB|GRAYSCALE_ALPHA|BLACKANDWHITE|rgb_alpha|RGB_ALPHA_",
    };
    let values = [&own[..]].into_iter().chain(others.split('|'));
    values
        .map(|value| format!("{word} {value}").into_bytes())
        .collect()
}

// ---- lines put together

/// All orders of some lines.
fn orders(lines: &[Bytes]) -> Vec<Vec<Bytes>> {
    if lines.is_empty() {
        return vec![Vec::new()];
    }
    let mut all = Vec::new();
    for at in 0..lines.len() {
        let mut rest = lines.to_vec();
        let first = rest.remove(at);
        for order in orders(&rest) {
            all.push([vec![first.clone()], order].concat());
        }
    }
    all
}

pub fn shuffled(random: &mut Random, mut lines: Vec<Bytes>) -> Vec<Bytes> {
    for at in (1..lines.len()).rev() {
        lines.swap(at, random.below(at + 1));
    }
    lines
}

fn pick<T: Clone>(random: &mut Random, from: &[T]) -> T {
    from[random.below(from.len())].clone()
}

/// The lines with another put in.
fn with(lines: &[Bytes], at: usize, line: &[u8]) -> Vec<Bytes> {
    let mut lines = lines.to_vec();
    lines.insert(at, line.to_vec());
    lines
}

/// The lines with one put in the place of another.
fn replaced(lines: &[Bytes], at: usize, line: &[u8]) -> Vec<Bytes> {
    let mut lines = lines.to_vec();
    lines[at] = line.to_vec();
    lines
}

/// Puts some lines that are skipped between the others.
fn sprinkle(random: &mut Random, lines: &mut Vec<Bytes>, count: usize) {
    let skipped = skipped();
    for _ in 0..count {
        let at = random.below(lines.len() + 1);
        lines.insert(at, pick(random, &skipped));
    }
}

/// Two different sides of a small picture.
fn sides(random: &mut Random) -> (usize, usize) {
    let h = 1 + random.below(9);
    (h, 1 + (h + random.below(8)) % 9)
}

/// A picture with an alpha that reaches the threshold.
pub fn seen(random: &mut Random, h: usize, w: usize) -> Bytes {
    loop {
        let body = pixels(random, h, w);
        if body.chunks(4).any(|p| p[3] >= 128) {
            return body;
        }
    }
}

/// A file of these lines, which say other sides or none perhaps, and a picture of these sides.
fn file(random: &mut Random, lines: &[Bytes], h: usize, w: usize) -> Bytes {
    [header_with(lines), seen(random, h, w)].concat()
}

// ---- headers of each kind

/// All orders of the five fields, with whole pictures, too large ones, a byte missing and one left over.
fn in_every_order(random: &mut Random) -> Vec<Bytes> {
    let mut files = Vec::new();
    for (h, w) in [(3, 7), (7, 3), (1, 70), (48, 47), (2304, 1), (49, 48)] {
        let body = seen(random, h, w);
        for lines in orders(&fields(h, w)) {
            files.push([header_with(&lines), body.clone()].concat());
        }
    }
    for lines in orders(&fields(4, 9)) {
        let file = file(random, &lines, 4, 9);
        files.push(file[..file.len() - 1].to_vec());
        files.push([&file[..], b"\n"].concat());
    }
    files
}

/// Lines that are skipped, at each place, once and three times, and at all places at once.
fn skipped_everywhere(random: &mut Random) -> Vec<Bytes> {
    let mut files = Vec::new();
    for line in skipped() {
        let (h, w) = sides(random);
        for at in 0..=5 {
            let lines = shuffled(random, fields(h, w));
            let once = with(&lines, at, &line);
            let thrice = with(&with(&once, at, &line), at, &line);
            files.push(file(random, &once, h, w));
            files.push(file(random, &thrice, h, w));
        }
        let mut lines = vec![line.clone()];
        for own in shuffled(random, fields(h, w)) {
            lines.extend([own, line.clone()]);
        }
        files.push(file(random, &lines, h, w));
    }
    for _ in 0..1200 {
        let (h, w) = sides(random);
        let mut lines = shuffled(random, fields(h, w));
        let count = 1 + random.below(12);
        sprinkle(random, &mut lines, count);
        files.push(file(random, &lines, h, w));
    }
    files
}

/// Every byte in a comment, which is skipped, and in a line that is none.
fn every_byte(random: &mut Random) -> Vec<Bytes> {
    let mut files = Vec::new();
    for b in 0..=255 {
        for line in [&[b'#', b][..], &[b'#', b' ', b, b'x'], &[b], &[b, b'#']] {
            let (h, w) = sides(random);
            let lines = shuffled(random, fields(h, w));
            let at = random.below(6);
            files.push(file(random, &with(&lines, at, line), h, w));
        }
    }
    files
}

/// Lines before P7; other first lines; and lines after ENDHDR, where they are bytes of the raster: some
/// left over, or pixels where the rest is so much shorter.
fn before_and_after(random: &mut Random) -> Vec<Bytes> {
    let mut files = Vec::new();
    let (h, w) = (16, 17);
    let mut lines = [skipped(), unknown(), fields(h, w)].concat();
    lines.extend([b"ENDHDR".to_vec(), header_with(&fields(h, w))]);
    for mut line in lines {
        line.push(b'\n');
        let own = shuffled(random, fields(h, w));
        let (head, body) = (header_with(&own), seen(random, h, w));
        files.push([&line[..], &head, &body].concat());
        files.push([&line[..line.len() - 1], &head, &body].concat());
        files.push([&head[..], &line, &body].concat());
        files.push([&head[..], &line, &body[line.len()..]].concat());
        files.push([&head[..], &body, &line].concat());
        files.push([&head[..], &body[..body.len() - line.len()], &line].concat());
    }
    let firsts =
        "|P|P7 |P7\r|P7\t| P7|\tP7|P7 # x|P7#|p7|P6|P8|P77|P7\0|#P7|P7 WIDTH 17|P7 16 17 255";
    for first in listed(firsts) {
        let whole = file(random, &fields(h, w), h, w);
        files.push([&first, &whole[2..]].concat());
    }
    files.push(file(random, &fields(h, w), h, w)[3..].to_vec());
    files
}

/// A field that is missing, stands in a comment or after ENDHDR only, has another value, or is there twice,
/// with the same value or another; lines that are unknown, at each place and in place of each field; and,
/// which is accepted, fields that stand in a comment once more.
fn missing_doubled_and_unknown(random: &mut Random) -> Vec<Bytes> {
    let mut all = Vec::new();
    let (h, w) = (5, 8);
    for at in 0..5 {
        let lines = fields(h, w);
        let mut without = lines.clone();
        let own = without.remove(at);
        all.push(without.clone());
        all.push(replaced(&lines, at, &[b"#", &own[..]].concat()));
        all.push(replaced(&lines, at, &[b"# ", &own[..]].concat()));
        all.push([without, vec![b"ENDHDR".to_vec(), own]].concat());
        for place in 0..=5 {
            for again in same_field(at, h, w) {
                all.push(with(&shuffled(random, lines.clone()), place, &again));
                let comment = [b"#", &again[..]].concat();
                all.push(with(&shuffled(random, lines.clone()), place, &comment));
            }
        }
        for other in [&same_field(at, h, w)[1..], &unknown()[..]].concat() {
            all.push(shuffled(random, replaced(&lines, at, &other)));
        }
        all.push([lines, same_field(at, h, w)].concat());
    }
    for line in unknown() {
        for place in 0..=5 {
            all.push(with(&shuffled(random, fields(h, w)), place, &line));
        }
    }
    all.push([fields(h, w), fields(h, w)].concat());
    all.push([fields(h, w), vec![b"P7".to_vec()], fields(h, w)].concat());
    all.iter().map(|lines| file(random, lines, h, w)).collect()
}

/// Every line, P7 and ENDHDR too, in other forms than its own; all lines ended by CR LF, by CR, by a blank.
fn other_forms(random: &mut Random) -> Vec<Bytes> {
    let mut files = Vec::new();
    let (h, w) = (7, 4);
    for _ in 0..3 {
        let body = seen(random, h, w);
        let whole = |lines: &[Bytes], end: &[u8]| {
            let lines = lines.iter().map(|line| [line, end].concat());
            [lines.collect::<Vec<_>>().concat(), body.clone()].concat()
        };
        let mut lines = shuffled(random, fields(h, w));
        lines.insert(0, b"P7".to_vec());
        lines.push(b"ENDHDR".to_vec());
        for at in 0..lines.len() {
            for form in other_forms_of(&lines[at]) {
                files.push(whole(&replaced(&lines, at, &form), b"\n"));
            }
        }
        for end in ["\r\n", "\n\r", "\r", " ", " \n", "\n ", "\0\n", "\n\n"] {
            files.push(whole(&lines, end.as_bytes()));
        }
    }
    files
}

/// Sides that are none or too large, with HEIGHT before WIDTH.
fn other_sides(_: &mut Random) -> Vec<Bytes> {
    let mut files = Vec::new();
    for w in SIDES {
        for h in SIDES {
            let lines = format!("HEIGHT {h}|TUPLTYPE RGB_ALPHA|DEPTH 4|WIDTH {w}||MAXVAL 255");
            files.push([header_with(&listed(&lines)), vec![255; 100]].concat());
        }
    }
    files
}

/// A byte changed, put in or left out at every place of three headers, and files that end there.
fn damaged_bytes(random: &mut Random) -> Vec<Bytes> {
    let mut files = Vec::new();
    for lines in [
        "TUPLTYPE RGB_ALPHA|MAXVAL 255|DEPTH 4|HEIGHT 3|WIDTH 12",
        "# a b|HEIGHT 3||TUPLTYPE RGB_ALPHA|WIDTH 12|DEPTH 4|MAXVAL 255|#",
        "DEPTH 4|#ENDHDR|WIDTH 12|TUPLTYPE RGB_ALPHA|||HEIGHT 3|# a b|MAXVAL 255",
    ] {
        let lines = listed(lines);
        let (file, head) = (file(random, &lines, 3, 12), header_with(&lines).len());
        files.extend(damaged(random, &file, head));
        files.extend((0..=head).map(|end| file[..end].to_vec()));
    }
    files
}

// ---- headers of an exact length

/// How a header is filled up: with one comment, with empty lines, with the shortest comments, with
/// comments of all lengths.
#[derive(Clone, Copy, Debug)]
pub enum Filling {
    Comment(usize),
    /// A comment that says ENDHDR over and over.
    Named(usize),
    /// A comment of any bytes.
    Noise(usize),
    Empty(usize),
    Short(usize),
    Mixed,
}

/// With what, and before which of its lines.
pub const FILLINGS: [Filling; 9] = [
    Filling::Comment(0),
    Filling::Comment(LAST),
    Filling::Named(2),
    Filling::Noise(0),
    Filling::Noise(LAST),
    Filling::Empty(0),
    Filling::Empty(LAST),
    Filling::Short(3),
    Filling::Mixed,
];

/// Stands for the place before ENDHDR.
const LAST: usize = usize::MAX;

/// A comment that takes so many bytes with its newline, from these bytes over and over; an empty line
/// where that is one.
fn comment(n: usize, of: &[u8]) -> Bytes {
    let text = of.iter().cycle();
    b"#".iter().chain(text).take(n - 1).copied().collect()
}

/// A header of these lines and of exactly so many bytes, or of more where the lines take more.
pub fn filled(random: &mut Random, lines: &[Bytes], total: usize, filling: Filling) -> Bytes {
    let mut lines = lines.to_vec();
    let mut room = total.saturating_sub(header_with(&lines).len());
    if room == 0 {
        return header_with(&lines);
    }
    // Any bytes but a newline.
    let noise: Bytes = (0..300)
        .map(|_| (b'\n' + 1).wrapping_add(random.below(255) as u8))
        .collect();
    let (at, more) = match filling {
        Filling::Comment(at) => (at, vec![comment(room, b"x")]),
        Filling::Named(at) => (at, vec![comment(room, b" ENDHDR")]),
        Filling::Noise(at) => (at, vec![comment(room, &noise)]),
        Filling::Empty(at) => (at, vec![Vec::new(); room]),
        Filling::Short(at) => {
            let odd = vec![Vec::new(); room % 2];
            (at, [odd, vec![b"#".to_vec(); room / 2]].concat())
        }
        Filling::Mixed => {
            while room > 0 {
                let n = 1 + random.below(room.min(200));
                let at = random.below(lines.len() + 1);
                lines.insert(at, comment(n, &noise[random.below(100)..]));
                room -= n;
            }
            (0, Vec::new())
        }
    };
    let at = at.min(lines.len());
    lines.splice(at..at, more);
    header_with(&lines)
}

const LENGTHS: RangeInclusive<usize> = MOST_HEADER - 16..=MOST_HEADER + 16;

/// Headers of every length about 4,096, with whole pictures, too large ones, a byte missing, one left
/// over and no raster; cut off before the newline of ENDHDR, and without ENDHDR.
fn exact_lengths(random: &mut Random) -> Vec<Bytes> {
    let mut files = Vec::new();
    let (small, large, more) = (
        seen(random, 3, 7),
        seen(random, 48, 48),
        seen(random, 49, 48),
    );
    for total in LENGTHS {
        for filling in FILLINGS {
            let mut head = |h, w| {
                let lines = shuffled(random, fields(h, w));
                let head = filled(random, &lines, total, filling);
                assert_eq!(head.len(), total);
                head
            };
            files.push([&head(3, 7), &small[..]].concat());
            files.push([&head(48, 48), &large[..]].concat());
            files.push([&head(48, 48), &large[1..]].concat());
            files.push([&head(48, 48), &large[..], b"\n"].concat());
            files.push([&head(49, 48), &more[..]].concat());
            files.push(head(49, 48));
            let head = head(3, 7);
            files.push(head.clone());
            files.push(head[..total - 1].to_vec());
            files.push([&head[..total - 1], &small[..]].concat());
            files.push([&head[..total - 7], b"#", &small[..]].concat());
        }
    }
    files
}

/// Files of every length about that which the program reads at most, and longer ones; files without a
/// newline, without ENDHDR, and with ENDHDR far behind.
fn long_files(random: &mut Random) -> Vec<Bytes> {
    let mut files = Vec::new();
    let more = [70_000, 300_000];
    for length in [
        MOST_HEADER,
        MOST_HEADER - 1,
        MOST_HEADER - 3,
        MOST_HEADER + 1,
        80,
    ] {
        let lines = shuffled(random, fields(48, 48));
        let head = filled(random, &lines, length, Filling::Mixed);
        for total in (MOST_READ - 8..=MOST_READ + 8).chain(more) {
            let mut file = head.clone();
            file.resize(total, 200);
            files.push(file);
        }
    }
    let lengths = LENGTHS.chain(MOST_READ - 2..=MOST_READ + 2).chain(more);
    for n in [0, 1, 2, 3, 4, 100].into_iter().chain(lengths) {
        for start in ["", "P7", "P7\n", "P7\n#", "P7\nWIDTH 1\n#", "P7\nWIDTH "] {
            for b in [b'x', b'\n', b'#'] {
                let mut file = start.as_bytes().to_vec();
                file.resize(n.max(file.len()), b);
                file.extend(b"\nENDHDR\n");
                files.push(file.clone());
                file.truncate(file.len() - 8);
                files.push(file);
            }
        }
    }
    files
}

// ---- mixtures

/// The five fields in some order, with something wrong in about one of three.
fn mixed_lines(random: &mut Random, h: usize, w: usize) -> Vec<Bytes> {
    let mut lines = shuffled(random, fields(h, w));
    let at = random.below(5);
    match random.below(14) {
        0 => drop(lines.remove(at)),
        1 => {
            let which = random.below(5);
            let again = pick(random, &same_field(which, h, w));
            lines.insert(at, again);
        }
        2 => lines.insert(at, pick(random, &unknown())),
        3 => lines[at] = pick(random, &other_forms_of(&lines[at])),
        4 => {
            let which = random.below(5);
            lines[at] = pick(random, &same_field(which, h, w));
        }
        _ => {}
    }
    lines
}

/// Lines of all kinds in any order, headers of all lengths, a byte damaged, and all kinds of rasters.
fn mixtures(random: &mut Random) -> Vec<Bytes> {
    let mut files = Vec::new();
    for _ in 0..3000 {
        let (h, w) = match random.below(20) {
            0 => (48, 48),
            1 => pick(random, &[(48, 49), (49, 48), (2305, 1), (100, 100)]),
            _ => sides(random),
        };
        let mut lines = mixed_lines(random, h, w);
        let count = random.below(9);
        sprinkle(random, &mut lines, count);
        let mut head = header_with(&lines);
        if random.below(6) == 0 {
            let total = MOST_HEADER - 10 + random.below(16);
            let filling = pick(random, &FILLINGS);
            head = filled(random, &lines, total, filling);
        }
        if random.below(12) == 0 {
            let at = random.below(head.len());
            head[at] = pick(random, b" \t\r\n#09P\0\xff");
        }
        let mut body = pixels(random, h, w);
        match random.below(16) {
            0 => body.push(b'\n'),
            1 => body.truncate(random.below(4 * h * w)),
            2 => drop(body.splice(..4, *b"#\xff\n\xff")),
            _ => {}
        }
        files.push([head, body].concat());
    }
    files
}

/// A kind of headers: its name, its files, and how many of them at the least are accepted, and refused
/// with 8, 9 and 10. The place in the list is the seed.
pub type Kind = (&'static str, fn(&mut Random) -> Vec<Bytes>, [usize; 4]);

pub const KINDS: [Kind; 11] = [
    ("every order", in_every_order, [600, 0, 240, 120]),
    ("skipped", skipped_everywhere, [1700, 0, 0, 0]),
    ("every byte", every_byte, [515, 509, 0, 0]),
    ("before and after", before_and_after, [180, 200, 190, 0]),
    ("fields", missing_doubled_and_unknown, [180, 700, 1, 1]),
    ("other forms", other_forms, [30, 800, 6, 0]),
    ("other sides", other_sides, [1, 450, 5, 70]),
    ("damaged", damaged_bytes, [300, 3300, 40, 0]),
    ("exact lengths", exact_lengths, [306, 1700, 459, 306]),
    ("long files", long_files, [3, 1600, 70, 0]),
    ("mixtures", mixtures, [1200, 1000, 180, 80]),
];
