//! The rate of the library's check word, beside two words in Rust over the same bytes: a plain one that goes bit by bit, and one that takes eight
//! bytes at a time by tables. The words are of eight implicit bytes and then a telegram, at both levels and in one run. Prints the rates at three
//! lengths, and draws how they grow with the length, as an SVG picture in the file that is named. Tests nothing but that the three words are the same.

use std::fmt::Write;
use std::process::ExitCode;
use std::time::Instant;

/// The generators of section 10, their highest term included.
const GENERATOR_48: u64 = 0x1_D28D_B3FA_4AAD;
const GENERATOR_32: u64 = 0x1_4A50_3DF1;

const IMPLICIT: usize = 8;

/// The lengths that are drawn, and those of them that are printed. No telegram of the bus has more than 244 bytes, but the word takes any length.
const LENGTHS: [usize; 10] = [8, 16, 32, 64, 128, 244, 512, 1024, 2048, 4096];
const PRINTED: [usize; 3] = [8, 64, 244];
const LONGEST: usize = LENGTHS[LENGTHS.len() - 1];

/// The best of so many rounds counts: whatever else the machine does makes a round longer, never shorter. The telegrams of a round have so many bytes
/// together.
const ROUNDS: usize = 15;
const BYTES: usize = 480_000;

/// The bytes of which each telegram is a part, and in how many places of them it can begin.
const POOL: usize = 1 << 16;
const STARTS: usize = POOL - LONGEST;

/// A check word over two runs, as if they stood one after the other.
type Word = fn(&[u8], &[u8]) -> u64;

const NAMES: [&str; 3] = ["ours", "bit by bit", "slicing by 8"];

struct Level {
    name: &'static str,
    function: &'static str,
    /// In the order of the names.
    words: [Word; 3],
}

const LEVELS: [Level; 2] = [
    Level {
        name: "level 4",
        function: "uj_word48",
        words: [ours_48, bit_by_bit::<48, GENERATOR_48>, slicing_48],
    },
    Level {
        name: "level 2",
        function: "uj_word32",
        words: [ours_32, bit_by_bit::<32, GENERATOR_32>, slicing_32],
    },
];

/// Megabytes in a second, of each word, at each length.
type Rates = [[f64; 3]; LENGTHS.len()];

extern "C" {
    fn uj_word48(first: *const u8, first_length: usize, second: *const u8, second_length: usize) -> u64;
    fn uj_word32(first: *const u8, first_length: usize, second: *const u8, second_length: usize) -> u32;
}

fn ours_48(first: &[u8], second: &[u8]) -> u64 {
    // SAFETY: both runs are readable for their lengths, and the function only reads them.
    unsafe { uj_word48(first.as_ptr(), first.len(), second.as_ptr(), second.len()) }
}

fn ours_32(first: &[u8], second: &[u8]) -> u64 {
    // SAFETY: as above.
    u64::from(unsafe { uj_word32(first.as_ptr(), first.len(), second.as_ptr(), second.len()) })
}

/// Each byte comes into the top of the register, and goes through it bit by bit: where a one falls out, the generator is taken away.
#[inline(never)]
fn bit_by_bit<const WIDTH: u32, const GENERATOR: u64>(first: &[u8], second: &[u8]) -> u64 {
    let mut register = 0;
    for run in [first, second] {
        for &byte in run {
            register ^= u64::from(byte) << (WIDTH - 8);
            for _ in 0..8 {
                register <<= 1;
                if register >> WIDTH != 0 {
                    register ^= GENERATOR;
                }
            }
        }
    }
    register
}

/// The register when so many bits have come, all of them 0.
const fn behind_zeros(register: u64, bits: u32, width: u32, generator: u64) -> u64 {
    let mut register = register;
    let mut bit = 0;
    while bit < bits {
        register <<= 1;
        if register >> width != 0 {
            register ^= generator;
        }
        bit += 1;
    }
    register
}

/// Table 0 has what each byte leaves in the register; each further table has it with a byte more behind it.
const fn tables(width: u32, generator: u64) -> [[u64; 256]; 8] {
    let mut tables = [[0; 256]; 8];
    let mut byte = 0;
    while byte < 256 {
        let mut left = behind_zeros(byte as u64, width, width, generator);
        let mut table = 0;
        while table < 8 {
            tables[table][byte] = left;
            left = behind_zeros(left, 8, width, generator);
            table += 1;
        }
        byte += 1;
    }
    tables
}

static TABLES_48: [[u64; 256]; 8] = tables(48, GENERATOR_48);

/// In half the room.
static TABLES_32: [[u32; 256]; 8] = {
    let wide = tables(32, GENERATOR_32);
    let mut narrow = [[0; 256]; 8];
    let mut entry = 0;
    while entry < 8 * 256 {
        narrow[entry / 256][entry % 256] = wide[entry / 256][entry % 256] as u32;
        entry += 1;
    }
    narrow
};

/// Eight bytes at a time, each by the table of its place, and the bytes behind the last eight one by one.
#[inline(never)]
fn slicing_48(first: &[u8], second: &[u8]) -> u64 {
    let tables = &TABLES_48;
    let mut register = 0;
    for run in [first, second] {
        let mut eights = run.chunks_exact(8);
        for eight in &mut eights {
            let top = u64::from_be_bytes(eight.try_into().expect("eight bytes")) ^ register << 16;
            register = tables[7][(top >> 56) as usize]
                ^ tables[6][(top >> 48) as usize & 0xFF]
                ^ tables[5][(top >> 40) as usize & 0xFF]
                ^ tables[4][(top >> 32) as usize & 0xFF]
                ^ tables[3][(top >> 24) as usize & 0xFF]
                ^ tables[2][(top >> 16) as usize & 0xFF]
                ^ tables[1][(top >> 8) as usize & 0xFF]
                ^ tables[0][top as usize & 0xFF];
        }
        for &byte in eights.remainder() {
            register = (register << 8) & 0xFFFF_FFFF_FFFF ^ tables[0][usize::from((register >> 40) as u8 ^ byte)];
        }
    }
    register
}

/// The same of 32 bits.
#[inline(never)]
fn slicing_32(first: &[u8], second: &[u8]) -> u64 {
    let tables = &TABLES_32;
    let mut register: u32 = 0;
    for run in [first, second] {
        let mut eights = run.chunks_exact(8);
        for eight in &mut eights {
            let top = u64::from_be_bytes(eight.try_into().expect("eight bytes")) ^ u64::from(register) << 32;
            register = tables[7][(top >> 56) as usize]
                ^ tables[6][(top >> 48) as usize & 0xFF]
                ^ tables[5][(top >> 40) as usize & 0xFF]
                ^ tables[4][(top >> 32) as usize & 0xFF]
                ^ tables[3][(top >> 24) as usize & 0xFF]
                ^ tables[2][(top >> 16) as usize & 0xFF]
                ^ tables[1][(top >> 8) as usize & 0xFF]
                ^ tables[0][top as usize & 0xFF];
        }
        for &byte in eights.remainder() {
            register = register << 8 ^ tables[0][usize::from((register >> 24) as u8 ^ byte)];
        }
    }
    u64::from(register)
}

fn pool() -> Vec<u8> {
    let mut state: u32 = 1;
    let mut next = || {
        state = state.wrapping_mul(1_103_515_245).wrapping_add(12_345);
        (state >> 16) as u8
    };
    (0..POOL).map(|_| next()).collect()
}

/// The telegrams of a round, each of other bytes: a processor learns to foresee a telegram that comes again and again.
fn telegrams(pool: &[u8], length: usize) -> impl Iterator<Item = &[u8]> {
    (0..BYTES / length).map(move |i| &pool[i * 8191 % STARTS..][..length])
}

/// The words of a round. What they come to together is used, so that none is left out.
fn round(word: Word, implicit: &[u8], pool: &[u8], length: usize) -> u64 {
    telegrams(pool, length).fold(0, |together, telegram| together ^ word(implicit, telegram))
}

/// The rates of the three words, which take turns, round by round. Before, and in each round, they must be the same.
fn rates(words: &[Word; 3], implicit: &[u8], pool: &[u8], length: usize) -> Result<[f64; 3], String> {
    for telegram in telegrams(pool, length) {
        let of_each = words.map(|word| word(implicit, telegram));
        if of_each != [of_each[0]; 3] {
            return Err(format!("the words differ, {NAMES:?}: {of_each:X?}"));
        }
    }
    let together = round(words[0], implicit, pool, length);
    let mut least = [f64::INFINITY; 3];
    for _ in 0..ROUNDS {
        for (word, least) in words.iter().zip(&mut least) {
            let from = Instant::now();
            let came_to = round(*word, implicit, pool, length);
            *least = from.elapsed().as_secs_f64().min(*least);
            if came_to != together {
                return Err("the words differ from round to round".to_string());
            }
        }
    }
    let bytes = telegrams(pool, length).count() * (implicit.len() + length);
    Ok(least.map(|seconds| bytes as f64 / seconds / 1e6))
}

/// Measures a level at each length, and prints what is to be printed.
fn measure(level: &Level, implicit: &[u8], pool: &[u8]) -> Result<Rates, String> {
    let mut measured = [[0.0; 3]; LENGTHS.len()];
    for (length, measured) in LENGTHS.into_iter().zip(&mut measured) {
        let rates = rates(&level.words, implicit, pool, length);
        *measured = rates.map_err(|what| format!("{}, {length} bytes: {what}", level.name))?;
        if PRINTED.contains(&length) {
            let [ours, plain, slicing] = *measured;
            let (to_plain, to_slicing) = (ours / plain, ours / slicing);
            println!(
                "{:<8} {length:>6} {ours:>11.1} {plain:>17.1} {slicing:>19.1} {to_plain:>18.2} {to_slicing:>20.2}",
                level.name
            );
        }
    }
    Ok(measured)
}

/// Where the parts of the picture lie. Both panels have the same scales.
const WIDTH: f64 = 900.0;
const HEIGHT: f64 = 440.0;
const LEFT: [f64; 2] = [62.0, 502.0];
const ACROSS: f64 = 376.0;
const TOP: f64 = 112.0;
const BOTTOM: f64 = 372.0;
const MARGIN: f64 = 14.0;

/// How a word's line is drawn: colour, dashes, width. In grey, too, the lines differ by their dashes and marks.
const LINES: [(&str, &str, f64); 3] = [("#0b3c8c", "none", 2.5), ("#6b6b6b", "2 4", 2.0), ("#d9730d", "8 4", 2.0)];

/// The mark of a word at a point: a disc, a triangle, a square.
fn mark(word: usize, x: f64, y: f64) -> String {
    let colour = LINES[word].0;
    match word {
        0 => format!("<circle cx=\"{x:.1}\" cy=\"{y:.1}\" r=\"4\" fill=\"{colour}\"/>"),
        1 => format!("<path d=\"M{x:.1} {:.1}l4.8 8.4h-9.6z\" fill=\"{colour}\"/>", y - 5.4),
        _ => {
            let (left, top) = (x - 3.8, y - 3.8);
            format!("<rect x=\"{left:.1}\" y=\"{top:.1}\" width=\"7.6\" height=\"7.6\" fill=\"white\" stroke=\"{colour}\" stroke-width=\"2\"/>")
        }
    }
}

/// A line of a word through these points.
fn line(word: usize, points: &[(f64, f64)]) -> String {
    let (colour, dashes, width) = LINES[word];
    let points: Vec<String> = points.iter().map(|(x, y)| format!("{x:.1},{y:.1}")).collect();
    let points = points.join(" ");
    format!("<polyline points=\"{points}\" fill=\"none\" stroke=\"{colour}\" stroke-width=\"{width}\" stroke-dasharray=\"{dashes}\"/>")
}

fn text(x: f64, y: f64, anchor: &str, size: u32, words: &str) -> String {
    format!("<text x=\"{x:.1}\" y=\"{y:.1}\" text-anchor=\"{anchor}\" font-size=\"{size}\">{words}</text>")
}

/// Of the numbers 1, 2, 5, 10, 20, 50 and so on: from the last that is not above any rate to the first that is not below any.
fn grid(measured: &[Rates]) -> Vec<f64> {
    let all = || measured.iter().flatten().flatten().copied();
    let (lowest, highest) = (all().fold(f64::INFINITY, f64::min), all().fold(0.0, f64::max));
    let steps: Vec<f64> = (-1..7).flat_map(|power| [1.0, 2.0, 5.0].map(|digit| digit * 10f64.powi(power))).collect();
    let from = steps.iter().rposition(|&step| step <= lowest).unwrap_or(0);
    let to = steps.iter().position(|&step| step >= highest).unwrap_or(steps.len() - 1);
    steps[from..=to.max(from + 1)].to_vec()
}

/// How far a number lies between two others on a scale of logarithms.
fn share(number: f64, from: f64, to: f64) -> f64 {
    (number / from).ln() / (to / from).ln()
}

/// The panel of a level: its grid, and a line for each word, with the rate behind each mark.
fn panel(level: &Level, measured: &Rates, left: f64, grid: &[f64]) -> Vec<String> {
    let x = |length: usize| left + MARGIN + share(length as f64, LENGTHS[0] as f64, LONGEST as f64) * (ACROSS - 2.0 * MARGIN);
    let y = |rate: f64| BOTTOM - share(rate, grid[0], grid[grid.len() - 1]) * (BOTTOM - TOP);
    let mut parts = vec![
        text(
            left + ACROSS / 2.0,
            TOP - 14.0,
            "middle",
            14,
            &format!("{}, {}", level.name, level.function),
        ),
        text(left - 8.0, TOP - 14.0, "end", 12, "MB/s"),
        text(left + ACROSS / 2.0, BOTTOM + 38.0, "middle", 12, "bytes of the telegram"),
    ];
    for &rate in grid {
        let at = y(rate);
        parts.push(format!("<path d=\"M{left:.1} {at:.1}h{ACROSS}\" stroke=\"#dddddd\"/>"));
        parts.push(text(left - 8.0, at + 4.0, "end", 12, &rate.to_string()));
    }
    for length in LENGTHS {
        parts.push(format!("<path d=\"M{:.1} {BOTTOM}v5\" stroke=\"#444444\"/>", x(length)));
        parts.push(text(x(length), BOTTOM + 19.0, "middle", 12, &length.to_string()));
    }
    parts.push(format!("<path d=\"M{left} {TOP}V{BOTTOM}h{ACROSS}\" fill=\"none\" stroke=\"#444444\"/>"));
    // Ours is drawn last, over the others.
    for word in [1, 2, 0] {
        let points: Vec<(f64, f64)> = LENGTHS
            .into_iter()
            .zip(measured)
            .map(|(length, rates)| (x(length), y(rates[word])))
            .collect();
        parts.push(line(word, &points));
        for ((at_x, at_y), (length, rates)) in points.into_iter().zip(LENGTHS.into_iter().zip(measured)) {
            let (name, rate) = (NAMES[word], rates[word]);
            parts.push(format!(
                "<g><title>{name}, {length} bytes: {rate:.1} MB/s</title>{}</g>",
                mark(word, at_x, at_y)
            ));
        }
    }
    parts
}

fn picture(measured: &[Rates; 2]) -> String {
    let title = "The rate of the check word by the length of the telegram";
    let below = format!("The eight implicit bytes count with the telegram's. The best of {ROUNDS} rounds, in one run. Both scales are logarithmic.");
    let mut parts = vec![
        format!("<title>{title}</title>"),
        format!("<rect width=\"{WIDTH}\" height=\"{HEIGHT}\" fill=\"white\"/>"),
        text(WIDTH / 2.0, 28.0, "middle", 17, title),
        text(WIDTH / 2.0, HEIGHT - 10.0, "middle", 12, &below),
    ];
    for (word, name) in NAMES.into_iter().enumerate() {
        let (from, y) = (215.0 + 170.0 * word as f64, 58.0);
        parts.push(line(word, &[(from, y), (from + 44.0, y)]));
        parts.push(mark(word, from + 22.0, y));
        parts.push(text(from + 52.0, y + 4.5, "start", 14, name));
    }
    let grid = grid(measured);
    for ((level, measured), left) in LEVELS.iter().zip(measured).zip(LEFT) {
        parts.extend(panel(level, measured, left, &grid));
    }
    let mut svg = format!("<svg xmlns=\"http://www.w3.org/2000/svg\" viewBox=\"0 0 {WIDTH} {HEIGHT}\" width=\"{WIDTH}\" height=\"{HEIGHT}\" ");
    svg += "role=\"img\" font-family=\"Helvetica, Arial, 'DejaVu Sans', sans-serif\" fill=\"#222222\">\n";
    for part in parts {
        writeln!(svg, "{part}").expect("room in memory");
    }
    svg + "</svg>\n"
}

/// Measures both levels, and writes the picture.
fn run() -> Result<(), String> {
    let file = std::env::args().nth(1).ok_or("the file of the picture is not named")?;
    let pool = pool();
    let implicit: Vec<u8> = (0..IMPLICIT as u8).map(|i| i * 29 + 3).collect();
    println!(
        "{:<8} {:>6} {:>11} {:>17} {:>19} {:>18} {:>20}",
        "word", "bytes", "ours, MB/s", "bit by bit, MB/s", "slicing by 8, MB/s", "ours / bit by bit", "ours / slicing by 8"
    );
    let [level_4, level_2] = &LEVELS;
    let measured = [measure(level_4, &implicit, &pool)?, measure(level_2, &implicit, &pool)?];
    std::fs::write(&file, picture(&measured)).map_err(|error| format!("the picture {file} cannot be written: {error}"))?;
    println!("The picture of the rates at {} lengths is written: {file}", LENGTHS.len());
    Ok(())
}

fn main() -> ExitCode {
    match run() {
        Ok(()) => ExitCode::SUCCESS,
        Err(what) => {
            eprintln!("bench: {what}");
            ExitCode::FAILURE
        }
    }
}
