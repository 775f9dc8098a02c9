//! Runs, makes and damages call sequences, for comparison with another kernel.

use second::calls::{call, perform, Answer, Said, ARGUMENTS};
use second::contexts::CONTEXT_WORDS;
use second::cover::Cover;
use second::damage::{damage, wide_damage};
use second::geometry::{Edition, Sizes, EDITIONS};
use second::make::make;
use second::random::Random;
use second::record;
use second::refusal::DAMAGED;
use second::replay::replay;
use second::sound::{broken, sound};
use second::words::{hash32, hash64, of_bytes};
use std::io::{self, BufWriter, Read, Write};

const USAGE: &str =
    "trace run | trace make SEED COUNT N [EDITION] | trace cover | trace damage SEED COUNT [wide] | trace replay | trace dump \
    | trace judge | trace sizes EDITION | trace runs [cover]";

struct File {
    pages: usize,
    edition: Edition,
    calls: Vec<Vec<u32>>,
}

fn main() {
    let arguments: Vec<String> = std::env::args().skip(1).collect();
    let words: Vec<&str> = arguments.iter().map(String::as_str).collect();
    let mut out = BufWriter::new(io::stdout().lock());
    let done = match words[..] {
        ["run"] => read().and_then(|file| run(&file, &mut out)),
        ["cover"] => read().and_then(|file| cover(&file, &mut out)),
        ["make", seed, count, pages] => print_made(seed, count, pages, "0", &mut out),
        ["make", seed, count, pages, edition] => print_made(seed, count, pages, edition, &mut out),
        ["damage", seed, count] => print_damaged(seed, count, false, &mut out),
        ["damage", seed, count, "wide"] => print_damaged(seed, count, true, &mut out),
        ["replay"] => print_replayed(&mut out),
        ["dump"] => read().and_then(|file| dump(&file, &mut out)),
        ["judge"] => print_broken(&mut out),
        ["sizes", chosen] => print_sizes(chosen, &mut out),
        ["runs"] => print_runs(false, &mut out),
        ["runs", "cover"] => print_runs(true, &mut out),
        _ => Err(io::Error::other(USAGE)),
    };
    if let Err(error) = done.and_then(|()| out.flush()) {
        eprintln!("{error}");
        std::process::exit(2);
    }
}

/// The transcript of the script on standard input.
fn print_replayed(out: &mut impl Write) -> io::Result<()> {
    let mut script = Vec::new();
    io::stdin().lock().read_to_end(&mut script)?;
    out.write_all(&replay(&script))
}

/// The broken sentences of the memory on standard input, little-endian words.
fn print_broken(out: &mut impl Write) -> io::Result<()> {
    writeln!(out, "{:?}", broken(&read_words()?))
}

/// N, T and F for every N that the edition has.
fn print_sizes(chosen: &str, out: &mut impl Write) -> io::Result<()> {
    let edition = edition(chosen)?;
    let sizes = (0..2 * edition.most_pages()).filter_map(|pages| Sizes::of_pages(edition, pages));
    sizes.into_iter().try_for_each(|sizes| writeln!(out, "{} {} {}", sizes.pages, sizes.threes, sizes.free))
}

/// Standard input as little-endian words.
fn read_words() -> io::Result<Vec<u32>> {
    let mut bytes = Vec::new();
    io::stdin().lock().read_to_end(&mut bytes)?;
    Ok(of_bytes(&bytes))
}

/// How many numbers of answers the program `runs` lends to the run of a part.
const ROOM: usize = 64;

/// What the program `runs` writes for its input on standard input (tests/runs), or how often each call gave each answer there. Each number that the run of a
/// part fills in has a line: a resume's answer, then its eleven words. The run stops before a call whose answer has no room.
fn print_runs(only_cover: bool, out: &mut impl Write) -> io::Result<()> {
    let (mut cover, mut lines) = (Cover::default(), String::new());
    let mut words = read_words()?.into_iter();
    while let Some(length @ 1..) = words.next() {
        let mut mem = vec![7; length as usize];
        while let Some(count @ 1..) = words.next() {
            let part: Vec<u32> = words.by_ref().take(count as usize).collect();
            let (mut rest, mut room) = (&part[..], ROOM);
            while let Some((line, after)) = split_call(rest) {
                let Some(left) = room.checked_sub(numbers_of(line[0])) else { break };
                let Some(Said { answer, context }) = perform(&mut mem, line[0], &line[1..]) else { break };
                cover.count(line[0] as usize, answer);
                let numbers = std::iter::once(answer).chain(context.into_iter().flatten().map(Ok));
                lines.extend(numbers.map(|number| format!("{}\n", shown(number))));
                (rest, room) = (after, left);
            }
            lines += &format!("{}\n", hash32(mem.iter().copied()));
        }
        lines += &format!("verdict {}\n", sound(&mem).map_or(DAMAGED, |()| 0));
        lines += &record_lines(&mem);
    }
    if !only_cover {
        return write!(out, "{lines}");
    }
    writeln!(out, "{cover}")?;
    let missing: Vec<_> = cover.missing(&EDITIONS).into_iter().filter(|pair| !pair.starts_with("record")).collect();
    missing.is_empty().then_some(()).ok_or(io::Error::other(format!("not covered: {missing:?}")))
}

/// What the record's writer refuses, what the reader then refuses, begin, end, and the revision's length and hash: with 76
/// bytes, and with a byte too few. No two bytes of the revision are equal.
fn record_lines(mem: &[u32]) -> String {
    let revision = b"ABCDEFGHIJKLMNOPQRSTUVWXYZabcdefghijklmnopqrstuvwxyz0123456789+/";
    let line = |length: usize| {
        let mut bytes = vec![0; length];
        let written = record::write(mem, revision, &mut bytes).err().unwrap_or(0);
        let record::Extent { answer, begin, end } = record::read(&bytes);
        let part = record::revision(&bytes);
        let hash = hash32(part.iter().map(|&byte| u32::from(byte)));
        format!("record {written} {} {begin} {end} {} {hash}\n", answer.err().unwrap_or(0), part.len())
    };
    line(record::LENGTH) + &line(record::LENGTH - 1)
}

/// The first call of a sequence of words and the words behind it; none where its number is unknown or it is cut.
fn split_call(words: &[u32]) -> Option<(&[u32], &[u32])> {
    let arguments = match *words.first()? as usize {
        0 => 1,
        number => *ARGUMENTS.get(number - 1)?,
    };
    words.split_at_checked(1 + arguments)
}

/// How many numbers a call's answer takes.
fn numbers_of(number: u32) -> usize {
    match number {
        15 => 1 + CONTEXT_WORDS,
        _ => 1,
    }
}

fn number(word: &str) -> io::Result<u32> {
    word.parse().map_err(|_| io::Error::other(format!("bad number: {word}")))
}

/// Bad page counts may be tried, within reason.
fn page_count(word: &str) -> io::Result<usize> {
    Some(number(word)? as usize).filter(|&pages| pages <= 5000).ok_or(io::Error::other("too many pages"))
}

fn edition(word: &str) -> io::Result<Edition> {
    Edition::numbered(number(word)?).ok_or(io::Error::other(format!("no edition: {word}")))
}

/// The first line is the page count and the edition, 0 where it is left out; each further line is a call.
fn read() -> io::Result<File> {
    let text = io::read_to_string(io::stdin())?;
    let mut lines = text.lines();
    let mut first = lines.next().unwrap_or("").split_whitespace();
    let (pages, edition) = (page_count(first.next().unwrap_or(""))?, edition(first.next().unwrap_or("0"))?);
    let mut calls = Vec::new();
    for line in lines {
        let numbers = line.split_whitespace().map(number).collect::<io::Result<Vec<u32>>>()?;
        // The argument count is asked of an empty memory, which every call refuses.
        if numbers.is_empty() || call(&mut [], numbers[0], &numbers[1..]).is_none() {
            return Err(io::Error::other(format!("bad line: {line}")));
        }
        calls.push(numbers);
    }
    Ok(File { pages, edition, calls })
}

/// Formats a filled memory and performs the calls, showing each answer with the memory after it.
fn perform_all(file: &File, mut show: impl FnMut(u32, Said, &[u32]) -> io::Result<()>) -> io::Result<Vec<u32>> {
    let words = (file.pages * file.edition.page_words()) as u32;
    let mut mem: Vec<u32> = (0..words).map(|i| i.wrapping_mul(2_654_435_761)).collect();
    for line in std::iter::once(&vec![0, file.edition.number]).chain(&file.calls) {
        if let Some(said) = perform(&mut mem, line[0], &line[1..]) {
            show(line[0], said, &mem)?;
        }
    }
    Ok(mem)
}

fn run(file: &File, out: &mut impl Write) -> io::Result<()> {
    perform_all(file, |_, Said { answer, context }, mem| {
        let words: Vec<_> = context.into_iter().flatten().map(|word| format!("{word} ")).collect();
        writeln!(out, "{} {}{:016x}", shown(answer), words.concat(), hash64(mem))
    })?;
    Ok(())
}

fn shown(answer: Answer) -> String {
    answer.map_or_else(|refusal| format!("no {refusal}"), |word| format!("ok {word}"))
}

/// The memory at the end, as little-endian words.
fn dump(file: &File, out: &mut impl Write) -> io::Result<()> {
    let mem = perform_all(file, |_, _, _| Ok(()))?;
    mem.iter().try_for_each(|word| out.write_all(&word.to_le_bytes()))
}

fn print_made(seed: &str, count: &str, pages: &str, chosen: &str, out: &mut impl Write) -> io::Result<()> {
    let (pages, edition) = (page_count(pages)?, edition(chosen)?);
    writeln!(out, "{pages} {}", edition.number)?;
    for line in make(edition, number(seed)?, number(count)? as usize, pages) {
        let numbers: Vec<String> = line.iter().map(u32::to_string).collect();
        writeln!(out, "{}", numbers.join(" "))?;
    }
    Ok(())
}

/// A table of calls and answers.
fn cover(file: &File, out: &mut impl Write) -> io::Result<()> {
    let mut cover = Cover::default();
    perform_all(file, |number, said, _| {
        cover.count(number as usize, said.answer);
        Ok(())
    })?;
    writeln!(out, "{cover}")
}

/// Damages fresh copies of the final memory; with `wide`, some of them by more words than two.
fn print_damaged(seed: &str, count: &str, wide: bool, out: &mut impl Write) -> io::Result<()> {
    let mem = perform_all(&read()?, |_, _, _| Ok(()))?;
    sound(&mem).map_err(|_| io::Error::other("nothing to damage"))?;
    let mut random = Random::new(number(seed)?);
    for _ in 0..number(count)? {
        let changes = if wide { wide_damage(&mem, &mut random) } else { damage(&mem, &mut random) };
        let mut copy = mem.clone();
        for (index, value) in changes {
            copy[index] = value;
            write!(out, "{index} {value} ")?;
        }
        match sound(&copy) {
            Ok(()) => writeln!(out, "sound")?,
            Err(sentence) => writeln!(out, "broken {sentence}")?,
        }
    }
    Ok(())
}
