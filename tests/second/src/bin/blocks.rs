//! Runs, makes, judges and damages call sequences of the block kernel, for comparison with another.

use second::blocks::bytes::check;
use second::blocks::calls::{perform, Said, CALLS};
use second::blocks::cover::Cover;
use second::blocks::damage::{applied, damage};
use second::blocks::geometry::words_of_kib;
use second::blocks::make::make;
use second::blocks::runs::runs;
use second::blocks::sound::broken;
use second::random::Random;
use second::words::{hash64, of_bytes};
use std::io::{self, BufWriter, Read, Write};

const USAGE: &str = "blocks make SEED COUNT KIB | blocks run | blocks cover | blocks damage SEED COUNT | blocks judge | blocks dump | blocks facts \
    | blocks runs [cover]";

/// A number of words and the calls behind the first format, each a call number and its arguments.
struct Sequence {
    words: usize,
    calls: Vec<Vec<u32>>,
}

fn main() {
    let arguments: Vec<String> = std::env::args().skip(1).collect();
    let words: Vec<&str> = arguments.iter().map(String::as_str).collect();
    let mut out = BufWriter::new(io::stdout().lock());
    let done = match words[..] {
        ["make", seed, count, kib] => print_made(seed, count, kib, &mut out),
        ["run"] => read().and_then(|sequences| run(&sequences, &mut out)),
        ["cover"] => read().and_then(|sequences| cover(&sequences, &mut out)),
        ["damage", seed, count] => print_damaged(seed, count, &mut out),
        ["judge"] => print_broken(&mut out),
        ["dump"] => read().and_then(|sequences| dump(&sequences, &mut out)),
        ["facts"] => read().and_then(|sequences| facts(&sequences, &mut out)),
        ["runs"] => print_runs(&mut out),
        ["runs", "cover"] => print_runs_cover(&mut out),
        _ => Err(io::Error::other(USAGE)),
    };
    // 1 where something is not as it has to be, 2 where the input is bad.
    let status = match done {
        Ok(true) => 0,
        Ok(false) => 1,
        Err(ref error) => {
            eprintln!("{error}");
            2
        }
    };
    let flushed = out.flush();
    std::process::exit(if flushed.is_ok() { status } else { 2 });
}

fn number(word: &str) -> io::Result<u32> {
    word.parse().map_err(|_| io::Error::other(format!("bad number: {word}")))
}

/// Lengths that aren't permitted may be tried, within reason.
fn word_count(words: usize) -> io::Result<usize> {
    Some(words).filter(|&words| words <= 1 << 20).ok_or(io::Error::other("too many words"))
}

/// Standard input holds a sequence: its first line is the number of words, each further line a call. Several may follow one another: behind the first line, a
/// number alone that no call has begins the next.
fn read() -> io::Result<Vec<Sequence>> {
    let text = io::read_to_string(io::stdin())?;
    let mut sequences: Vec<Sequence> = Vec::new();
    for line in text.lines() {
        let numbers = line.split_whitespace().map(number).collect::<io::Result<Vec<u32>>>()?;
        let call = numbers.first().and_then(|&number| CALLS.get(number as usize));
        match (sequences.last_mut(), &numbers[..], call) {
            (None, &[words], _) | (Some(_), &[words], None) => {
                sequences.push(Sequence { words: word_count(words as usize)?, calls: Vec::new() });
            }
            (Some(sequence), [_, arguments @ ..], Some((_, count))) if arguments.len() == *count => {
                sequence.calls.push(numbers);
            }
            _ => return Err(io::Error::other(format!("bad line: {line}"))),
        }
    }
    if sequences.is_empty() {
        return Err(io::Error::other("no number of words"));
    }
    Ok(sequences)
}

/// The memory before the first format.
fn filled(words: usize) -> Vec<u32> {
    (0..words as u32).map(|i| i.wrapping_mul(2_654_435_761)).collect()
}

/// Formats a filled memory and performs the calls, showing each with its answer, its place, and the memory before and after it.
fn perform_all(
    sequence: &Sequence,
    mut show: impl FnMut(&[u32], Said, usize, &[u32], &[u32]) -> io::Result<()>,
) -> io::Result<Vec<u32>> {
    let mut mem = filled(sequence.words);
    for (place, line) in std::iter::once(&vec![0]).chain(&sequence.calls).enumerate() {
        let before = mem.clone();
        if let Some(said) = perform(&mut mem, line[0], &line[1..]) {
            show(line, said, place, &before, &mem)?;
        }
    }
    Ok(mem)
}

/// The memory at the end of the last sequence.
fn final_memory(sequences: &[Sequence]) -> io::Result<Vec<u32>> {
    sequences.last().map_or(Ok(Vec::new()), |sequence| perform_all(sequence, |_, _, _, _, _| Ok(())))
}

fn run(sequences: &[Sequence], out: &mut impl Write) -> io::Result<bool> {
    for sequence in sequences {
        perform_all(sequence, |_, Said { answer, told }, _, _, mem| {
            let answer = answer.map_or_else(|refusal| format!("no {refusal}"), |word| format!("ok {word}"));
            let told: Vec<_> = told.into_iter().flatten().map(|word| format!("{word} ")).collect();
            writeln!(out, "{answer} {}{:016x}", told.concat(), hash64(mem))
        })?;
    }
    Ok(true)
}

fn print_made(seed: &str, count: &str, kib: &str, out: &mut impl Write) -> io::Result<bool> {
    let kib = number(kib)? as usize;
    writeln!(out, "{}", word_count(words_of_kib(kib))?)?;
    for line in make(number(seed)?, number(count)? as usize, kib) {
        let numbers: Vec<String> = line.iter().map(u32::to_string).collect();
        writeln!(out, "{}", numbers.join(" "))?;
    }
    Ok(true)
}

/// A table of calls and answers, the ways that were met, and what was not. The first format is left out unless it is refused.
fn cover(sequences: &[Sequence], out: &mut impl Write) -> io::Result<bool> {
    let mut cover = Cover::default();
    for sequence in sequences {
        perform_all(sequence, |line, said, place, before, _| {
            if place > 0 || said.answer.is_err() {
                cover.count(before, line, said.answer);
            }
            Ok(())
        })?;
    }
    print_cover(&cover, out)
}

fn print_cover(cover: &Cover, out: &mut impl Write) -> io::Result<bool> {
    writeln!(out, "{cover}")?;
    let missing = cover.missing();
    missing.iter().try_for_each(|name| writeln!(out, "NOT COVERED {name}"))?;
    Ok(missing.is_empty())
}

/// What the program block_runs writes for its input on standard input (tests/runs).
fn print_runs(out: &mut impl Write) -> io::Result<bool> {
    let (lines, _) = runs(read_words()?);
    write!(out, "{lines}")?;
    Ok(true)
}

/// What its calls cover.
fn print_runs_cover(out: &mut impl Write) -> io::Result<bool> {
    let (_, cover) = runs(read_words()?);
    print_cover(&cover, out)
}

/// Damages fresh copies of the final memory.
fn print_damaged(seed: &str, count: &str, out: &mut impl Write) -> io::Result<bool> {
    let mem = final_memory(&read()?)?;
    if !broken(&mem).is_empty() {
        return Err(io::Error::other("nothing to damage"));
    }
    let mut random = Random::new(number(seed)?);
    for _ in 0..number(count)? {
        let changes = damage(&mem, &mut random);
        changes.iter().try_for_each(|(index, value)| write!(out, "{index} {value} "))?;
        match broken(&applied(&mem, &changes)) {
            sentences if sentences.is_empty() => writeln!(out, "sound")?,
            sentences => {
                write!(out, "broken")?;
                sentences.iter().try_for_each(|sentence| write!(out, " {sentence}"))?;
                writeln!(out)?;
            }
        }
    }
    Ok(true)
}

/// Standard input as little-endian words.
fn read_words() -> io::Result<Vec<u32>> {
    let mut bytes = Vec::new();
    io::stdin().lock().read_to_end(&mut bytes)?;
    Ok(of_bytes(&bytes))
}

/// The broken sentences of the memory on standard input.
fn print_broken(out: &mut impl Write) -> io::Result<bool> {
    writeln!(out, "{:?}", broken(&read_words()?))?;
    Ok(true)
}

/// The memory at the end, as little-endian words.
fn dump(sequences: &[Sequence], out: &mut impl Write) -> io::Result<bool> {
    final_memory(sequences)?.iter().try_for_each(|word| out.write_all(&word.to_le_bytes()))?;
    Ok(true)
}

/// Checks soundness and the facts after every call.
fn facts(sequences: &[Sequence], out: &mut impl Write) -> io::Result<bool> {
    let (mut calls, mut failed) = (0, None);
    for sequence in sequences {
        perform_all(sequence, |line, said, place, before, after| {
            if failed.is_none() {
                calls += 1;
                failed = check(before, line[0], said.answer, after).err().map(|fact| (place, line.to_vec(), fact));
            }
            Ok(())
        })?;
    }
    writeln!(out, "{calls} calls")?;
    if let Some((place, line, fact)) = &failed {
        writeln!(out, "call {place}, {line:?}: not so: {fact}")?;
    }
    Ok(failed.is_none())
}
