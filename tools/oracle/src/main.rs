//! The oracle: answers, line by line, what the Rust of the source answers. README.md lists the verbs.

mod fields;
mod mathematics;
mod shims;
#[allow(dead_code)] // The original has more than is asked of it here.
mod unigram;

// The original names `rustc_hash` as a crate. This crate stands in for it.
extern crate self as rustc_hash;
use shims::{corpus, error, FxHashMap, Recipe};

use std::io::{self, BufRead, Write};
use std::panic;

use fields::*;
use mathematics::Mathematics;
use unigram::probe::{self, Edge, Lattice, Lent, Piece};
use unigram::{UnigramTrainer, UnigramTrainerBuilder};

fn main() -> io::Result<()> {
    // A panic of the original is an answer. Its message is no use to the reader of answers.
    panic::set_hook(Box::new(|_| {}));
    let mut input = io::BufReader::new(io::stdin().lock());
    let mut output = io::BufWriter::new(io::stdout().lock());
    let mut line = Vec::new();
    loop {
        // Whoever asks one line at a time gets each answer before the next request.
        if input.buffer().is_empty() {
            output.flush()?;
        }
        line.clear();
        if input.read_until(b'\n', &mut line)? == 0 {
            return output.flush();
        }
        let request = String::from_utf8_lossy(line.strip_suffix(b"\n").unwrap_or(&line));
        match panic::catch_unwind(|| answer(&request)) {
            Ok(Ok(answer)) => writeln!(output, "{answer}")?,
            Ok(Err(reason)) => writeln!(output, "error: {reason}")?,
            Err(_) => writeln!(output, "panic")?,
        }
    }
}

fn answer(request: &str) -> Read<String> {
    let request: Vec<&str> = request.split(' ').collect();
    Ok(match request[..] {
        ["exp", x] => bits(float(x)?.causeylark_exp()),
        ["ln", x] => bits(float(x)?.causeylark_ln()),
        ["ln_1p", x] => bits(float(x)?.causeylark_ln_1p()),
        ["log_add", a, b] => bits(probe::log_add(float(a)?, float(b)?)),

        ["lattice", length, word, pieces] => {
            show(&probe::lattice(number::<u8>(length)?.into(), &text(word)?, &list(pieces, text)?))
        }
        ["retain", length, words, pieces, remaps] => {
            let words = list(words, |word| Ok((text(word)?, 1)))?;
            let remaps = lists(remaps, number::<u32>)?;
            let lattices = trainer_of_length(length)?.retained(&borrowed(&words), &uncounted(pieces)?, &remaps);
            lattices.iter().map(show).collect::<Vec<String>>().join(" ")
        }
        ["connected", n, edges, offsets] => lent(n, edges, offsets)?.view().is_connected().to_string(),
        ["expectations", n, edges, offsets, scores] => {
            let (z, entries) = lent(n, edges, offsets)?.expectations(&list(scores, float)?);
            format!("{} {}", bits(z), floats(&entries))
        }
        ["viterbi", n, edges, offsets, scores] => {
            let mut path = Vec::new();
            let score = Lattice::default().viterbi(lent(n, edges, offsets)?.view(), &list(scores, float)?, &mut path);
            if score == f64::NEG_INFINITY {
                return Ok("none".to_string());
            }
            format!("{} {}", bits(score), numbers(path))
        }
        ["viterbi_excluding", n, edges, offsets, scores, excluded] => {
            let (lattice, scores) = (lent(n, edges, offsets)?, list(scores, float)?);
            bits(Lattice::default().viterbi_excluding(lattice.view(), &scores, number(excluded)?))
        }

        ["seed", ref settings @ .., words] => {
            let words = counted_texts(words)?;
            let (pieces, scores, required) = trainer(settings)?.seeded(&borrowed(&words));
            let counts = numbers(pieces.iter().map(|(_, count)| count));
            format!("{required} {} {counts} {}", spelled(&pieces), floats(&scores))
        }
        ["em", length, words, pieces, scores] => {
            let words = counted_texts(words)?;
            let (pieces, mut scores) = scored(pieces, scores)?;
            trainer_of_length(length)?.pass(&borrowed(&words), &pieces, &mut scores);
            floats(&scores)
        }
        ["losses", length, words, pieces, scores] => {
            let words = counted_texts(words)?;
            let (pieces, scores) = scored(pieces, scores)?;
            floats(&trainer_of_length(length)?.lost(&borrowed(&words), &pieces, &scores))
        }
        ["prune", required, keep, pieces, scores, losses] => {
            let (mut pieces, mut scores) = scored(pieces, scores)?;
            let losses = list(losses, float)?;
            let trainer = UnigramTrainerBuilder::new().build();
            match trainer.pruned(&mut pieces, &mut scores, &losses, number(required)?, number(keep)?) {
                Some(remap) => format!("{} {} {}", numbers(remap), spelled(&pieces), floats(&scores)),
                None => "stalled".to_string(),
            }
        }
        ["train", ref settings @ .., words] => {
            let trainer = trainer(settings)?;
            let words = corpus::WordCounts(list(words, |word| counted(word, bytes))?);
            match trainer.train(&words) {
                Ok(vocabulary) => {
                    let specials = vocabulary.special_count();
                    // The seed's pieces of one character are the required ones, and none of those is pruned.
                    let single = |token: &&String| token.chars().count() == 1;
                    let required = vocabulary.tokens()[specials..].iter().filter(single).count();
                    let stop = if vocabulary.len() - specials > trainer.target() { "stalled" } else { "target" };
                    let tokens = joined(vocabulary.tokens(), |token| hexadecimal(token));
                    format!("{specials} {required} {stop} {tokens} {}", floats(vocabulary.scores()))
                }
                Err(error::TrainError::EmptyCorpus) => "EmptyCorpus".to_string(),
                Err(error::TrainError::VocabTooSmall { requested, alphabet }) => {
                    format!("VocabTooSmall {requested} {alphabet}")
                }
            }
        }
        _ => return Err(format!("no verb {} with {} fields", request[0], request.len() - 1)),
    })
}

/// The lattice that three fields lend.
fn lent(n: &str, edges: &str, offsets: &str) -> Read<Lent> {
    let edge = |field: &str| match field.split(':').map(number).collect::<Read<Vec<u32>>>()?[..] {
        [start, end, piece] => Ok(Edge { start, end, piece }),
        _ => Err(format!("not start:end:id: {field}")),
    };
    let lattice = Lent { n: number(n)?, edges: list(edges, edge)?, offsets: list(offsets, number)? };
    if well_formed(&lattice) {
        Ok(lattice)
    } else {
        Err("not a well-formed lattice".to_string())
    }
}

/// As document 01 has it. The Rust makes no other lattice, and on some others its walk back would not end.
fn well_formed(Lent { n, edges, offsets }: &Lent) -> bool {
    let ending_well = |end: usize, ending: &[Edge]| {
        ending.iter().all(|edge| edge.end as usize == end && edge.start < edge.end)
            && ending.windows(2).all(|two| two[0].start < two[1].start)
    };
    offsets.len().checked_sub(2) == Some(*n)
        && offsets[0] == 0
        && offsets[n + 1] as usize == edges.len()
        && offsets.windows(2).enumerate().all(|(end, bounds)| {
            edges.get(bounds[0] as usize..bounds[1] as usize).is_some_and(|ending| ending_well(end, ending))
        })
}

/// Writes the three fields that `lent` reads.
fn show(lattice: &Lent) -> String {
    let edges = joined(&lattice.edges, |edge| format!("{}:{}:{}", edge.start, edge.end, edge.piece));
    format!("{} {edges} {}", lattice.n, numbers(&lattice.offsets))
}

/// The seven settings, in the order and the widths of frame 01.
fn trainer(settings: &[&str]) -> Read<UnigramTrainer> {
    let [vocab, seed, length, minimum, shrink, em, specials] = settings[..] else {
        return Err(format!("{} settings, not 7", settings.len()));
    };
    let settings = UnigramTrainerBuilder::new()
        .vocab_size(number::<u32>(vocab)? as usize)
        .max_piece_chars(number::<u8>(length)?.into())
        .min_frequency(number(minimum)?)
        .shrink_factor(float(shrink)?)
        .em_iterations(number::<u16>(em)?.into())
        .special_tokens(list(specials, text)?);
    Ok(if seed == "unset" { settings } else { settings.seed_size(number::<u32>(seed)? as usize) }.build())
}

/// For the steps that read no other setting.
fn trainer_of_length(length: &str) -> Read<UnigramTrainer> {
    Ok(UnigramTrainerBuilder::new().max_piece_chars(number::<u8>(length)?.into()).build())
}

fn counted_texts(words: &str) -> Read<Vec<(String, u64)>> {
    list(words, |word| counted(word, text))
}

fn borrowed(words: &[(String, u64)]) -> Vec<(&str, u64)> {
    words.iter().map(|(word, frequency)| (word.as_str(), *frequency)).collect()
}

fn uncounted(pieces: &str) -> Read<Vec<Piece>> {
    list(pieces, |piece| Ok((text(piece)?, 0)))
}

/// Pieces and their scores, equally many.
fn scored(pieces: &str, scores: &str) -> Read<(Vec<Piece>, Vec<f64>)> {
    let (pieces, scores) = (uncounted(pieces)?, list(scores, float)?);
    if pieces.len() != scores.len() {
        return Err(format!("{} pieces with {} scores", pieces.len(), scores.len()));
    }
    Ok((pieces, scores))
}

fn spelled(pieces: &[Piece]) -> String {
    joined(pieces, |(piece, _)| hexadecimal(piece))
}
