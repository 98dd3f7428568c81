//! Cases and answers as text.
use crate::answer::Answer;
use crate::case::*;
use crate::read::{Reader, records};

/// An f64 that reads back to the same bits; a NaN by its bits.
fn float(x: f64) -> String {
    if x.is_nan() {
        format!("nan:{:016x}", x.to_bits())
    } else {
        format!("{x:?}")
    }
}

fn floats(list: &[f64]) -> String {
    let list: Vec<String> = list.iter().map(|x| float(*x)).collect();
    format!("[{}]", list.join(", "))
}

fn edges(edges: &Edges) -> String {
    match edges {
        Edges::Regular { min, max, n } => format!("{}..{} n {n}", float(*min), float(*max)),
        Edges::Irregular(list) => floats(list),
    }
}

fn form(form: Form) -> &'static str {
    match form {
        Form::Comp0Mean => "TakeComp0 mean",
        Form::SumMean => "ComponentSum mean",
        Form::Histogram => "histogram",
    }
}

fn kind(kind: &Kind) -> String {
    match kind.form {
        Form::Histogram => format!("histogram of {}", kind.value_bins),
        other => form(other).to_string(),
    }
}

fn pack(pack: &Pack) -> String {
    format!("{}x{} {}", pack.states, pack.size, floats(&pack.slice))
}

fn points(p: &Points) -> String {
    let stride = p.stride.map_or("left out".to_string(), |s| s.to_string());
    let (z, v) = (floats(&p.positions), floats(&p.values));
    let w = floats(&p.weights);
    format!(
        "{} points stride {stride} at {z} values {v} weights {w}",
        p.count
    )
}

fn block(b: &Block) -> String {
    let [z, y, x] = [0, 1, 2].map(|k| floats(&b.components[k]));
    let w = floats(&b.weights);
    let (shape, strides, offsets) = (b.shape, b.strides, b.offsets);
    format!("block {shape:?} strides {strides:?} at {offsets:?} {z} {y} {x} weights {w}")
}

fn rest(r: &Rest) -> String {
    let op = if r.subtract { "subtract" } else { "multiply" };
    let value = match r.form {
        Form::Histogram => format!(" value {}", edges(&r.value)),
        _ => String::new(),
    };
    let team = format!("members {} teams {}", r.members, r.teams);
    let (of, distance) = (form(r.form), edges(&r.distance));
    format!(
        "{op} {of} distance {distance}{value} {team} into {}",
        pack(&r.pack)
    )
}

/// A pack operation's arguments.
fn pack_case(case: &Case) -> String {
    let shown = |of: &Kind, first: &Pack| format!("{} {}", kind(of), pack(first));
    match case {
        Case::Reset(x) => shown(&x.kind, &x.pack),
        Case::Merge(x) => {
            let other = pack(&x.other);
            format!("{} with {other}", shown(&x.kind, &x.pack))
        }
        Case::Consolidation(x) => format!("{} packs, {}", x.packs, shown(&x.kind, &x.pack)),
        Case::Result(x) => {
            let (index, value) = (x.index, floats(&x.value));
            format!("{} state {index} to {value}", shown(&x.kind, &x.pack))
        }
        _ => unreachable!("no pack operation"),
    }
}

/// The case in one line.
pub fn case(case: &Case) -> String {
    let blocks = |a: &Block, b: &Option<Block>, widths: &[f64; 3]| {
        let other = b.iter().map(|b| format!("; {}", block(b)));
        let widths = floats(widths);
        format!("{}{}; widths {widths}", block(a), other.collect::<String>())
    };
    let what = match case {
        Case::Lookup(x) => format!("{} value {}", edges(&x.edges), float(x.value)),
        Case::Segments(x) => format!("{} in {}, number {}", x.indices, x.segments, x.index),
        Case::Points(x) => {
            let other = x.b.iter().map(|b| format!("; {}", points(b)));
            let sets = points(&x.a) + &other.collect::<String>();
            format!("{sets}; {}", rest(&x.rest))
        }
        Case::Blocks(x) => {
            let rest = rest(&x.rest);
            format!("{} {rest}", blocks(&x.a, &x.b, &x.widths))
        }
        Case::Offsets(x) => blocks(&x.a, &x.b, &x.widths),
        _ => pack_case(case),
    };
    format!("{}: {what}", NAMES[case.operation()])
}

/// An answer in one line.
pub fn answer(answer: &Answer) -> String {
    match answer {
        Answer::Found(None) => "no bin".to_string(),
        Answer::Found(Some(i)) => format!("index {i}"),
        Answer::Bounds(start, stop) => format!("{start}-{stop}"),
        Answer::Slice(slice) => floats(slice),
        Answer::Listing(entries) => {
            let one = |e: &crate::answer::Entry| {
                format!("{:?} {} pairs at {}", e.offset, e.pairs, float(e.distance))
            };
            entries.iter().map(one).collect::<Vec<_>>().join("; ")
        }
        Answer::Refused(number) => format!("refused {number}"),
        Answer::Panic => "panic".to_string(),
        Answer::NotAsked(reason) => format!("not asked: {reason}"),
    }
}

/// What a record expects: the number, then its words as the operation has them.
fn expectation(case: &Case, words: &[u64]) -> String {
    let (number, values) = (words[0], &words[1..]);
    let refused = match number {
        0 => String::new(),
        _ => format!("refused {number} "),
    };
    match case {
        Case::Lookup(_) | Case::Segments(_) if number != 0 => refused,
        Case::Lookup(_) if values[0] == 0 => "no bin".to_string(),
        Case::Lookup(_) => format!("index {}", values[1]),
        Case::Segments(_) => format!("{}-{}", values[0], values[1]),
        _ => {
            let after: Vec<f64> = values.iter().map(|w| f64::from_bits(*w)).collect();
            format!("{refused}{}", floats(&after))
        }
    }
}

/// Prints a fixed list, a line for each record.
pub fn list(words: &[u64]) -> String {
    let mut text = String::new();
    for (code, body) in records(words) {
        let mut reader = Reader(body);
        let it = reader.case(code);
        text += &format!("{} -> {}\n", case(&it), expectation(&it, reader.0));
    }
    text
}
