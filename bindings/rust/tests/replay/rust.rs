//! Answers the cases of `crates/test_rust` by the safe types.

use crate::read::{bounds, fields, float, numbers, vector};
use oxlanyard::{capacity, Aggregate, BVectBorrowed, BVectOwned, Header, Refusal, SVectBorrowed, SVectOwned, State};
use std::cmp::Ordering;

type Answer = Result<String, Refusal>;

fn sparse(field: &str) -> Result<SVectOwned, Refusal> {
    let (dims, indexes, values) = vector(field);
    SVectOwned::new_checked(dims, indexes, values)
}

fn bits(field: &str) -> Result<BVectOwned, Refusal> {
    let (dims, words) = field.split_once(' ').unwrap_or((field, ""));
    let words = words.split_whitespace().map(|word| u64::from_str_radix(word, 16).expect("a word"));
    BVectOwned::new_checked(dims.parse().expect("dims"), words.collect())
}

fn sparse_shown(v: SVectBorrowed<'_>) -> String {
    let entries = v.indexes().iter().zip(v.values());
    entries.fold(v.dims().to_string(), |line, (index, value)| format!("{line} {index}:{}", float(*value)))
}

fn bits_shown(v: BVectBorrowed<'_>) -> String {
    v.data().iter().fold(v.dims().to_string(), |line, word| format!("{line} {word:x}"))
}

fn yes(b: bool) -> String {
    if b { "yes" } else { "no" }.to_string()
}

fn order(order: Option<Ordering>) -> String {
    order.map_or("unordered".to_string(), |order| format!("{order:?}").to_lowercase())
}

fn svect(call: &str, f: &[&str]) -> Answer {
    if call == "zero" {
        return Ok(sparse_shown(SVectBorrowed::zero(f[0].parse().expect("dims"))?));
    }
    let a = sparse(f[0])?;
    let a = a.as_borrowed();
    match call {
        "check" => return Ok("valid".into()),
        "part" => return Ok(sparse_shown(a.subvector(bounds(f[1]))?.as_borrowed())),
        _ => {}
    }
    let b = sparse(f[1])?;
    let b = b.as_borrowed();
    Ok(match call {
        "add" => sparse_shown(a.operator_add(b)?.as_borrowed()),
        "sub" => sparse_shown(a.operator_sub(b)?.as_borrowed()),
        "mul" => sparse_shown(a.operator_mul(b)?.as_borrowed()),
        "dot" => float(a.operator_dot(b)?),
        "l2" => float(a.operator_l2(b)?),
        "eq" => yes(a == b),
        "order" => order(a.partial_cmp(&b)),
        _ => panic!("there is no call {call}"),
    })
}

fn bvect(call: &str, f: &[&str]) -> Answer {
    if call == "zero" {
        return Ok(bits_shown(BVectOwned::zero(f[0].parse().expect("dims"))?.as_borrowed()));
    }
    let a = bits(f[0])?;
    let a = a.as_borrowed();
    match call {
        "check" => return Ok("valid".into()),
        "get" => return Ok(yes(a.get(f[1].parse().expect("an index"))?)),
        "part" => return Ok(bits_shown(a.subvector(bounds(f[1]))?.as_borrowed())),
        _ => {}
    }
    let b = bits(f[1])?;
    let b = b.as_borrowed();
    Ok(match call {
        "and" => bits_shown(a.operator_and(b)?.as_borrowed()),
        "or" => bits_shown(a.operator_or(b)?.as_borrowed()),
        "xor" => bits_shown(a.operator_xor(b)?.as_borrowed()),
        "dot" => float(a.operator_dot(b)?),
        "hamming" => float(a.operator_hamming(b)?),
        "jaccard" => float(a.operator_jaccard(b)?),
        "jaccard_or_nan" => float(a.operator_jaccard_or_nan(b)?),
        "eq" => yes(a == b),
        "order" => order(a.partial_cmp(&b)),
        _ => panic!("there is no call {call}"),
    })
}

/// One step of a run: the state that got what came, or the vector.
fn step(words: &str, first: &mut Aggregate, second: &mut Aggregate) -> Answer {
    let shown = |state: &Aggregate| {
        let dims = state.dims().unwrap_or(0);
        format!("{dims} {} {} {}", state.len(), state.capacity(), state.count())
    };
    let (name, row) = words.split_once(' ').unwrap_or((words, ""));
    Ok(match name {
        "first" => {
            first.row(sparse(row)?.as_borrowed())?;
            shown(first)
        }
        "second" => {
            second.row(sparse(row)?.as_borrowed())?;
            shown(second)
        }
        "combine" => {
            first.combine(&std::mem::take(second))?;
            shown(first)
        }
        "sum" => sparse_shown(first.sum()?.as_borrowed()),
        _ => sparse_shown(first.average()?.as_borrowed()),
    })
}

fn run(steps: &[&str]) -> String {
    let (mut first, mut second) = (Aggregate::new(), Aggregate::new());
    let mut line = Vec::new();
    for words in steps {
        let answer = step(words, &mut first, &mut second);
        let ended = answer.is_err();
        line.push(answer.unwrap_or_else(refused));
        if ended {
            break;
        }
    }
    line.join(" | ")
}

/// The average of a state that holds a vector, with a count.
fn average(count: &str, held: &str) -> Answer {
    let held = sparse(held)?;
    let (indexes, values) = (held.indexes(), held.values());
    let room = capacity(held.dims(), indexes.len());
    let (mut i, mut v) = (indexes.to_vec(), values.to_vec());
    i.resize(room, 0);
    v.resize(room, 0.0);
    let (room, len, dims) = (room as u64, indexes.len() as u64, held.as_borrowed().dims() as u64);
    let header = Header([0, room, 1, dims, len, room, count.parse().expect("a count")]);
    Ok(sparse_shown(State::resume(header, &mut i, &mut v)?.average()?.as_borrowed()))
}

fn refused(refusal: Refusal) -> String {
    format!("refused {} {}", refusal.reason.number(), refusal.place)
}

pub fn answer(case: &str) -> String {
    let (request, text) = case.split_once(" ; ").map_or((case, None), |(request, text)| (request, Some(text)));
    let f = fields(request);
    let (file, call) = f[0].split_once(' ').expect("a file and a call");
    let answer = match (file, call) {
        ("svect", _) => svect(call, &f[1..]).unwrap_or_else(refused),
        ("bvect", _) => bvect(call, &f[1..]).unwrap_or_else(refused),
        ("aggregate", "run") => run(&f[1..]),
        ("aggregate", "average") => average(f[1], f[2]).unwrap_or_else(refused),
        ("aggregate", _) => {
            let given = numbers(f[1]);
            capacity(given[0] as u32, given[1] as usize).to_string()
        }
        _ => panic!("there is no file {file}"),
    };
    text.map_or(answer.clone(), |text| format!("{answer} ; {text}"))
}
