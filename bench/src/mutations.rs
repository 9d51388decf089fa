//! Random changes of a chart file, most of them to whole fields.

use crate::random::Random;

/// The fields of a file, the last one perhaps cut short.
fn split(mut bytes: &[u8]) -> Vec<Vec<u8>> {
    let mut fields = Vec::new();
    while !bytes.is_empty() {
        let end = match bytes {
            [_, high, low, ..] => 3 + usize::from(u16::from_be_bytes([*high, *low])),
            _ => bytes.len(),
        };
        let (field, rest) = bytes.split_at(end.min(bytes.len()));
        fields.push(field.to_vec());
        bytes = rest;
    }
    fields
}

/// Where in a field of this tag a number of two bytes stands, or a kind or flag of one.
fn numbers(tag: u8) -> &'static [usize] {
    match tag {
        2 | 3 | 5 => &[3],
        4 => &[3, 5],
        _ => &[],
    }
}

fn codes(tag: u8) -> &'static [usize] {
    match tag {
        1 => &[3],
        2 => &[5],
        4 => &[7, 8],
        _ => &[],
    }
}

fn mutate_field(random: &mut Random, field: &mut [u8]) {
    let tag = field[0];
    match random.below(4) {
        0 => {
            for at in numbers(tag) {
                if random.percent(70) && at + 1 < field.len() {
                    let number = random.pick(&[1, 4, 16, 64, 260, 512]);
                    let number = (random.below(number) as u16).to_be_bytes();
                    field[*at..at + 2].copy_from_slice(&number);
                }
            }
        }
        1 => {
            for at in codes(tag) {
                if random.percent(60) && *at < field.len() {
                    field[*at] = random.pick(&[0, 0, 0, 1, 1, 1, 2, 2, 2, 3]);
                }
            }
        }
        2 => {
            if matches!(tag, 6 | 7) && field.len() > 3 {
                let at = 3 + random.below(field.len() - 3);
                let bound = random.pick(&[8, 128, 132, 134]);
                field[at] = random.below(bound) as u8;
            }
        }
        _ => {
            let at = random.below(field.len());
            field[at] = random.below(256) as u8;
        }
    }
}

/// A field that is well formed by itself.
fn new_field(random: &mut Random) -> Vec<u8> {
    let n = |random: &mut Random| random.below(12) as u8;
    match random.below(7) {
        0 => vec![1, 0, 2, random.below(3) as u8, b'n'],
        1 => vec![2, 0, 4, 0, n(random), random.below(3) as u8, b'n'],
        2 => vec![3, 0, 2, 0, n(random)],
        3 => vec![4, 0, 6, 0, n(random), 0, n(random), random.below(3) as u8, random.below(2) as u8],
        4 => vec![5, 0, 2, 0, n(random)],
        5 => vec![6, 0, 1, n(random)],
        _ => vec![7, 0, 2, n(random), n(random)],
    }
}

/// Turns a transition round and makes it immediate, or either.
fn turn(random: &mut Random, fields: &mut [Vec<u8>]) {
    let is_transition = |field: &&mut Vec<u8>| field.len() == 9 && field[0] == 4;
    let mut transitions: Vec<&mut Vec<u8>> = fields.iter_mut().filter(is_transition).collect();
    if !transitions.is_empty() {
        let n = random.below(transitions.len());
        if random.percent(70) {
            transitions[n][3..7].rotate_left(2);
        }
        if random.percent(70) {
            transitions[n][8] = 1;
        }
    }
}

/// The file with one to three changes.
pub fn mutate(random: &mut Random, bytes: &[u8]) -> Vec<u8> {
    let mut fields = split(bytes);
    for _ in 0..1 + random.below(3) {
        if fields.is_empty() {
            break;
        }
        let n = random.below(fields.len());
        let other = random.below(fields.len());
        match random.below(24) {
            0 => drop(fields.remove(n)),
            1 => fields.insert(n, fields[n].clone()),
            2 => fields.insert(other, fields[n].clone()),
            3 => fields.swap(n, other),
            4 => fields.insert(n, new_field(random)),
            5 => fields.push(new_field(random)),
            6 if random.percent(50) => {
                let mut file = fields.concat();
                file.truncate(random.below(file.len() + 1));
                fields = split(&file);
            }
            7 if random.percent(10) => {
                let file = fields.concat();
                let times = 1 + 16_384 / file.len().max(1);
                fields = split(&file.repeat(times));
            }
            8..12 => turn(random, &mut fields),
            _ => mutate_field(random, &mut fields[n]),
        }
    }
    fields.concat()
}
