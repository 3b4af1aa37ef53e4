//! The tally of a shift. Each line's class is found by going back over the lines before it, and each number by its own sum over the lines.

/// A heard line: its counter, its samples by position, and the word and metric where it is not refused.
pub struct Heard<'a> {
    pub counter: i64,
    pub samples: &'a [i16],
    pub answer: Option<(u64, i32)>,
}

#[derive(Clone, Copy, PartialEq)]
pub enum Class {
    Refused,
    Repeated,
    OutOfTurn,
    First,
    Onward,
}

fn advance(counter: i64, reference: i64) -> i64 {
    (counter - reference).rem_euclid(65_536)
}

/// The reference before a line: the counter of the last line before it that set it.
fn reference(lines: &[Heard], classes: &[Class], line: usize) -> Option<i64> {
    let sets = |i: &usize| matches!(classes[*i], Class::First | Class::Onward);
    (0..line).rev().find(sets).map(|i| lines[i].counter)
}

pub fn classes(lines: &[Heard]) -> Vec<Class> {
    let mut found = Vec::new();
    for (i, line) in lines.iter().enumerate() {
        let class = match (line.answer, reference(lines, &found, i)) {
            (None, _) => Class::Refused,
            (_, None) => Class::First,
            (_, Some(before)) => match advance(line.counter, before) {
                0 => Class::Repeated,
                1..=32_767 => Class::Onward,
                _ => Class::OutOfTurn,
            },
        };
        found.push(class);
    }
    found
}

/// A one in the word speaks for a negative sample, a zero for a positive one.
fn opposed(samples: &[i16], word: u64) -> usize {
    let against = |(i, y): (usize, &i16)| (word >> i & 1 == 1 && *y > 0) || (word >> i & 1 == 0 && *y < 0);
    samples.iter().enumerate().filter(|pair| against(*pair)).count()
}

/// The nine numbers in the order in which they are printed.
pub fn numbers(lines: &[Heard], classes: &[Class]) -> [i64; 9] {
    let count = |class| classes.iter().filter(|c| **c == class).count() as i64;
    let decoded: Vec<usize> =
        (0..lines.len()).filter(|&i| !matches!(classes[i], Class::Refused | Class::Repeated)).collect();
    let sum = |number: &dyn Fn(&Heard) -> i64| decoded.iter().map(|&i| number(&lines[i])).sum::<i64>();
    let missing: i64 = (0..lines.len())
        .filter(|&i| classes[i] == Class::Onward)
        .map(|i| advance(lines[i].counter, reference(lines, classes, i).unwrap()) - 1)
        .sum();
    [
        decoded.len() as i64,
        count(Class::Refused),
        count(Class::Repeated),
        count(Class::OutOfTurn),
        missing,
        sum(&|line| opposed(line.samples, line.answer.unwrap().0) as i64),
        sum(&|line| line.samples.iter().filter(|y| **y == 0).count() as i64),
        sum(&|line| i64::from(line.answer.unwrap().1)),
        decoded.len() as i64,
    ]
}
