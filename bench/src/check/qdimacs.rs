//! A small evaluator of QDIMACS: tries the variables in the prefix's order. It knows nothing of sheets.

/// Whether the quantified formula is true.
pub fn holds(text: &str) -> bool {
    let (mut prefix, mut clauses) = (Vec::new(), Vec::new());
    let (mut variables, mut count) = (0, 0);
    for line in text.lines() {
        let mut words = line.split_whitespace().peekable();
        match words.peek() {
            Some(&"p") => {
                let sizes: Vec<usize> = words.skip(2).map(|word| word.parse().unwrap()).collect();
                (variables, count) = (sizes[0], sizes[1]);
            }
            Some(&letter @ ("e" | "a")) => {
                let block = numbers(words.skip(1));
                prefix.extend(block.into_iter().map(|number| (letter == "e", number.unsigned_abs() as usize)));
            }
            _ => clauses.push(numbers(words)),
        }
    }
    assert_eq!((prefix.len(), clauses.len()), (variables, count), "the sizes that the first line tells");
    value(&prefix, &clauses, &mut vec![None; variables + 1])
}

/// The numbers before the closing 0.
fn numbers<'a>(words: impl Iterator<Item = &'a str>) -> Vec<i64> {
    let mut numbers: Vec<i64> = words.map(|word| word.parse().unwrap()).collect();
    assert_eq!(numbers.pop(), Some(0), "a closing 0");
    numbers
}

fn value(prefix: &[(bool, usize)], clauses: &[Vec<i64>], setting: &mut Vec<Option<bool>>) -> bool {
    let literal = |number: &i64| setting[number.unsigned_abs() as usize].map(|value| value == (*number > 0));
    if clauses.iter().any(|clause| clause.iter().all(|number| literal(number) == Some(false))) {
        return false;
    }
    let Some((&(existential, variable), rest)) = prefix.split_first() else {
        return true;
    };
    let mut half = |bit| {
        setting[variable] = Some(bit);
        let result = value(rest, clauses, setting);
        setting[variable] = None;
        result
    };
    if existential {
        half(false) || half(true)
    } else {
        half(false) && half(true)
    }
}
