//! What a comparison covered, as counts by name: printed in columns, with a warning for what never occurred.

/// Something that may occur, and how often it did.
pub type Count = (String, u64);

/// How often each refusal of document 01's table was right, by its number; 0 counts what was accepted.
pub type Refusals = [u64; 15];

/// Counts with their names.
pub fn named(names: &[&str], counts: &[u64]) -> Vec<Count> {
    let names = names.iter().map(|name| (*name).to_owned());
    names.zip(counts.iter().copied()).collect()
}

/// What was accepted, and refused with each of these numbers.
pub fn refused(what: &str, numbers: &[usize], counts: &Refusals) -> Vec<Count> {
    let name = |number| match number {
        0 => format!("{what} accepted"),
        _ => format!("{what} refused {number}"),
    };
    let numbers = numbers.iter();
    numbers.map(|&at| (name(at), counts[at])).collect()
}

/// Adds counts to others, each to its own.
pub fn add(own: &mut [u64], other: &[u64]) {
    for (own, other) in own.iter_mut().zip(other) {
        *own += other;
    }
}

/// The names of what never occurred.
pub fn never(counts: &[Count]) -> Vec<&str> {
    let never = counts.iter().filter(|(_, count)| *count == 0);
    never.map(|(name, _)| name.as_str()).collect()
}

/// Prints the counts, three a line.
pub fn print(counts: &[Count]) {
    for three in counts.chunks(3) {
        let cells = three
            .iter()
            .map(|(name, count)| format!("{name:<28}{count:>10}   "));
        println!("{}", cells.collect::<String>().trim_end());
    }
}

/// Ends what a comparison prints of its coverage: a warning for what never occurred, and the refusals in a line, which
/// `tools/compare all` adds up.
pub fn covered(name: &str, counts: &[Count], refusals: &Refusals) {
    let never = never(counts);
    if !never.is_empty() {
        println!("warning: never in {name}: {}", never.join(", "));
    }
    let refusals = refusals.iter().enumerate().skip(1);
    let given = refusals.filter(|(_, count)| **count > 0);
    let text: String = given.map(|(n, count)| format!(" {n}:{count}")).collect();
    println!("refusals:{text}");
}

#[cfg(test)]
mod tests {
    use super::*;

    #[test]
    fn what_never_occurred() {
        let counts = named(&["once", "never"], &[1, 0]);
        assert_eq!(never(&counts), ["never"]);
        let mut refusals = [0; 15];
        add(&mut refusals, &[5, 0, 0, 2]);
        let counts = refused("table", &[0, 3, 4], &refusals);
        let wanted = [
            ("table accepted", 5),
            ("table refused 3", 2),
            ("table refused 4", 0),
        ];
        assert_eq!(counts, wanted.map(|(name, count)| (name.to_owned(), count)));
    }
}
