//! What to do about a refusal: the words behind its sentence.

/// What to do, by the refusal's number; empty where nothing can be done.
pub fn of(number: u32) -> &'static str {
    match number {
        1 => "is it the right file? No longer one is read",
        2..=7 => "the file is damaged or cut: take it from a copy",
        8 => "give it in UTF-8, or as gvdb list prints it",
        9..=11 | 40 => "gvdb check FILE says what is broken",
        12 => "gvdb list FILE shows those that are there",
        13 => "gvdb list FILE shows the kind of each key",
        16 => "it is empty or cut, or no GVDB file",
        17 => "it is damaged, or no GVDB file",
        19 => "a later program has made it",
        20 => "give it a shorter one",
        22 | 27 | 31 => "make two files of it",
        26 => "nest fewer tables in each other",
        28 => "give --separator / or --separator none",
        30 => "give it a key of at least one byte",
        33 => "give a number from 0 to 1,024",
        _ => "",
    }
}

#[cfg(test)]
mod tests {
    use gvdb::Refusal;

    /// Each number that a clerk can meet has words; the others cannot come of a file or of lines.
    #[test]
    fn a_clerk_is_told_what_to_do() {
        let silent: Vec<u32> = Refusal::ALL.iter().map(|refusal| refusal.number()).filter(|number| super::of(*number).is_empty()).collect();
        assert_eq!(silent, [14, 15, 18, 21, 23, 24, 25, 29, 32, 34]);
    }
}
