//! The oracle's lists of questions: each line a command, a TAB and gvdb-rs's answer. What the commands mean is said in the README of the lists' maker.

pub fn unhex(text: &str) -> Vec<u8> {
    let digits = if text == "-" { "" } else { text };
    (0..digits.len() / 2).map(|i| u8::from_str_radix(&digits[2 * i..2 * i + 2], 16).expect("hex")).collect()
}

/// A changed copy of what was loaded.
fn damaged(loaded: &[u8], edits: &[&str]) -> Vec<u8> {
    let mut file = loaded.to_vec();
    for (name, data) in edits.iter().filter_map(|edit| edit.split_once('=')) {
        match name {
            "cut" => file.truncate(data.parse().expect("a length")),
            "add" => file.extend(unhex(data)),
            at => {
                let at: usize = at.parse().expect("an offset");
                file.iter_mut().skip(at).zip(unhex(data)).for_each(|(byte, new)| *byte = new);
            }
        }
    }
    file
}

/// Goes through a list: each command's words, and the file that it reads if it reads one.
pub fn walk(list: &str, mut each: impl FnMut(&[&str], &[u8])) {
    let (mut written, mut loaded, mut file) = (Vec::new(), Vec::new(), Vec::new());
    for (command, said) in list.lines().filter_map(|line| line.split_once('\t')) {
        let words: Vec<&str> = command.split(' ').collect();
        match words[0] {
            "write" => written = said.strip_prefix("ok ").map(unhex).unwrap_or_default(),
            "file" => loaded = unhex(words[1]),
            "image" => loaded = written.clone(),
            _ => {}
        }
        match words[0] {
            "file" | "image" => file = loaded.clone(),
            "damage" => file = damaged(&loaded, &words[1..]),
            _ => each(&words, &file),
        }
    }
}
