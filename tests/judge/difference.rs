//! Where two answers part, in a few words.

/// The two numbers, or the first line at which two texts part.
pub fn difference(ours: &[u8], theirs: &[u8]) -> String {
    if let ([ours], [theirs]) = (ours, theirs) {
        return format!("it gives {ours}, the second program {theirs}");
    }
    let mut ours = ours.split_inclusive(|&byte| byte == b'\n');
    let mut theirs = theirs.split_inclusive(|&byte| byte == b'\n');
    let mut line = 1;
    loop {
        match (ours.next(), theirs.next()) {
            (Some(same), Some(also)) if same == also => line += 1,
            (ours, theirs) => {
                let (ours, theirs) = (told(ours), told(theirs));
                return format!("line {line} is {ours}, the second program's {theirs}");
            }
        }
    }
}

fn told(line: Option<&[u8]>) -> String {
    match line {
        Some(line) => format!("{:?}", String::from_utf8_lossy(&line[..line.len().min(60)])),
        None => "missing".into(),
    }
}
