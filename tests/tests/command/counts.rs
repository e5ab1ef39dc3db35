//! The last line that a run says: how many frames there were, and what became of them.

use std::collections::BTreeMap;

/// With commas between thousands.
pub fn grouped(number: usize) -> String {
    let digits = number.to_string();
    let groups = digits.as_bytes().rchunks(3).rev();
    let groups: Vec<&str> = groups
        .map(|group| std::str::from_utf8(group).unwrap())
        .collect();
    groups.join(",")
}

/// The line that belongs to these answers, and the exit status.
pub fn last_line(answers: &[u8]) -> (String, i32) {
    let mut refused: BTreeMap<u8, usize> = BTreeMap::new();
    let text = std::str::from_utf8(answers).unwrap();
    for line in text.lines() {
        if let Some(number) = line.strip_prefix("ff") {
            let number = u8::from_str_radix(&number[..2], 16).unwrap();
            *refused.entry(number).or_default() += 1;
        }
    }
    let frames = text.lines().count();
    let refusals: usize = refused.values().sum();
    let list: Vec<String> = refused
        .iter()
        .map(|(number, &count)| format!("{number}: {}", grouped(count)))
        .collect();
    let line = format!(
        "estrenwind: {} frame{}, {} answered, {} refused{}\n",
        grouped(frames),
        if frames == 1 { "" } else { "s" },
        grouped(frames - refusals),
        grouped(refusals),
        if refusals == 0 {
            String::new()
        } else {
            format!(" ({})", list.join(", "))
        }
    );
    (line, i32::from(refusals > 0))
}

#[test]
fn lines() {
    let answers = b"02ffffffffffffffff\nff2000\nff1402\n".repeat(1_000);
    assert_eq!(
        last_line(&answers),
        (
            "estrenwind: 3,000 frames, 1,000 answered, 2,000 refused (20: 1,000, 32: 1,000)\n"
                .to_string(),
            1
        )
    );
    let none = "estrenwind: 0 frames, 0 answered, 0 refused\n".to_string();
    assert_eq!(last_line(b""), (none, 0));
}
