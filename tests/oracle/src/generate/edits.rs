//! Document 01's package E, and edits of it by line numbers, or of any text.

pub const E: &str = include_str!("../../../../examples/e.pkg");

/// E with these lines put in place of its own; a line 18 is added behind the last one.
pub fn with(changes: &[(usize, &str)]) -> String {
    let mut lines: Vec<&str> = E.lines().collect();
    for (number, text) in changes {
        if *number > lines.len() {
            lines.push(text);
        } else {
            lines[number - 1] = text;
        }
    }
    ended(&lines)
}

/// E without these lines, the rest moved up, and with more lines behind.
pub fn without(absent: &[usize], more: &[&str]) -> String {
    let kept = E.lines().zip(1..).filter(|(_, number)| !absent.contains(number));
    let mut lines: Vec<&str> = kept.map(|(line, _)| line).collect();
    lines.extend(more);
    ended(&lines)
}

/// The first lines of E.
pub fn first(lines: usize) -> String {
    ended(&E.lines().take(lines).collect::<Vec<_>>())
}

/// A package of these value lines: line 2, block 2 and block 3.
pub fn made(counts: &str, terms: &[&str], sums: &[&str]) -> String {
    let mut lines = vec!["p letters gens basis", counts, "kind item coef word"];
    lines.extend(terms);
    lines.push("kind item coef left of right");
    lines.extend(sums);
    ended(&lines)
}

/// A text with one part of it changed, which must stand there once.
pub fn changed(text: &str, old: &str, new: &str) -> String {
    assert_eq!(text.matches(old).count(), 1, "{old}");
    text.replacen(old, new, 1)
}

fn ended(lines: &[&str]) -> String {
    lines.iter().map(|line| format!("{line}\n")).collect()
}
