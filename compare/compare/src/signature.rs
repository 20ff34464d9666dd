//! What is particular about an image's answer: the fault or end, and what
//! stands at the place that brought it about. A corpus keeps one image for each
//! signature.

use crate::counts::END_NAMES;
use generate::{outline, Outline, Role};

/// The signature of an image that answers these six numbers. Made of small
/// letters, digits and hyphens, so that it can be a file's name.
pub fn signature(image: &[u8], numbers: &[u64; 6]) -> String {
    let outline = outline(image);
    let [ran, what, value, code, steps, first] = *numbers;
    if ran == 0 {
        return format!(
            "{what:02}-{}",
            refused(&outline, image, what, value as usize)
        );
    }
    let end = END_NAMES.get(what as usize).copied().unwrap_or("unknown");
    let unchecked = if first == 0 { "" } else { "-unchecked" };
    let at = ended(&outline, end, steps as usize);
    match end {
        "value" => {
            let root = outline.nodes.first().map_or(0, |node| node.code);
            let under = if root == 0 {
                cells(&outline)
            } else {
                String::new()
            };
            format!("{end}{unchecked}-tag{}-node{root}{under}", code % 8)
        }
        "room" => format!("{end}{unchecked}-{at}{}", cells(&outline)),
        _ => format!("{end}{unchecked}-{at}"),
    }
}

/// How many cells the image has, where that matters: up to three.
fn cells(outline: &Outline) -> String {
    let gaps = outline.numbers.iter().filter(|seen| seen.role == Role::Gap);
    format!("-cells{}", gaps.count().min(3))
}

fn refused(outline: &Outline, image: &[u8], fault: u64, place: usize) -> String {
    match fault {
        1 => {
            let inside = if inside_a_number(image) {
                "inside"
            } else {
                "before"
            };
            format!("{inside}-{}", role_name(outline.wanted))
        }
        4 if image.len() > second::MOST_BYTES => "bytes".to_string(),
        4 if outline.role_at(place) == Some(Role::Code) => {
            let nodes = outline.nodes.len() > 2_048;
            format!("code-{}", if nodes { "nodes" } else { "depth" })
        }
        8 => {
            let last = outline.nodes.last().map_or(0, |node| node.code);
            format!("behind-{last}")
        }
        9 => node(outline, place),
        10 => format!("literal{}{}", literal_shape(outline, place), cells(outline)),
        _ => role_name(outline.role_at(place).or(outline.wanted)),
    }
}

fn inside_a_number(image: &[u8]) -> bool {
    matches!(image.last(), Some(byte) if *byte >= 128)
}

fn role_name(role: Option<Role>) -> String {
    match role {
        Some(role) => format!("{role:?}").to_lowercase(),
        None => "none".to_string(),
    }
}

/// A node's code and that of its first part; of a sum, whether an access judges
/// it.
fn node(outline: &Outline, number: usize) -> String {
    let code = |number: usize| outline.nodes.get(number).map_or(99, |node| node.code);
    let Some(node) = outline.nodes.get(number) else {
        return "none".to_string();
    };
    let access = match node.parent {
        Some(parent) if node.code == 8 && matches!(code(parent), 6 | 7) => "-access",
        _ => "",
    };
    let part = node
        .parts
        .first()
        .map_or(String::new(), |part| format!("-{}", code(*part)));
    format!("node{}{part}{access}", node.code)
}

/// The target kind of a literal's type.
fn literal_shape(outline: &Outline, number: usize) -> String {
    let codes = outline.numbers.iter().enumerate();
    let mut codes = codes.filter(|(_, seen)| seen.role == Role::Code);
    let Some((place, _)) = codes.nth(number) else {
        return String::new();
    };
    let of = outline.numbers.get(place + 2).map_or(0, |seen| seen.value);
    let mut entries = outline
        .numbers
        .iter()
        .filter(|seen| seen.role == Role::TargetKind);
    match entries.nth((of as usize).wrapping_sub(1)) {
        Some(entry) => format!("-kind{}", entry.value),
        None => String::new(),
    }
}

/// The node that ended the run: the last step, or the one that is due.
fn ended(outline: &Outline, end: &str, steps: usize) -> String {
    let order = outline.steps();
    let place = match end {
        "stuck" | "more" => order.get(steps),
        _ => order.get(steps.wrapping_sub(1)),
    };
    node(outline, place.copied().unwrap_or(0))
}
