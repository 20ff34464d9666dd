//! Time against size, as columns of numbers for the plot.

use crate::measure;
use crate::workloads::{largest_script, reverse_list, Workload};
use compare::implementation::Implementation;
use std::fmt::Write;
use std::path::Path;

/// Scripts by their nodes and lists by their cells, a file for each.
pub fn write_all(implementations: &mut [Box<dyn Implementation>], to: &Path) -> Option<()> {
    let nodes = doubled(2_047);
    let scripts: Vec<Workload> = nodes.iter().map(|nodes| script(*nodes)).collect();
    let cells: Vec<u64> = doubled(4_096).split_off(1);
    let lists: Vec<Workload> = cells.iter().map(|cells| list(*cells)).collect();
    std::fs::create_dir_all(to).ok()?;
    let text = table(implementations, &nodes, &scripts);
    std::fs::write(to.join("scripts.dat"), text).ok()?;
    let text = table(implementations, &cells, &lists);
    std::fs::write(to.join("lists.dat"), text).ok()
}

/// 1, 2, 4 and so on, and at the end the most that there can be.
fn doubled(most: u64) -> Vec<u64> {
    let powers = (0..).map(|power| 1 << power);
    powers.take_while(|n| *n < most).chain([most]).collect()
}

fn script(nodes: u64) -> Workload {
    Workload::new("script", &largest_script(nodes), 16)
}

/// A node of a list is two cells. The heap is just large enough.
fn list(cells: u64) -> Workload {
    Workload::new("list", &reverse_list(cells / 2), cells as usize)
}

fn table(
    implementations: &mut [Box<dyn Implementation>],
    sizes: &[u64],
    workloads: &[Workload],
) -> String {
    let mut text = String::from("size");
    for one in implementations.iter() {
        let _ = write!(text, " {}", one.name());
    }
    let rows = measure::answers(implementations, workloads);
    for (size, times) in sizes.iter().zip(rows) {
        let _ = write!(text, "\n{size}");
        for time in times {
            let _ = write!(text, " {time:.1}");
        }
    }
    text.push('\n');
    text
}
