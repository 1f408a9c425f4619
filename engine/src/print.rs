//! The rates print: one line for each node of a plan.

use crate::plan;
use crate::table::*;

/// The print of a plan: `node sort rate` for each node in rising number, or
/// `refused N`. Every line ends with a line feed.
pub fn rates_of_plan(plan: &[u8]) -> String {
    let mut table = [0; TABLE_LEN];
    match plan::read(plan, &mut table) {
        Ok(_) => used_nodes(&table).map(|node| line(&table, node)).collect(),
        Err(number) => format!("refused {number}\n"),
    }
}

fn line(table: &[i64], node: usize) -> String {
    let sort = if is_class(table, node) { "class" } else { "client" };
    format!("{node} {sort} {}\n", get(table, node, RATE))
}
