//! A sheet that is typed into.

use super::*;
use bannelgo_development::gap_sheet::{sheet, sheet_of_lines};
use bannelgo_development::gap_text::{end_of_line, keys, PLANNERS_SHEET};

pub fn typed() -> Vec<Line> {
    let mut lines = vec![comment("A planner's sheet, 16 rules, and changes to it.")];
    lines.extend(session(&sheet(), 500, PLANNERS_SHEET.as_bytes()));
    lines.extend([read(), read(), edit(5, 10, "South"), read()]);
    lines.extend([edit(13, 14, ""), read(), edit(13, 13, "#"), read()]);
    lines.extend([look(0, 0), look(2, 13), look(6, 5), look(15, 0)]);
    lines.push(comment("A sheet typed into key by key, and taken back."));
    let text = PLANNERS_SHEET.as_bytes();
    lines.extend(session(&sheet_of_lines(), 500, text));
    lines.push(read());
    let place = end_of_line(text, 100);
    let typed: Vec<u8> = keys().take(75).collect();
    for (count, &key) in typed.iter().enumerate() {
        lines.push(Line::Call(Call::Edit {
            start: place + count,
            end: place + count,
            replacement: vec![key],
        }));
        lines.push(read());
    }
    for count in (0..typed.len()).rev().take(20) {
        lines.extend([edit(place + count, place + count + 1, ""), read()]);
    }
    lines.extend([look(0, 0), look(2, place + 1), look(3, place + 1)]);
    lines
}
