//! The columns of a listing. What stands before the bar is not read by the assembler, so the listing is a source.

#[derive(Clone, PartialEq, Eq, Debug, Default)]
pub struct Line {
    pub real: Option<u32>,
    /// The address that the program uses, where the frame is shown as a page.
    pub shown: Option<u32>,
    pub bytes: String,
    pub label: String,
    pub text: String,
    pub remark: String,
}

/// The widest column of bytes and of source text that others are aligned to.
const WIDEST_BYTES: usize = 50;
const WIDEST_TEXT: usize = 44;
const WIDEST_LABEL: usize = 14;

pub fn written(lines: &[Line]) -> String {
    let width = |of: fn(&Line) -> usize, widest| lines.iter().map(of).filter(|w| *w <= widest).max().unwrap_or(0);
    let digits = |address: Option<u32>| address.map_or(0, |address| format!("{address:X}").len());
    let real = lines.iter().map(|line| digits(line.real)).max().unwrap_or(0).max(4);
    let shown = lines.iter().map(|line| digits(line.shown)).max().unwrap_or(0);
    let shown = if shown == 0 { 0 } else { shown.max(4) };
    let bytes = width(|line| line.bytes.len(), WIDEST_BYTES);
    let label = width(|line| line.label.len(), WIDEST_LABEL);
    let label = if label == 0 { 0 } else { label + 2 };
    let text = lines.iter().filter(|line| !line.remark.is_empty()).map(|line| line.text.len());
    let text = text.filter(|width| *width <= WIDEST_TEXT).max().unwrap_or(0);
    let widths = Widths { real, shown, bytes, label, text };
    lines.iter().map(|line| format!("{}\n", widths.line(line).trim_end())).collect()
}

/// The same without what stands before the bar.
pub fn plain(lines: &[Line]) -> String {
    let label = lines.iter().map(|line| line.label.len()).filter(|width| *width <= WIDEST_LABEL).max().unwrap_or(0) + 2;
    let text = lines.iter().filter(|line| !line.remark.is_empty()).map(|line| line.text.len());
    let text = text.filter(|width| *width <= WIDEST_TEXT).max().unwrap_or(0);
    lines.iter().map(|line| format!("{}\n", source(line, label, text).trim_end())).collect()
}

struct Widths {
    real: usize,
    shown: usize,
    bytes: usize,
    label: usize,
    text: usize,
}

impl Widths {
    fn line(&self, line: &Line) -> String {
        let Widths { real, shown, bytes, label, text } = *self;
        let source = source(line, label, text);
        if line.text.is_empty() && line.label.is_empty() {
            return source;
        }
        let address = line.real.map_or(String::new(), |address| format!("{address:0real$X}"));
        let page = line.shown.map_or(String::new(), |address| format!("{address:0shown$X}"));
        let page = if shown > 0 { format!("  {page:shown$}") } else { String::new() };
        format!("{address:real$}{page}  {:bytes$} | {source}", line.bytes)
    }
}

fn source(line: &Line, label: usize, text: usize) -> String {
    let name = if line.label.is_empty() { String::new() } else { format!("{}:", line.label) };
    let gap = if !name.is_empty() && name.len() >= label { " " } else { "" };
    let remark = match (line.remark.is_empty(), line.text.is_empty() && line.label.is_empty()) {
        (true, _) => String::new(),
        (false, true) => return format!("-- {}", line.remark),
        (false, false) => format!("  -- {}", line.remark),
    };
    match remark.is_empty() {
        true => format!("{name:label$}{gap}{}", line.text),
        false => format!("{name:label$}{gap}{:text$}{remark}", line.text),
    }
}
