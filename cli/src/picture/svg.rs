//! SVG by hand: rectangles, lines, paths and text.

/// A picture that grows.
pub struct Svg {
    body: String,
}

/// How text stands at its place.
#[derive(Clone, Copy)]
pub struct Style {
    pub size: u32,
    pub fill: &'static str,
    pub bold: bool,
}

impl Style {
    pub const fn plain(size: u32, fill: &'static str) -> Style {
        Style { size, fill, bold: false }
    }

    pub const fn bold(self) -> Style {
        Style { bold: true, ..self }
    }
}

/// A place and a size.
#[derive(Clone, Copy)]
pub struct Box {
    pub x: i64,
    pub y: i64,
    pub width: i64,
    pub height: i64,
}

impl Svg {
    pub fn new() -> Svg {
        Svg { body: String::new() }
    }

    /// Adds a line of the file.
    fn add(&mut self, line: &str) {
        self.body.push_str(line);
        self.body.push('\n');
    }

    /// A rectangle; `more` has further attributes.
    pub fn rect(&mut self, place: Box, fill: &str, stroke: &str, more: &str) {
        let Box { x, y, width, height } = place;
        let more = if more.is_empty() { String::new() } else { format!(" {more}") };
        self.add(&format!(
            r#"<rect x="{x}" y="{y}" width="{width}" height="{height}" fill="{fill}" stroke="{stroke}"{more}/>"#
        ));
    }

    /// A path; `more` has further attributes.
    pub fn path(&mut self, d: &str, stroke: &str, more: &str) {
        self.add(&format!(r#"<path d="{d}" fill="none" stroke="{stroke}" {more}/>"#));
    }

    /// Text whose baseline starts, ends or has its middle at a place.
    pub fn text(&mut self, x: i64, y: i64, style: Style, text: &str) {
        let mut attributes = format!(r#"x="{x}" y="{y}" font-size="{}" fill="{}""#, style.size, style.fill);
        if style.bold {
            attributes.push_str(r#" font-weight="bold""#);
        }
        self.add(&format!("<text {attributes}>{}</text>", escaped(text)));
    }

    /// The whole file.
    pub fn file(&self, width: i64, height: i64, title: &str, description: &str) -> String {
        format!(
            concat!(
                r#"<svg xmlns="http://www.w3.org/2000/svg" width="{w}" height="{h}" viewBox="0 0 {w} {h}" "#,
                r#"font-family="DejaVu Sans, Verdana, sans-serif" role="img">"#,
                "\n<title>{t}</title>\n<desc>{d}</desc>\n",
                r##"<defs><marker id="tip" viewBox="0 0 8 8" refX="7" refY="4" markerWidth="5" markerHeight="5" orient="auto">"##,
                r##"<path d="M0,0 L8,4 L0,8 z" fill="#333333"/></marker></defs>"##,
                "\n{b}</svg>\n"
            ),
            w = width,
            h = height,
            t = escaped(title),
            d = escaped(description),
            b = self.body
        )
    }
}

/// Text for XML.
pub fn escaped(text: &str) -> String {
    let mut safe = String::new();
    for letter in text.chars() {
        match letter {
            '&' => safe.push_str("&amp;"),
            '<' => safe.push_str("&lt;"),
            '>' => safe.push_str("&gt;"),
            '"' => safe.push_str("&quot;"),
            control if control.is_control() => safe.push('?'),
            other => safe.push(other),
        }
    }
    safe
}

/// Text that is cut where it has more letters than fit in a width.
pub fn cut(text: &str, width: i64, size: u32) -> String {
    let most = usize::try_from(width * 10 / (i64::from(size) * 6)).unwrap_or(0);
    match text.chars().count() > most {
        true => format!("{}..", text.chars().take(most.saturating_sub(2)).collect::<String>()),
        false => text.to_string(),
    }
}

#[cfg(test)]
mod tests {
    use super::*;

    #[test]
    fn text_is_safe_and_cut() {
        assert_eq!(escaped("a<b & \"c\"\u{1}"), "a&lt;b &amp; &quot;c&quot;?");
        assert_eq!(cut("abcdefghij", 30, 10), "abc..");
        assert_eq!(cut("abc", 30, 10), "abc");
    }
}
