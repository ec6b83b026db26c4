//! A small writer of SVG: elements are closed where they are opened.

/// A place or a width and height.
pub type Pair = (f64, f64);

pub struct Svg {
    text: String,
}

impl Svg {
    pub fn new(width: f64, height: f64, title: &str) -> Svg {
        let mut svg = Svg {
            text: String::new(),
        };
        svg.put(&format!(
            "<svg xmlns=\"http://www.w3.org/2000/svg\" width=\"{width}\" height=\"{height}\" \
             viewBox=\"0 0 {width} {height}\" role=\"img\">\n"
        ));
        svg.put(&format!("<title>{}</title>\n", escaped(title)));
        svg
    }

    fn put(&mut self, text: &str) {
        self.text.push_str(text);
    }

    pub fn style(&mut self, style: &str) {
        self.put(&format!("<style>\n{style}</style>\n"));
    }

    /// What is drawn in it has gaps so wide.
    pub fn with_gaps(&mut self, width: f64, draw: impl FnOnce(&mut Svg)) {
        let width = short(width);
        self.put(&format!("<g stroke-width=\"{width}\">\n"));
        draw(self);
        self.put("</g>\n");
    }

    /// Lines between cells, for [`grid`](Svg::grid).
    pub fn grid_pattern(&mut self, left: f64, cell: f64) {
        self.put(&format!(
            "<defs><pattern id=\"grid\" patternUnits=\"userSpaceOnUse\" x=\"{left}\" y=\"0\" \
             width=\"{cell}\" height=\"8\"><path class=\"gap\" d=\"M{cell} 0v8\"/></pattern>\
             </defs>\n"
        ));
    }

    pub fn grid(&mut self, at: Pair, size: Pair) {
        let place = place(at, size);
        self.put(&format!("<rect fill=\"url(#grid)\" {place}/>\n"));
    }

    pub fn rect(&mut self, class: &str, at: Pair, size: Pair) {
        let place = place(at, size);
        self.put(&format!("<rect class=\"{class}\" {place}/>\n"));
    }

    /// With a text that shows where it is pointed at.
    pub fn told_rect(&mut self, class: &str, at: Pair, size: Pair, told: &str) {
        let (place, told) = (place(at, size), escaped(told));
        self.put(&format!(
            "<rect class=\"{class}\" {place}><title>{told}</title></rect>\n"
        ));
    }

    pub fn path(&mut self, class: &str, d: &str) {
        self.put(&format!("<path class=\"{class}\" d=\"{d}\"/>\n"));
    }

    pub fn told_path(&mut self, class: &str, d: &str, told: &str) {
        let told = escaped(told);
        self.put(&format!(
            "<path class=\"{class}\" d=\"{d}\"><title>{told}</title></path>\n"
        ));
    }

    pub fn text(&mut self, class: &str, (x, y): Pair, text: &str) {
        let (x, y, text) = (short(x), short(y), escaped(text));
        self.put(&format!(
            "<text class=\"{class}\" x=\"{x}\" y=\"{y}\">{text}</text>\n"
        ));
    }

    pub fn finish(mut self) -> String {
        self.put("</svg>\n");
        self.text
    }
}

fn place((x, y): Pair, (width, height): Pair) -> String {
    let [x, y, width, height] = [x, y, width, height].map(short);
    format!("x=\"{x}\" y=\"{y}\" width=\"{width}\" height=\"{height}\"")
}

/// Two digits behind the point at most.
pub fn short(number: f64) -> String {
    let text = format!("{number:.2}");
    let whole = text.trim_end_matches('0').trim_end_matches('.');
    if whole == "-0" {
        "0".into()
    } else {
        whole.into()
    }
}

/// A name may have any letters; those that XML has no place for are left out.
fn escaped(text: &str) -> String {
    let mut escaped = String::new();
    for letter in text.chars() {
        match letter {
            '&' => escaped.push_str("&amp;"),
            '<' => escaped.push_str("&lt;"),
            '>' => escaped.push_str("&gt;"),
            '"' => escaped.push_str("&quot;"),
            '\u{FFFE}' | '\u{FFFF}' => {}
            letter if letter.is_control() => {}
            letter => escaped.push(letter),
        }
    }
    escaped
}

#[cfg(test)]
mod tests {
    use super::*;

    #[test]
    fn numbers_are_short() {
        let said = [0.0, -0.001, 1.0, 1.5, 100.0, -2.346].map(short);
        assert_eq!(said, ["0", "0", "1", "1.5", "100", "-2.35"]);
    }

    #[test]
    fn letters_of_xml_are_escaped() {
        assert_eq!(escaped("a<b>&\"c\"\u{7}\n"), "a&lt;b&gt;&amp;&quot;c&quot;");
    }
}
