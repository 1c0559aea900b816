//! Text as it stands in SVG and HTML, and elements around it.

/// What means something there, written so that it does not.
pub fn escaped(text: &str) -> String {
    let mut safe = String::new();
    for letter in text.chars() {
        match letter {
            '&' => safe += "&amp;",
            '<' => safe += "&lt;",
            '>' => safe += "&gt;",
            '"' => safe += "&quot;",
            letter => safe.push(letter),
        }
    }
    safe
}

/// An element with what is in it: `tag("td class=\"words\"", "..")`.
pub fn tag(open: &str, inside: impl std::fmt::Display) -> String {
    let name = open.split(' ').next().unwrap_or(open);
    format!("<{open}>{inside}</{name}>")
}

/// A section of a page under its own heading.
pub fn section(id: &str, title: &str, inside: &str) -> String {
    let heading = tag(&format!("h2 id=\"{id}\""), title);
    let open = format!("section aria-labelledby=\"{id}\"");
    tag(&open, format!("{heading}\n{inside}")) + "\n"
}

#[cfg(test)]
mod tests {
    use super::*;

    #[test]
    fn elements_are_closed_by_their_names() {
        let cell = tag("td class=\"words\"", escaped("1 < \"2\" & 3"));
        assert_eq!(
            cell,
            "<td class=\"words\">1 &lt; &quot;2&quot; &amp; 3</td>"
        );
    }
}
