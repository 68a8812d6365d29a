//! SVG as far as pictures of plans use it: elements with attributes in double quotes, text, and four entities.

/// What stands between the tags of an element.
enum Part {
    Element(Element),
    Text(String),
}

pub struct Element {
    pub name: String,
    attributes: Vec<(String, String)>,
    parts: Vec<Part>,
}

impl Element {
    pub fn attribute(&self, name: &str) -> Option<&str> {
        let mut attributes = self.attributes.iter();
        let (_, value) = attributes.find(|(key, _)| key == name)?;
        Some(value)
    }

    pub fn given(&self, name: &str) -> Result<&str, String> {
        let value = self.attribute(name);
        value.ok_or_else(|| format!("<{}> without {name}", self.name))
    }

    pub fn number(&self, name: &str) -> Result<u64, String> {
        let value = self.given(name)?;
        let number = value.parse();
        number.map_err(|_| format!("<{}> with {name} {value}", self.name))
    }

    pub fn elements(&self) -> impl Iterator<Item = &Element> {
        self.parts.iter().filter_map(|part| match part {
            Part::Element(element) => Some(element),
            Part::Text(_) => None,
        })
    }

    pub fn named<'a>(&'a self, name: &'a str) -> impl Iterator<Item = &'a Element> {
        self.elements().filter(move |element| element.name == name)
    }

    /// The elements of a class, which is the only one that they have.
    pub fn of_class<'a>(&'a self, class: &'a str) -> impl Iterator<Item = &'a Element> {
        self.elements()
            .filter(move |element| element.attribute("class") == Some(class))
    }

    /// The text of the element and of all elements in it.
    pub fn text(&self) -> String {
        let texts = self.parts.iter().map(|part| match part {
            Part::Element(element) => element.text(),
            Part::Text(text) => text.clone(),
        });
        texts.collect()
    }

    /// The element and all elements in it.
    pub fn all(&self) -> Vec<&Element> {
        let inner = self.elements().flat_map(Element::all);
        std::iter::once(self).chain(inner).collect()
    }
}

/// Goes through a text from its beginning.
struct Reader<'a> {
    rest: &'a str,
}

impl<'a> Reader<'a> {
    fn takes(&mut self, word: &str) -> bool {
        match self.rest.strip_prefix(word) {
            Some(rest) => {
                self.rest = rest;
                true
            }
            None => false,
        }
    }

    fn take(&mut self, word: &str) -> Result<(), String> {
        if self.takes(word) {
            return Ok(());
        }
        let found: String = self.rest.chars().take(40).collect();
        Err(format!("{word} expected at: {found}"))
    }

    /// What stands before the first character that ends it.
    fn until(&mut self, ends: impl Fn(char) -> bool) -> &'a str {
        let end = self.rest.find(ends).unwrap_or(self.rest.len());
        let (before, rest) = self.rest.split_at(end);
        self.rest = rest;
        before
    }

    fn name(&mut self) -> Result<&'a str, String> {
        let name = self.until(|sign| !(sign.is_ascii_alphanumeric() || sign == '-'));
        if name.is_empty() {
            self.take("a name")?;
        }
        Ok(name)
    }

    fn attribute(&mut self) -> Result<(String, String), String> {
        let name = self.name()?.to_string();
        self.take("=\"")?;
        let value = unescaped(self.until(|sign| sign == '"' || sign == '<'))?;
        self.take("\"")?;
        Ok((name, value))
    }

    fn element(&mut self) -> Result<Element, String> {
        self.take("<")?;
        let name = self.name()?.to_string();
        let mut attributes: Vec<(String, String)> = Vec::new();
        while self.takes(" ") {
            let (key, value) = self.attribute()?;
            if attributes.iter().any(|(other, _)| *other == key) {
                return Err(format!("<{name}> with two of {key}"));
            }
            attributes.push((key, value));
        }
        let mut parts = Vec::new();
        if !self.takes("/>") {
            self.take(">")?;
            parts = self.parts()?;
            self.take(&format!("</{name}>"))?;
        }
        Ok(Element {
            name,
            attributes,
            parts,
        })
    }

    fn parts(&mut self) -> Result<Vec<Part>, String> {
        let mut parts = Vec::new();
        while !self.rest.starts_with("</") {
            if self.rest.starts_with('<') {
                parts.push(Part::Element(self.element()?));
            } else {
                let text = unescaped(self.until(|sign| sign == '<'))?;
                if text.is_empty() {
                    return Err("the picture ends in an element".to_string());
                }
                parts.push(Part::Text(text));
            }
        }
        Ok(parts)
    }
}

fn unescaped(text: &str) -> Result<String, String> {
    let mut pieces = text.split('&');
    let mut plain = pieces.next().unwrap_or_default().to_string();
    for piece in pieces {
        let (entity, rest) = piece.split_once(';').ok_or("& that begins no entity")?;
        plain.push(match entity {
            "gt" => '>',
            "lt" => '<',
            "amp" => '&',
            "quot" => '"',
            _ => return Err(format!("entity {entity}")),
        });
        plain += rest;
    }
    Ok(plain)
}

/// The only element of a text, which ends with a newline.
pub fn read_svg(text: &str) -> Result<Element, String> {
    let mut reader = Reader { rest: text };
    let root = reader.element()?;
    reader.take("\n")?;
    if !reader.rest.is_empty() {
        return Err("more than one element".to_string());
    }
    Ok(root)
}

#[cfg(test)]
mod tests {
    use super::*;

    #[test]
    fn elements_are_read_with_attributes_and_text() {
        let root = read_svg("<svg a=\"1\"><g class=\"x\">3 &gt; 1<b/></g> y</svg>\n").unwrap();
        assert_eq!(root.number("a"), Ok(1));
        assert_eq!(root.text(), "3 > 1 y");
        assert_eq!(root.of_class("x").count(), 1);
        assert_eq!(root.all().len(), 3);
        assert!(root.number("b").is_err());
    }

    #[test]
    fn what_is_not_well_formed_is_refused() {
        let texts = [
            "<svg>\n",
            "<svg></g>\n",
            "<svg><g></svg></g>\n",
            "<svg a=\"1\" a=\"2\"/>\n",
            "<svg a=1/>\n",
            "<svg a=\"<\"/>\n",
            "<svg>&nbsp;</svg>\n",
            "<svg>a & b</svg>\n",
            "<svg/>",
            "<svg/>\n<svg/>\n",
            "text\n",
            "",
        ];
        for text in texts {
            assert!(read_svg(text).is_err(), "{text}");
        }
    }
}
