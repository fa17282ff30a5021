//! The XML streams, line by line.

/// The lines of an XML stream.
pub(crate) struct Xml(Vec<u8>);

impl Xml {
    pub(crate) fn start(root: &str, namespace: &str) -> Xml {
        let schemas = "http://schemas.openxmlformats.org/package/2006";
        let declaration = "<?xml version=\"1.0\" encoding=\"UTF-8\"?>";
        let root = format!("<{root} xmlns=\"{schemas}/{namespace}\">");
        Xml(format!("{declaration}\n{root}\n").into_bytes())
    }

    pub(crate) fn entry(&mut self, element: &str, fields: &[(&str, &[u8])]) {
        self.text("<");
        self.text(element);
        for (name, value) in fields {
            self.text(" ");
            self.text(name);
            self.text("=\"");
            self.value(value);
            self.text("\"");
        }
        self.text("/>\n");
    }

    fn text(&mut self, text: &str) {
        self.0.extend_from_slice(text.as_bytes());
    }

    fn value(&mut self, value: &[u8]) {
        for &byte in value {
            match byte {
                b'&' => self.text("&amp;"),
                _ => self.0.push(byte),
            }
        }
    }

    pub(crate) fn end(mut self, root: &str) -> Vec<u8> {
        self.text(&format!("</{root}>\n"));
        self.0
    }
}
