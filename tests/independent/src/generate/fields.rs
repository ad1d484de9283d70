//! Finds the records and fields of undamaged bytes, so that damage can aim at each kind of field.

#[derive(Clone, Copy, Debug, PartialEq, Eq)]
pub struct Field {
    pub at: usize,
    pub width: usize,
    pub name: &'static str,
}

/// A record from its front to its body's end.
#[derive(Clone, Copy, Debug, PartialEq, Eq)]
pub struct Span {
    pub at: usize,
    pub end: usize,
}

/// The records as far as their lengths lead.
pub fn records(bytes: &[u8]) -> Vec<Span> {
    let mut records = Vec::new();
    let mut at = 0;
    while at + 4 <= bytes.len() {
        let end = at + 4 + u16::from_le_bytes([bytes[at], bytes[at + 1]]) as usize;
        if end > bytes.len() {
            break;
        }
        records.push(Span { at, end });
        at = end;
    }
    records
}

/// The fields of all records, as far as the bodies reach.
pub fn fields(bytes: &[u8]) -> Vec<Field> {
    let mut fields = Vec::new();
    for record in records(bytes) {
        let mut walk = Walk {
            bytes,
            at: record.at,
            end: record.end,
            fields: &mut fields,
        };
        walk.field("length", 2);
        match walk.field("kind", 2) {
            1 => walk.all(&[("n", 1), ("m", 1), ("subjects", 2), ("commands", 1)]),
            2 => walk.command(),
            4 | 8 => walk.all(&[("thing id", 2), ("thing type", 1)]),
            5 => walk.all(&[("cell row", 2), ("cell column", 2), ("cell rights", 8)]),
            6 => {
                walk.field("command", 1);
                for _ in 0..walk.field("ids", 1) {
                    walk.field("id", 2);
                }
            }
            7 => walk.all(&[("matrix n", 1), ("things", 1), ("highest", 2)]),
            _ => {}
        }
    }
    fields
}

/// The 4-byte tests and operations, as groups of the same command and kind.
pub fn quads(bytes: &[u8]) -> Vec<Vec<Span>> {
    let mut quads: Vec<Vec<Span>> = vec![Vec::new()];
    for Field { at, name, .. } in fields(bytes) {
        match name {
            "tests" | "operations" => quads.push(Vec::new()),
            "sense" | "create" | "destroy" | "enter or delete" => quads
                .last_mut()
                .expect("one is there")
                .push(Span { at, end: at + 4 }),
            _ => {}
        }
    }
    // An earlier damage may have cut the last one short.
    for group in &mut quads {
        group.retain(|quad| quad.end <= bytes.len());
    }
    quads.retain(|group| group.len() > 1);
    quads
}

struct Walk<'a> {
    bytes: &'a [u8],
    at: usize,
    end: usize,
    fields: &'a mut Vec<Field>,
}

impl Walk<'_> {
    /// Notes a field and gives its lowest byte; 0 where the body ends.
    fn field(&mut self, name: &'static str, width: usize) -> u8 {
        if self.at + width > self.end {
            return 0;
        }
        self.fields.push(Field {
            at: self.at,
            width,
            name,
        });
        self.at += width;
        self.bytes[self.at - width]
    }

    fn all(&mut self, names: &[(&'static str, usize)]) {
        for &(name, width) in names {
            self.field(name, width);
        }
    }

    fn command(&mut self) {
        for _ in 0..self.field("parameters", 1) {
            self.field("parameter type", 1);
        }
        for _ in 0..self.field("tests", 1) {
            self.all(&[
                ("sense", 1),
                ("test right", 1),
                ("test row", 1),
                ("test column", 1),
            ]);
        }
        for _ in 0..self.field("operations", 1) {
            match self.bytes.get(self.at) {
                Some(3) => self.all(&[
                    ("create", 1),
                    ("create right", 1),
                    ("create row", 1),
                    ("create column", 1),
                ]),
                Some(4) => self.all(&[
                    ("destroy", 1),
                    ("destroy right", 1),
                    ("destroy row", 1),
                    ("destroy column", 1),
                ]),
                _ => self.all(&[
                    ("enter or delete", 1),
                    ("operation right", 1),
                    ("operation row", 1),
                    ("operation column", 1),
                ]),
            }
        }
    }
}
