// A list for a replay program: records of a tag, a length in two bytes and so many bytes of content.
// Numbers stand with their highest byte first. A record of tag 0 ends a kind of cases and names it.
pub struct List {
    // the most bytes of content: the replay program's buffer
    most: usize,
    bytes: Vec<u8>,
    count: usize,
    counts: String,
}

impl List {
    pub fn new(most: usize) -> Self {
        Self { most, bytes: Vec::new(), count: 0, counts: String::new() }
    }

    pub fn case(&mut self, tag: u8, content: &[u8]) {
        self.record(tag, content);
        self.count += 1;
    }

    pub fn end_of_kind(&mut self, name: &str) {
        self.record(0, name.as_bytes());
        self.counts += &format!("{name} {}\n", self.count);
        self.count = 0;
    }

    fn record(&mut self, tag: u8, content: &[u8]) {
        assert!(content.len() <= self.most, "a record must fit the replay program's buffer");
        self.bytes.push(tag);
        self.bytes.extend((content.len() as u16).to_be_bytes());
        self.bytes.extend(content);
    }

    pub fn bytes(&self) -> &[u8] {
        &self.bytes
    }

    // What the replay program is to print.
    pub fn expected(&self) -> String {
        format!("{}different 0\n", self.counts)
    }
}

// A number among others: a byte below 255, or 255 and four bytes.
pub fn put_number(content: &mut Vec<u8>, n: u32) {
    if n < 255 {
        content.push(n as u8);
    } else {
        content.push(255);
        content.extend(n.to_be_bytes());
    }
}
