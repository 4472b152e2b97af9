//! Definition 5: a response as a tree, read from its tokens and written as tokens.

/// The most tokens of a response that is judged.
const MOST_TOKENS: usize = 16_384;

/// The most `{` that are open at once.
const MOST_OPEN: usize = 16;

/// A sequence of fields: a whole response, or what stands in an object.
pub type Fields = Vec<Field>;

#[derive(Clone, Debug, PartialEq)]
pub struct Field {
    pub label: u32,
    pub content: Content,
}

/// `[ ]` is read as a list of no objects. Read as a list of no values it would be the same: what has nothing in it has nothing to
/// strike out, and nothing but `[ ]` can become of it.
#[derive(Clone, Debug, PartialEq)]
pub enum Content {
    Value(u32),
    Null,
    /// At least one value.
    Values(Vec<u32>),
    Object(Fields),
    Objects(Vec<Fields>),
}

/// What a number stands for; every other number is no token.
#[derive(Clone, Copy, PartialEq)]
enum Token {
    Value(u32),
    Label(u32),
    OpenObject,
    CloseObject,
    OpenList,
    CloseList,
    Null,
}

impl Token {
    fn from_number(number: u32) -> Option<Token> {
        match number {
            0..=999_999_999 => Some(Token::Value(number)),
            1_000_000_000..=1_000_000_255 => Some(Token::Label(number - 1_000_000_000)),
            2_000_000_001 => Some(Token::OpenObject),
            2_000_000_002 => Some(Token::CloseObject),
            2_000_000_003 => Some(Token::OpenList),
            2_000_000_004 => Some(Token::CloseList),
            2_000_000_005 => Some(Token::Null),
            _ => None,
        }
    }
}

/// The tree of a sequence of numbers; nothing where they are no response.
pub fn read(numbers: &[u32]) -> Option<Fields> {
    if numbers.len() > MOST_TOKENS {
        return None;
    }
    let tokens: Option<Vec<Token>> = numbers.iter().map(|number| Token::from_number(*number)).collect();
    let mut reader = Reader { rest: &tokens?, open: 0 };
    let fields = reader.fields()?;
    reader.rest.is_empty().then_some(fields)
}

/// The tokens that are still to be read, and how many `{` are open.
struct Reader<'a> {
    rest: &'a [Token],
    open: usize,
}

impl Reader<'_> {
    fn next(&mut self) -> Option<Token> {
        let (first, rest) = self.rest.split_first()?;
        self.rest = rest;
        Some(*first)
    }

    /// As many fields as there are.
    fn fields(&mut self) -> Option<Fields> {
        let mut fields = Fields::new();
        while let Some(Token::Label(label)) = self.rest.first() {
            let label = *label;
            self.next();
            fields.push(Field { label, content: self.content()? });
        }
        Some(fields)
    }

    fn content(&mut self) -> Option<Content> {
        match self.next()? {
            Token::Value(value) => Some(Content::Value(value)),
            Token::Null => Some(Content::Null),
            Token::OpenObject => self.object().map(Content::Object),
            Token::OpenList => match self.rest.first()? {
                Token::Value(_) => self.values().map(Content::Values),
                _ => self.objects().map(Content::Objects),
            },
            _ => None,
        }
    }

    /// The fields of an object and its `}`; its `{` is already read.
    fn object(&mut self) -> Option<Fields> {
        self.open += 1;
        if self.open > MOST_OPEN {
            return None;
        }
        let fields = self.fields()?;
        self.open -= 1;
        (self.next()? == Token::CloseObject).then_some(fields)
    }

    /// Values up to `]`.
    fn values(&mut self) -> Option<Vec<u32>> {
        let mut values = Vec::new();
        loop {
            match self.next()? {
                Token::Value(value) => values.push(value),
                Token::CloseList => return Some(values),
                _ => return None,
            }
        }
    }

    /// Objects up to `]`.
    fn objects(&mut self) -> Option<Vec<Fields>> {
        let mut objects = Vec::new();
        loop {
            match self.next()? {
                Token::OpenObject => objects.push(self.object()?),
                Token::CloseList => return Some(objects),
                _ => return None,
            }
        }
    }
}

/// The tokens of a tree.
pub fn write(fields: &Fields) -> Vec<u32> {
    let mut numbers = Vec::new();
    write_fields(fields, &mut numbers);
    numbers
}

fn write_fields(fields: &Fields, to: &mut Vec<u32>) {
    for Field { label, content } in fields {
        to.push(1_000_000_000 + label);
        match content {
            Content::Value(value) => to.push(*value),
            Content::Null => to.push(2_000_000_005),
            Content::Values(values) => between(2_000_000_003, 2_000_000_004, to, |to| to.extend(values)),
            Content::Object(fields) => write_object(fields, to),
            Content::Objects(objects) => between(2_000_000_003, 2_000_000_004, to, |to| {
                objects.iter().for_each(|fields| write_object(fields, to));
            }),
        }
    }
}

fn write_object(fields: &Fields, to: &mut Vec<u32>) {
    between(2_000_000_001, 2_000_000_002, to, |to| write_fields(fields, to));
}

fn between(open: u32, close: u32, to: &mut Vec<u32>, inside: impl FnOnce(&mut Vec<u32>)) {
    to.push(open);
    inside(to);
    to.push(close);
}
