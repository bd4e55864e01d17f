//! The text form of a grammar: definitions `name = type`, then the root type.

use std::collections::HashMap;

use super::error::{Position, TextError};
use super::table::{Node, Nodes};
use super::token::{Token, Tokens};
use crate::{Class, Kind, KINDS};

impl Kind {
    /// The fewest and the most children of the kind's types.
    fn child_counts(&self) -> (usize, usize) {
        match self.class {
            Class::Array => (1, 1),
            Class::Tuple | Class::Union => (0, usize::MAX),
            _ => (0, 0),
        }
    }

    /// How a type of the kind is written in a grammar's text, `T` for a child.
    ///
    /// ```
    /// use route_record::{Kind, KINDS};
    ///
    /// assert_eq!(KINDS[Kind::UINT32 as usize].form(), "u32");
    /// assert_eq!(KINDS[Kind::TUPLE as usize].form(), "tuple(T, ..)");
    /// ```
    pub fn form(&self) -> String {
        let children = match self.child_counts() {
            (_, 0) => "",
            (_, 1) => "(T)",
            _ => "(T, ..)",
        };
        format!("{}{children}", self.text)
    }
}

fn kind_of(text: &str) -> Option<&'static Kind> {
    KINDS.iter().find(|kind| kind.text == text)
}

/// The nodes of the grammar that these tokens give. The root reaches all of them, since each
/// definition is used by an item behind it.
pub fn parse(tokens: Tokens) -> Result<Nodes, TextError> {
    let mut parser = Parser {
        tokens,
        nodes: Vec::new(),
        definitions: HashMap::new(),
    };
    while parser.is_definition() {
        parser.parse_definition()?;
    }
    let root = parser.parse_type()?;
    let rest = parser.tokens.take();
    if !rest.is_end() {
        return Err(rest.unexpected("the end of the text"));
    }
    parser.check_uses()?;
    Ok(Nodes {
        list: parser.nodes,
        root,
    })
}

/// A name: where it is defined, its node, and whether it was used.
struct Definition {
    position: Position,
    node: usize,
    used: bool,
}

/// The beginning of a type.
enum Beginning {
    /// It is the whole type, that of this node.
    Whole(usize),
    /// The children and `)` are still to come.
    Open(Node),
}

struct Parser<'a> {
    tokens: Tokens<'a>,
    nodes: Vec<Node>,
    definitions: HashMap<&'a str, Definition>,
}

impl<'a> Parser<'a> {
    fn is_definition(&self) -> bool {
        matches!(self.tokens.ahead(), [name, sign, ..] if name.is_name() && sign.text == "=")
    }

    /// Reads `name = type`, and a `;` if there is one.
    fn parse_definition(&mut self) -> Result<(), TextError> {
        let name = self.tokens.take();
        if kind_of(name.text).is_some() {
            return Err(name.unexpected("a name that is no kind"));
        }
        if let Some(earlier) = self.definitions.get(name.text) {
            let expected = format!("a name other than that of {}", earlier.position);
            return Err(name.unexpected(&expected));
        }
        self.tokens.expect("=")?;
        let definition = Definition {
            position: name.position,
            node: self.parse_type()?,
            used: false,
        };
        self.definitions.insert(name.text, definition);
        self.tokens.take_if(";");
        Ok(())
    }

    /// Reads a type and gives its node. Types whose `)` is still to come wait in a list, so a text
    /// may be nested deeper than calls can.
    fn parse_type(&mut self) -> Result<usize, TextError> {
        let mut open: Vec<Node> = Vec::new();
        loop {
            let mut whole = match self.parse_beginning()? {
                Beginning::Whole(node) => node,
                Beginning::Open(node) => {
                    open.push(node);
                    continue;
                }
            };
            loop {
                let Some(mut parent) = open.pop() else {
                    return Ok(whole);
                };
                parent.children.push(whole);
                if self.child_follows(parent.kind)? {
                    open.push(parent);
                    break;
                }
                whole = self.add(parent);
            }
        }
    }

    /// Reads a name, a kind without children, `kind()`, or `kind(` before the first child.
    fn parse_beginning(&mut self) -> Result<Beginning, TextError> {
        let token = self.tokens.take();
        let Some(kind) = kind_of(token.text) else {
            return Ok(Beginning::Whole(self.use_name(token)?));
        };
        let node = Node {
            kind,
            children: Vec::new(),
        };
        let (fewest, most) = kind.child_counts();
        let is_whole = most == 0 || {
            self.tokens.expect("(")?;
            fewest == 0 && self.tokens.take_if(")")
        };
        Ok(match is_whole {
            true => Beginning::Whole(self.add(node)),
            false => Beginning::Open(node),
        })
    }

    /// Reads what stands behind a child: `)`, or `,` where a further one may follow.
    fn child_follows(&mut self, parent: &Kind) -> Result<bool, TextError> {
        let token = self.tokens.take();
        match (token.text, parent.child_counts()) {
            (")", _) => Ok(false),
            (_, (_, 1)) => Err(token.unexpected("')'")),
            (",", _) => Ok(true),
            _ => Err(token.unexpected("')' or ','")),
        }
    }

    fn use_name(&mut self, name: Token) -> Result<usize, TextError> {
        let Some(definition) = self.definitions.get_mut(name.text) else {
            return Err(name.unexpected("a kind or a name defined before"));
        };
        definition.used = true;
        Ok(definition.node)
    }

    fn add(&mut self, node: Node) -> usize {
        self.nodes.push(node);
        self.nodes.len() - 1
    }

    /// Every definition was used; the first that was not is the error.
    fn check_uses(&self) -> Result<(), TextError> {
        let unused = self.definitions.iter().filter(|(_, of)| !of.used);
        match unused.min_by_key(|(_, of)| of.position) {
            None => Ok(()),
            Some((name, of)) => Err(TextError {
                position: of.position,
                expected: format!("a use of '{name}' behind its definition"),
                found: "none".to_string(),
            }),
        }
    }
}
