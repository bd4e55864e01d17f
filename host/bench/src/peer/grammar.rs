//! The grammar table: refusals 1 to 5.

use super::Refusal;

pub const MOST_NODES: usize = 256;
const MOST_CHILD_WORDS: usize = 1_024;

/// Checks the words of a grammar table.
pub fn check_grammar(words: &[u32]) -> Result<(), Refusal> {
    Grammar::of(words).map(drop)
}

/// A table that passed its check.
#[derive(Clone, Copy)]
pub struct Grammar<'a> {
    /// Kind, first and count of each node.
    nodes: &'a [[u32; 3]],
    child_words: &'a [u32],
}

impl<'a> Grammar<'a> {
    /// The table of these words, if it passes.
    pub fn of(words: &'a [u32]) -> Result<Grammar<'a>, Refusal> {
        let grammar = Grammar::split(words)?;
        for (k, &node) in grammar.nodes.iter().enumerate() {
            grammar.check_node(k, node)?;
            for (i, &child) in grammar.children(node).iter().enumerate() {
                let child = child as usize;
                if child <= k || child >= grammar.nodes.len() {
                    let first_child_word = 2 + 3 * grammar.nodes.len();
                    let word = first_child_word + node[1] as usize + i;
                    return Err(Refusal::at_word(5, word));
                }
            }
        }
        Ok(grammar)
    }

    /// The two sections of the words: refusal 1, then 2.
    pub fn split(words: &'a [u32]) -> Result<Grammar<'a>, Refusal> {
        let (&n, rest) = words.split_first().ok_or(Refusal::at_word(1, 0))?;
        let n = n as usize;
        if n == 0 || n > MOST_NODES {
            return Err(Refusal::at_word(1, 0));
        }
        let wrong_length = Refusal::at_word(2, 1 + 3 * n);
        let (nodes, rest) = rest.split_at_checked(3 * n).ok_or(wrong_length)?;
        let (&m, child_words) = rest.split_first().ok_or(wrong_length)?;
        let m = m as usize;
        if m > MOST_CHILD_WORDS || child_words.len() != m {
            return Err(wrong_length);
        }
        let (nodes, _) = nodes.as_chunks();
        Ok(Grammar { nodes, child_words })
    }

    /// Node k by itself: refusal 3, then 4.
    fn check_node(&self, k: usize, [kind, first, count]: [u32; 3]) -> Result<(), Refusal> {
        let kept = match kind {
            0..=2 | 5..=7 | 9 | 10 => first == 0 && count == 0,
            3 => count == 1,
            4 | 8 => true,
            _ => return Err(Refusal::at_word(3, 1 + 3 * k)),
        };
        if !kept || first as usize + count as usize > self.child_words.len() {
            return Err(Refusal::at_word(4, 2 + 3 * k));
        }
        Ok(())
    }

    /// N, the number of nodes.
    pub fn node_count(&self) -> usize {
        self.nodes.len()
    }

    /// Kind, first and count of node k, which is below N.
    pub fn node(&self, k: usize) -> [u32; 3] {
        self.nodes[k]
    }

    /// The child words of a node.
    pub fn children(&self, [_, first, count]: [u32; 3]) -> &'a [u32] {
        &self.child_words[first as usize..][..count as usize]
    }
}
