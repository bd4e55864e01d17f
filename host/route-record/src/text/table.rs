//! The nodes of a grammar and the words of its table.

use crate::{Kind, Place};

/// A node: its kind, and where its children are in the list of nodes.
pub struct Node {
    pub kind: &'static Kind,
    pub children: Vec<usize>,
}

/// The nodes of a grammar, none of which is below itself.
pub struct Nodes {
    pub list: Vec<Node>,
    /// Where the root is in the list.
    pub root: usize,
}

impl Nodes {
    /// The words of the table. A count that no word holds is given as the largest word: the check
    /// of the table refuses both.
    pub fn words(&self) -> Vec<u32> {
        let order = self.order();
        let mut numbers = vec![0; self.list.len()];
        for (number, &place) in order.iter().enumerate() {
            numbers[place] = to_word(number);
        }
        let mut words = vec![to_word(order.len())];
        let mut child_words = Vec::new();
        for &place in &order {
            let Node { kind, children } = &self.list[place];
            let first = match children.len() {
                0 => 0,
                _ => child_words.len(),
            };
            words.extend([kind.number, to_word(first), to_word(children.len())]);
            child_words.extend(children.iter().map(|&child| numbers[child]));
        }
        words.push(to_word(child_words.len()));
        words.extend(child_words);
        words
    }

    /// The places of the nodes that the root reaches, in the order of their numbers: a depth-first
    /// walk that takes the children from the last, in the reverse of the order in which it leaves
    /// the nodes. So a node comes before its children, and nodes used once in the order of the
    /// text. The walk keeps its own stack: the nodes may lie deeper than calls can.
    fn order(&self) -> Vec<usize> {
        let mut order = Vec::new();
        let mut entered = vec![false; self.list.len()];
        entered[self.root] = true;
        let mut stack = vec![(self.root, self.list[self.root].children.len())];
        while let Some((place, left)) = stack.pop() {
            if left == 0 {
                order.push(place);
                continue;
            }
            stack.push((place, left - 1));
            let child = self.list[place].children[left - 1];
            if !entered[child] {
                entered[child] = true;
                stack.push((child, self.list[child].children.len()));
            }
        }
        order.reverse();
        order
    }
}

fn to_word(count: usize) -> u32 {
    u32::try_from(count).unwrap_or(u32::MAX)
}

/// What stands at this place of a grammar table; of a word of a node, all that its rule speaks of.
pub fn describe(words: &[u32], place: Place) -> String {
    let Place::Word(place) = place else {
        return place.to_string();
    };
    let content = |place| {
        let word = usize::try_from(place).ok().and_then(|at| words.get(at));
        word.map_or("missing".to_string(), u32::to_string)
    };
    let nodes_end = 3 * u64::from(words.first().copied().unwrap_or(0));
    let meaning = match place {
        0 => format!("the node count: {}", content(0)),
        _ if place <= nodes_end => {
            let (node, part) = ((place - 1) / 3, (place - 1) % 3);
            let part = ["kind", "first", "count"][part as usize];
            let [kind, first, count] = [1, 2, 3].map(|word| content(3 * node + word));
            let child_words = content(nodes_end + 1);
            format!(
                "the {part} of node {node}: kind {kind}, first {first}, count {count}; child words \
                 {child_words}"
            )
        }
        _ if place == nodes_end + 1 => format!("the count of child words: {}", content(place)),
        _ => format!("child word {}: {}", place - nodes_end - 2, content(place)),
    };
    format!("word {place} is {meaning} (table length {})", words.len())
}
