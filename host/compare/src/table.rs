//! Random grammar tables: sound ones, and faults in their words or in their number.

use crate::Random;

/// The kinds, those with children more often than the others.
const KINDS: [u32; 16] = [0, 1, 2, 5, 6, 7, 9, 10, 3, 3, 4, 4, 4, 8, 8, 8];

/// A grammar table.
#[derive(Clone)]
pub struct Table {
    /// Kind, first and count of each node.
    pub nodes: Vec<[u32; 3]>,
    /// The child words.
    pub children: Vec<u32>,
}

impl Table {
    /// A random table of `n` nodes and `m` child words, sound if these counts are within their
    /// limits. Nodes share child words; child words of no node hold anything.
    pub fn sound(random: &mut Random, n: usize, m: usize) -> Table {
        let mut nodes = vec![[0; 3]; n];
        let mut children = vec![None; m];
        // From the last node to the root: a child of a later node is also above this one.
        for k in (0..n).rev() {
            let most = if k + 1 < n { m } else { 0 };
            let kind = random.pick(&KINDS);
            let count = match kind {
                3 => 1,
                4 | 8 if random.below(8) == 0 => random.within(0..=most),
                4 | 8 => random.within(0..=most.min(4)),
                _ => 0,
            };
            if count > most {
                continue; // a constant in place of an array, which cannot have its child
            }
            let first = match kind {
                3 | 4 | 8 => random.within(0..=m - count),
                _ => 0,
            };
            nodes[k] = [kind, first as u32, count as u32];
            for child in &mut children[first..first + count] {
                child.get_or_insert_with(|| random.within(k + 1..=n - 1) as u32);
            }
        }
        let children = children.into_iter();
        let children = children.map(|child| child.unwrap_or_else(|| random.number() as u32));
        Table {
            nodes,
            children: children.collect(),
        }
    }

    /// A random sound table, small or large, with shared children, empty unions and empty tuples.
    pub fn any(random: &mut Random) -> Table {
        let most_nodes = random.pick(&[1, 2, 3, 8, 20, 256]);
        let most_child_words = random.pick(&[1, 4, 16, 64, 1_024]);
        let n = random.within(1..=most_nodes);
        let m = random.within(0..=most_child_words);
        Table::sound(random, n, m)
    }

    /// A table whose root is a tuple of 1 to 4 of this one's nodes, in half of the draws with its
    /// root first. It has a node more, and as many child words more as the tuple has fields.
    pub fn in_a_tuple(self, random: &mut Random) -> Table {
        let n = self.nodes.len();
        let count = random.within(1..=4);
        let first = random.below(n);
        let mut fields = vec![random.pick(&[0, first])];
        fields.extend((1..count).map(|_| random.below(n)));
        self.below(4, &fields)
    }

    /// A table whose root is of this kind and has these nodes of this one as its children. It has a
    /// node more, and as many child words more as there are children.
    pub fn below(self, kind: u32, of_root: &[usize]) -> Table {
        let root = [kind, self.children.len() as u32, of_root.len() as u32];
        // Each node's number is one more. Child words of no node hold anything.
        let children = self.children.into_iter();
        let mut children: Vec<u32> = children.map(|child| child.wrapping_add(1)).collect();
        children.extend(of_root.iter().map(|&child| child as u32 + 1));
        Table {
            nodes: [vec![root], self.nodes].concat(),
            children,
        }
    }

    /// The table's words.
    pub fn words(&self) -> Vec<u32> {
        let (n, m) = (self.nodes.len() as u32, self.children.len() as u32);
        [&[n], self.nodes.concat().as_slice(), &[m], &self.children].concat()
    }

    /// Changes one of the table's words to a limit or to a number next to one.
    pub fn damage(&self, random: &mut Random, words: &mut [u32]) {
        let (n, m) = (self.nodes.len(), self.children.len());
        let k = random.below(n);
        let [_, first, count] = self.nodes[k].map(|word| word as usize);
        let at = match random.below(8) {
            0 => 0,
            1 => 1 + 3 * k,
            2 => 2 + 3 * k,
            3 => 3 + 3 * k,
            4 => 1 + 3 * n,
            _ if count > 0 => 2 + 3 * n + first + random.below(count),
            _ => 1 + 3 * n + random.within(0..=m),
        };
        let old = words[at];
        let own = [k as u32, n as u32, m as u32, old];
        let limits = [&[0, 10, 256, 1_024, 1 << 31], &own[..]].concat();
        while words[at] == old {
            words[at] = random.pick(&limits);
            words[at] = words[at].wrapping_add(random.pick(&[0, 1, u32::MAX]));
        }
    }

    /// Leaves out the last words, often all behind the end of a section.
    pub fn truncate(&self, random: &mut Random, words: &mut Vec<u32>) {
        let nodes_end = 1 + 3 * self.nodes.len();
        let section_end = random.pick(&[1, nodes_end, nodes_end + 1, words.len()]);
        words.truncate(random.within(0..=section_end).min(words.len() - 1));
    }

    /// Puts a few words behind the others.
    pub fn extend(random: &mut Random, words: &mut Vec<u32>) {
        for _ in 0..random.within(1..=4) {
            words.push(random.number() as u32 % 3);
        }
    }
}

/// A table of these nodes and child words.
pub fn table(nodes: &[[u32; 3]], children: &[u32]) -> Vec<u32> {
    let (n, m) = (nodes.len() as u32, children.len() as u32);
    [&[n], nodes.concat().as_slice(), &[m], children].concat()
}

/// The list of these grammars: their count, and each behind its word count.
pub fn grammar_list(grammars: &[impl AsRef<[u32]>]) -> Vec<u32> {
    let mut list = vec![grammars.len() as u32];
    for grammar in grammars.iter().map(AsRef::as_ref) {
        list.push(grammar.len() as u32);
        list.extend(grammar);
    }
    list
}

/// The grammars of a list whose length is that of its counts.
pub fn grammars_of(list: &[u32]) -> Option<Vec<Vec<u32>>> {
    let (&count, mut rest) = list.split_first()?;
    let mut grammars = Vec::new();
    for _ in 0..count {
        let (&length, behind) = rest.split_first()?;
        let (grammar, behind) = behind.split_at_checked(length as usize)?;
        grammars.push(grammar.to_vec());
        rest = behind;
    }
    rest.is_empty().then_some(grammars)
}

/// The kind of a sound table's root and, if it is a tuple with at least one field, that of the
/// first.
pub fn root_kinds(words: &[u32]) -> (u32, Option<u32>) {
    let (n, kind, first, count) = (words[0], words[1], words[2], words[3]);
    let field = (kind == 4 && count > 0).then(|| {
        let node = words[(2 + 3 * n + first) as usize];
        words[(1 + 3 * node) as usize]
    });
    (kind, field)
}

/// A table of one node without children.
pub fn leaf(kind: u32) -> Vec<u32> {
    table(&[[kind, 0, 0]], &[])
}

/// The words of 256 nodes, each but the last of this kind with the next as its one child, and a
/// uint32.
pub fn chain(kind: u32) -> Vec<u32> {
    let parents = (0..255).flat_map(|k| [kind, k, 1]);
    let nodes = parents.chain([1, 0, 0]);
    let children = 1..256;
    let words = [256].into_iter().chain(nodes).chain([255]);
    words.chain(children).collect()
}

/// The words of 256 nodes: a tuple of the second and the last, and the others, each but the last of
/// this kind with the next as its one child, and a uint32.
pub fn chain_and_number(kind: u32) -> Vec<u32> {
    let parents = (1..255).map(|k| [kind, k + 1, 1]);
    let nodes: Vec<[u32; 3]> = [[4, 0, 2]]
        .into_iter()
        .chain(parents)
        .chain([[1, 0, 0]])
        .collect();
    let children: Vec<u32> = [1, 255].into_iter().chain(2..256).collect();
    table(&nodes, &children)
}

/// The words of so many nodes, at least one: each but the last a tuple of the next one twice, and the
/// last of this kind. Its tree has 2 to the power of one less leaves.
pub fn doubling(nodes: u32, kind: u32) -> Vec<u32> {
    let parents = (1..nodes).map(|k| [4, 2 * k - 2, 2]);
    let children: Vec<u32> = (1..nodes).flat_map(|k| [k, k]).collect();
    let nodes: Vec<[u32; 3]> = parents.chain([[kind, 0, 0]]).collect();
    table(&nodes, &children)
}

/// A table whose values have this many bytes, a multiple of 4. The root is a tuple; of each node behind
/// it the values are twice as long as those of the next one, and the last is a uint32.
pub fn of_length(bytes: u32) -> Table {
    let numbers = bytes / 4;
    let bits = u32::BITS - numbers.leading_zeros();
    let fields: Vec<u32> = (1..=bits)
        .filter(|node| numbers >> (bits - node) & 1 == 1)
        .collect();
    let count = fields.len() as u32;
    let mut nodes = vec![[4, 0, count]];
    nodes.extend((1..bits).map(|node| [4, count + 2 * (node - 1), 2]));
    nodes.extend((bits > 0).then_some([1, 0, 0]));
    let doubled = (2..=bits).flat_map(|node| [node, node]);
    let children = fields.into_iter().chain(doubled).collect();
    Table { nodes, children }
}
