//! Elements as a tree in which any tag, any length and any content can be spoilt, and everything around it still fits.

use paper::tlv::write_length;

#[derive(Clone)]
pub struct Tree {
    pub tag: Vec<u8>,
    pub length: Length,
    pub held: Held,
    /// Octets in the content behind the elements that it holds.
    pub over: Vec<u8>,
}

#[derive(Clone)]
pub enum Held {
    Octets(Vec<u8>),
    Trees(Vec<Tree>),
}

/// How the length is written.
#[derive(Clone, Copy)]
pub enum Length {
    Shortest,
    /// In so many octets behind one that says how many, whether or not fewer would do.
    Octets(usize),
    /// 80, which says that the content ends itself.
    Indefinite,
    /// The shortest form of a length that is more or less by so many.
    Off(isize),
    /// Neither tag nor length: all that is lent.
    None,
}

impl Tree {
    pub fn leaf(tag: &[u8], octets: &[u8]) -> Tree {
        Tree { tag: tag.to_vec(), length: Length::Shortest, held: Held::Octets(octets.to_vec()), over: Vec::new() }
    }

    pub fn holding(tag: &[u8], trees: Vec<Tree>) -> Tree {
        Tree { tag: tag.to_vec(), length: Length::Shortest, held: Held::Trees(trees), over: Vec::new() }
    }

    pub fn encoded(&self) -> Vec<u8> {
        let content = self.content();
        [self.head(content.len()), content].concat()
    }

    /// Tag and length, of a content of so many octets.
    fn head(&self, content: usize) -> Vec<u8> {
        let length = match self.length {
            Length::Shortest => write_length(content),
            Length::Octets(width) => [&[0x80 | width as u8], &(content as u64).to_be_bytes()[8 - width..]].concat(),
            Length::Indefinite => vec![0x80],
            Length::Off(by) => write_length((content as isize + by).clamp(0, 0xffff) as usize),
            Length::None => return Vec::new(),
        };
        [&self.tag[..], &length].concat()
    }

    fn content(&self) -> Vec<u8> {
        [self.inside(), self.over.clone()].concat()
    }

    /// The content without what stands behind the elements.
    fn inside(&self) -> Vec<u8> {
        match &self.held {
            Held::Octets(octets) => octets.clone(),
            Held::Trees(trees) => trees.iter().flat_map(Tree::encoded).collect(),
        }
    }

    /// Where the tree at the end of a path begins in the octets of this one, and where what it holds ends.
    pub fn stands(&self, path: &[usize]) -> Option<(usize, usize)> {
        let start = self.head(self.content().len()).len();
        let (first, rest) = match path.split_first() {
            Some(split) => split,
            None => return Some((0, start + self.inside().len())),
        };
        let (begins, ends) = self.trees().get(*first)?.stands(rest)?;
        let before = start + self.trees()[..*first].iter().map(|tree| tree.encoded().len()).sum::<usize>();
        Some((before + begins, before + ends))
    }

    /// The paths to all trees, this one's first, which is empty.
    pub fn paths(&self) -> Vec<Vec<usize>> {
        let below = |(place, tree): (usize, &Tree)| {
            tree.paths().into_iter().map(move |path| [vec![place], path].concat()).collect::<Vec<_>>()
        };
        [vec![]].into_iter().chain(self.trees().iter().enumerate().flat_map(below)).collect()
    }

    /// What this tree holds; nothing where it holds octets.
    pub fn trees(&self) -> &[Tree] {
        match &self.held {
            Held::Octets(_) => &[],
            Held::Trees(trees) => trees,
        }
    }

    pub fn trees_mut(&mut self) -> Option<&mut Vec<Tree>> {
        match &mut self.held {
            Held::Octets(_) => None,
            Held::Trees(trees) => Some(trees),
        }
    }

    pub fn octets_mut(&mut self) -> Option<&mut Vec<u8>> {
        match &mut self.held {
            Held::Octets(octets) => Some(octets),
            Held::Trees(_) => None,
        }
    }

    /// The tree at the end of a path of places, each in what the one before holds. None where other damage took it away.
    pub fn at(&mut self, path: &[usize]) -> Option<&mut Tree> {
        path.iter().try_fold(self, |tree, place| tree.trees_mut()?.get_mut(*place))
    }

    /// How many trees this is, with itself.
    pub fn count(&self) -> usize {
        1 + self.trees().iter().map(Tree::count).sum::<usize>()
    }

    /// One of them by its number, itself being 0.
    pub fn nth(&mut self, number: usize) -> &mut Tree {
        if number == 0 {
            return self;
        }
        let mut left = number - 1;
        // Found by place first, so that only one branch is borrowed.
        let counts: Vec<usize> = self.trees().iter().map(Tree::count).collect();
        for (place, count) in counts.into_iter().enumerate() {
            if left < count {
                return self.trees_mut().unwrap()[place].nth(left);
            }
            left -= count;
        }
        panic!("a number under the count")
    }
}

#[cfg(test)]
mod tests {
    use super::*;

    fn tree() -> Tree {
        Tree::holding(&[0x30], vec![Tree::leaf(&[0x02], &[1]), Tree::leaf(&[0x5f, 0x1f], &[7, 8])])
    }

    #[test]
    fn encodings() {
        assert_eq!(tree().encoded(), [0x30, 8, 0x02, 1, 1, 0x5f, 0x1f, 2, 7, 8]);
        let with = |length| Tree { length, ..Tree::leaf(&[0x04], &[9]) }.encoded();
        assert_eq!(with(Length::Octets(1)), [0x04, 0x81, 1, 9]);
        assert_eq!(with(Length::Octets(3)), [0x04, 0x83, 0, 0, 1, 9]);
        assert_eq!(with(Length::Indefinite), [0x04, 0x80, 9]);
        assert_eq!(with(Length::Off(1)), [0x04, 2, 9]);
        assert_eq!(with(Length::None), [9]);
    }

    #[test]
    fn where_trees_stand() {
        let mut tree = Tree::holding(&[0x61], vec![Tree::leaf(&[0x02], &[1]), tree()]);
        tree.trees_mut().unwrap()[1].over = vec![7];
        assert_eq!(tree.paths(), [vec![], vec![0], vec![1], vec![1, 0], vec![1, 1]]);
        let stands: Vec<_> = tree.paths().iter().map(|path| tree.stands(path).unwrap()).collect();
        assert_eq!(stands, [(0, 16), (2, 5), (5, 15), (7, 10), (10, 15)]);
        assert_eq!(tree.stands(&[2]), None);
    }

    #[test]
    fn trees_by_number_and_by_path() {
        let mut tree = tree();
        assert_eq!(tree.count(), 3);
        assert_eq!(tree.nth(2).tag, [0x5f, 0x1f]);
        assert_eq!(tree.at(&[0]).unwrap().tag, [0x02]);
        assert!(tree.at(&[0, 0]).is_none() && tree.at(&[2]).is_none());
    }
}
