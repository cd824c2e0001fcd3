// A graph as lists of vertices, and its form as offsets and targets.
use crate::random::Random;

#[derive(Clone)]
pub struct Lists(pub Vec<Vec<u32>>);

impl Lists {
    pub fn empty(n: usize) -> Self {
        Lists(vec![Vec::new(); n])
    }

    // The lists that a text names, in the form that `text` gives.
    pub fn read(text: &str) -> Self {
        let list = |one: &str| {
            let (_, entries) = one.split_once(':').expect("a vertex and its list");
            entries.split(',').filter_map(|x| x.parse().ok()).collect()
        };
        Lists(text.split("; ").map(list).collect())
    }

    // The edge between u and v: an entry in each list, and for u = v one entry.
    pub fn join(&mut self, u: usize, v: usize) {
        self.0[u].push(v as u32);
        if u != v {
            self.0[v].push(u as u32);
        }
    }

    pub fn of_edges(n: usize, edges: &[(usize, usize)]) -> Self {
        let mut lists = Lists::empty(n);
        for &(u, v) in edges {
            lists.join(u, v);
        }
        lists
    }

    pub fn vertices(&self) -> usize {
        self.0.len()
    }

    pub fn entries(&self) -> usize {
        self.0.iter().map(Vec::len).sum()
    }

    pub fn offsets(&self) -> Vec<u32> {
        let mut offsets = vec![0];
        let mut end = 0;
        for list in &self.0 {
            end += list.len() as u32;
            offsets.push(end);
        }
        offsets
    }

    pub fn targets(&self) -> Vec<u32> {
        self.0.concat()
    }

    pub fn turned(&self) -> Self {
        let backwards = |list: &Vec<u32>| list.iter().rev().copied().collect();
        Lists(self.0.iter().map(backwards).collect())
    }

    pub fn shuffled(mut self, random: &mut Random) -> Self {
        for list in &mut self.0 {
            random.shuffle(list);
        }
        self
    }

    // Whether each v stands in u's list as often as u in v's, by counting all pairs.
    pub fn symmetric(&self) -> bool {
        let n = self.vertices();
        let count = |u: usize, v: usize| self.0[u].iter().filter(|&&x| x as usize == v).count();
        (0..n).all(|u| (0..u).all(|v| count(u, v) == count(v, u)))
    }

    // The lists as text, as `0:1,2; 1:0; 2:0`.
    pub fn text(&self) -> String {
        let one = |(u, list): (usize, &Vec<u32>)| {
            let entries: Vec<String> = list.iter().map(u32::to_string).collect();
            format!("{u}:{}", entries.join(","))
        };
        let lists: Vec<String> = self.0.iter().take(12).enumerate().map(one).collect();
        let more = if self.vertices() > 12 { "; .." } else { "" };
        lists.join("; ") + more
    }
}
