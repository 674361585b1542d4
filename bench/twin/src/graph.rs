//! The slots of a lawful image as walks go along them.

use crate::image::Instruction;
use crate::opcode::Kind;
use crate::price::PriceModel;

#[derive(Clone, Copy, Debug, PartialEq, Eq)]
pub(crate) enum Role {
    /// Walks end here, and another starts at the next slot.
    Save,
    /// Walks end here.
    Exit,
    /// A jump to the next slot, which may become a save.
    Idle,
    Other,
}

#[derive(Clone, Copy, Debug)]
struct Node {
    role: Role,
    price: u32,
    /// Where a walk goes on to: two ways, which are the same where there is one.
    onward: Option<[u16; 2]>,
}

/// How far a search of the walks came.
#[derive(Clone, Copy, Debug, PartialEq, Eq)]
pub(crate) enum Found {
    /// Every walk ends, and none costs more than the limit.
    Within,
    /// A walk costs more than the limit.
    Over,
    /// A walk holds a slot twice.
    Loop,
}

pub(crate) struct Graph {
    nodes: Vec<Node>,
    idle_price: u32,
    dearest: u32,
}

impl Graph {
    pub fn new<M: PriceModel + ?Sized>(instructions: &[Instruction], model: &M) -> Graph {
        let dearest = model.dearest();
        let nodes = instructions
            .iter()
            .enumerate()
            .map(|(slot, instruction)| Node::new(slot, instruction, model, dearest))
            .collect();
        Graph { nodes, idle_price: model.most(crate::opcode::JUMP, 0), dearest }
    }

    pub fn len(&self) -> usize {
        self.nodes.len()
    }

    pub fn role(&self, slot: usize) -> Role {
        self.nodes[slot].role
    }

    pub fn make_save(&mut self, slot: usize) {
        let node = &mut self.nodes[slot];
        *node = Node { role: Role::Save, price: self.dearest, onward: None };
    }

    pub fn make_idle(&mut self, slot: usize) {
        let node = &mut self.nodes[slot];
        let next = slot as u16 + 1;
        *node = Node { role: Role::Idle, price: self.idle_price, onward: Some([next; 2]) };
    }
}

impl Node {
    fn new<M: PriceModel + ?Sized>(
        slot: usize,
        instruction: &Instruction,
        model: &M,
        dearest: u32,
    ) -> Node {
        let role = match instruction.kind {
            _ if instruction.is_save() => Role::Save,
            _ if instruction.is_idle() => Role::Idle,
            Kind::Exit => Role::Exit,
            _ => Role::Other,
        };
        let most = || model.most(instruction.opcode, instruction.imm);
        let price = match role {
            Role::Save => dearest,
            Role::Exit => most() + dearest,
            Role::Idle | Role::Other => most(),
        };
        let onward = match instruction.ways_out(slot) {
            _ if role == Role::Save => None,
            (Some(next), Some(target)) => Some([next as u16, target as u16]),
            (Some(way), None) | (None, Some(way)) => Some([way as u16; 2]),
            (None, None) => None,
        };
        Node { role, price, onward }
    }

    /// All ways out of the node of a slot, also those of a save.
    fn ways(&self, slot: u16) -> Option<[u16; 2]> {
        match self.role {
            Role::Save => Some([slot + 1; 2]),
            _ => self.onward,
        }
    }
}

#[derive(Clone, Copy, Debug, PartialEq, Eq)]
enum Mark {
    Unseen,
    /// On the path that is being searched.
    Open,
    /// Its worth is known.
    Done,
}

/// A search of all walks of a graph. Its lists are kept for the next search.
#[derive(Default)]
pub(crate) struct Search {
    marks: Vec<Mark>,
    worths: Vec<u64>,
    path: Vec<u16>,
    starts: Vec<u16>,
}

impl Search {
    /// Works the worths of all reachable slots out, and stops at a loop or at
    /// the first worth above the limit.
    pub fn run(&mut self, graph: &Graph, limit: u64) -> Found {
        self.marks.clear();
        self.marks.resize(graph.len(), Mark::Unseen);
        self.worths.resize(graph.len(), 0);
        self.path.clear();
        self.starts.clear();
        self.starts.push(0);
        while let Some(start) = self.starts.pop() {
            if self.marks[usize::from(start)] == Mark::Unseen {
                match self.walk_from(graph, start, limit) {
                    Found::Within => {}
                    stopped => return stopped,
                }
            }
        }
        Found::Within
    }

    /// Searches depth first from a start, and notes the starts that it meets.
    fn walk_from(&mut self, graph: &Graph, start: u16, limit: u64) -> Found {
        self.enter(graph, start);
        while let Some(&slot) = self.path.last() {
            let node = &graph.nodes[usize::from(slot)];
            let rest = match node.onward.map(|ways| self.dearest_of(ways)) {
                None => 0,
                Some(Ok(rest)) => rest,
                Some(Err((_, Mark::Open))) => return Found::Loop,
                Some(Err((way, _))) => {
                    self.enter(graph, way);
                    continue;
                }
            };
            let worth = rest + u64::from(node.price);
            if worth > limit {
                return Found::Over;
            }
            self.leave(slot, worth);
        }
        Found::Within
    }

    /// The dearer worth of two ways, or the first way without one.
    #[inline]
    fn dearest_of(&self, [first, second]: [u16; 2]) -> Result<u64, (u16, Mark)> {
        let worth = |way: u16| match self.marks[usize::from(way)] {
            Mark::Done => Ok(self.worths[usize::from(way)]),
            mark => Err((way, mark)),
        };
        Ok(worth(first)?.max(worth(second)?))
    }

    #[inline]
    fn enter(&mut self, graph: &Graph, slot: u16) {
        if graph.role(slot.into()) == Role::Save {
            self.starts.push(slot + 1);
        }
        self.marks[usize::from(slot)] = Mark::Open;
        self.path.push(slot);
    }

    #[inline]
    fn leave(&mut self, slot: u16, worth: u64) {
        self.worths[usize::from(slot)] = worth;
        self.marks[usize::from(slot)] = Mark::Done;
        self.path.pop();
    }

    /// The price of the dearest complete list from a slot, or none where no
    /// slot reaches it. It holds after a search that was not stopped.
    pub fn worth(&self, slot: usize) -> Option<u64> {
        (self.marks[slot] == Mark::Done).then(|| self.worths[slot])
    }

    /// The lowest start above a budget, and its worth. It holds after a search
    /// that was not stopped.
    pub fn lowest_over(&self, graph: &Graph, budget: u64) -> Option<(usize, u64)> {
        let worths = (0..graph.len()).filter_map(|slot| Some((slot, self.worth(slot)?)));
        let mut over = worths.filter(|&(_, worth)| worth > budget);
        over.find(|&(slot, _)| slot == 0 || self.is_reached_save(graph, slot - 1))
    }

    fn is_reached_save(&self, graph: &Graph, slot: usize) -> bool {
        graph.role(slot) == Role::Save && self.worth(slot).is_some()
    }
}

/// The lowest slot that some walk holds twice.
pub(crate) fn lowest_looped(graph: &Graph) -> Option<usize> {
    let reachable = reached(graph, Some([0; 2]), Node::ways);
    (0..graph.len()).filter(|&slot| reachable[slot]).find(|&slot| {
        let onward = graph.nodes[slot].onward;
        reached(graph, onward, |node, _| node.onward)[slot]
    })
}

/// Which slots some ways lead to, and the ways of these.
fn reached(
    graph: &Graph,
    from: Option<[u16; 2]>,
    ways: fn(&Node, u16) -> Option<[u16; 2]>,
) -> Vec<bool> {
    let mut reached = vec![false; graph.len()];
    let mut waiting: Vec<u16> = from.into_iter().flatten().collect();
    while let Some(slot) = waiting.pop() {
        let known = &mut reached[usize::from(slot)];
        if !std::mem::replace(known, true) {
            waiting.extend(ways(&graph.nodes[usize::from(slot)], slot).into_iter().flatten());
        }
    }
    reached
}
