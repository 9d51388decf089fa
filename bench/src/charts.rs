//! Charts to load: random valid ones of any size, and some at the limits.

use crate::random::Random;

const SIMPLE: u8 = 0;
const FINAL: u8 = 1;
const MACRO: u8 = 2;

const STRONG: u8 = 0;
const WEAK: u8 = 1;
const NORMAL: u8 = 2;

struct State {
    graph: usize,
    kind: u8,
    effects: Vec<u8>,
}

struct Transition {
    source: usize,
    target: usize,
    kind: u8,
    immediate: bool,
    trigger: Vec<u8>,
    effects: Vec<u8>,
}

enum Part {
    State(State),
    Graph(usize),
}

impl Part {
    fn state(&self) -> Option<&State> {
        match self {
            Part::State(state) => Some(state),
            Part::Graph(_) => None,
        }
    }

    fn state_mut(&mut self) -> Option<&mut State> {
        match self {
            Part::State(state) => Some(state),
            Part::Graph(_) => None,
        }
    }
}

/// A chart before it is written.
#[derive(Default)]
pub struct Draft {
    signals: Vec<u8>,
    parts: Vec<Part>,
    transitions: Vec<Transition>,
    suspensions: Vec<(usize, Vec<u8>)>,
    states: usize,
    graphs: usize,
}

/// How large a random chart is.
#[derive(Clone, Copy)]
pub struct Size {
    pub signals: usize,
    pub states: usize,
    pub graphs: usize,
    pub transitions: usize,
    pub suspensions: usize,
}

fn field(tag: u8, contents: &[&[u8]]) -> Vec<u8> {
    let contents = contents.concat();
    let mut field = vec![tag];
    field.extend((contents.len() as u16).to_be_bytes());
    field.extend(contents);
    field
}

fn number(n: usize) -> [u8; 2] {
    (n as u16).to_be_bytes()
}

impl Draft {
    fn new(signals: usize) -> Draft {
        Draft {
            signals: (0..signals).map(|n| if n % 2 == 0 { (n / 2 % 2 + 1) as u8 } else { 0 }).collect(),
            ..Draft::default()
        }
    }

    fn state(&mut self, graph: usize, kind: u8) -> usize {
        self.parts.push(Part::State(State { graph, kind, effects: Vec::new() }));
        self.states += 1;
        self.states - 1
    }

    fn graph(&mut self, owner: usize) -> usize {
        self.parts.push(Part::Graph(owner));
        self.graphs += 1;
        self.graphs - 1
    }

    fn transition(&mut self, source: usize, target: usize, kind: u8, immediate: bool) {
        self.transitions.push(Transition {
            source,
            target,
            kind,
            immediate,
            trigger: Vec::new(),
            effects: Vec::new(),
        });
    }

    fn all_states(&self) -> Vec<&State> {
        self.parts.iter().filter_map(Part::state).collect()
    }

    fn all_states_mut(&mut self) -> Vec<&mut State> {
        self.parts.iter_mut().filter_map(Part::state_mut).collect()
    }

    fn owners(&self) -> Vec<usize> {
        let owner = |part: &Part| match part {
            Part::State(_) => None,
            Part::Graph(owner) => Some(*owner),
        };
        self.parts.iter().filter_map(owner).collect()
    }

    /// The file, with names so long that it has about as many bytes.
    pub fn write(&self, bytes: usize) -> Vec<u8> {
        let least = self.write_names(0).len();
        self.write_names(bytes.saturating_sub(least))
    }

    /// The file, with so many letters more than one for each name.
    fn write_names(&self, letters: usize) -> Vec<u8> {
        let names = self.signals.len() + self.states;
        let mut n = 0;
        let mut name = || {
            let mut length = 1 + letters / names;
            if n < letters % names {
                length += 1;
            }
            n += 1;
            let letters = b"sNb_o3QxTe9dRaZ7";
            letters[..length.min(16)].to_vec()
        };
        let mut fields = Vec::new();
        for kind in &self.signals {
            fields.push(field(1, &[&[*kind], &name()]));
        }
        for part in &self.parts {
            match part {
                Part::State(state) => {
                    fields.push(field(2, &[&number(state.graph), &[state.kind], &name()]));
                    if !state.effects.is_empty() {
                        fields.push(field(7, &[&state.effects]));
                    }
                }
                Part::Graph(owner) => fields.push(field(3, &[&number(*owner)])),
            }
        }
        for (state, trigger) in &self.suspensions {
            fields.push(field(5, &[&number(*state)]));
            fields.push(field(6, &[trigger]));
        }
        for t in &self.transitions {
            let ends = [number(t.source), number(t.target)].concat();
            fields.push(field(4, &[&ends, &[t.kind, t.immediate.into()]]));
            if !t.trigger.is_empty() {
                fields.push(field(6, &[&t.trigger]));
            }
            if !t.effects.is_empty() {
                fields.push(field(7, &[&t.effects]));
            }
        }
        fields.concat()
    }
}

/// A valid trigger of about this length.
fn trigger(random: &mut Random, signals: usize, length: usize) -> Vec<u8> {
    let mut postfix = Vec::new();
    let mut values = 0;
    while values != 1 || postfix.len() < length {
        if values > 0 && random.percent(15) {
            postfix.push(130);
        } else if values > 1 && (values == 8 || postfix.len() + values > length || random.percent(50)) {
            postfix.push(random.pick(&[128, 129]));
            values -= 1;
        } else {
            let signal = if signals == 0 || random.percent(5) { 131 } else { random.below(signals) as u8 };
            postfix.push(signal);
            values += 1;
        }
    }
    postfix.truncate(32);
    postfix
}

fn effects(random: &mut Random, signals: &[u8], most: usize) -> Vec<u8> {
    let outputs: Vec<u8> = (0..signals.len()).filter(|n| signals[*n] != 0).map(|n| n as u8).collect();
    if outputs.is_empty() {
        return Vec::new();
    }
    (0..1 + random.below(most)).map(|_| random.pick(&outputs)).collect()
}

/// States and graphs that nest, with a state in each graph.
fn structure(random: &mut Random, draft: &mut Draft, size: Size) {
    // For each graph how deep its states stand, and whether it has one; for each macrostate its number.
    let mut depths = vec![2];
    let mut filled = vec![false];
    let mut macros = vec![(draft.state(65_535, MACRO), 1)];
    draft.graph(0);
    while draft.graphs < size.graphs {
        let empty = filled.iter().filter(|f| !**f).count();
        let graph = random.below(draft.graphs);
        let room = size.states - draft.states;
        if depths[graph] <= 8 && room > empty + 1 && random.percent(70) {
            macros.push((draft.state(graph, MACRO), depths[graph]));
            filled[graph] = true;
            draft.graph(draft.states - 1);
            depths.push(depths[graph] + 1);
        } else if room > empty && random.percent(30) {
            let (owner, depth) = random.pick(&macros);
            draft.graph(owner);
            depths.push(depth + 1);
        } else if room > empty + 1 {
            draft.state(graph, random.pick(&[SIMPLE, SIMPLE, FINAL]));
            filled[graph] = true;
            continue;
        } else {
            break;
        }
        filled.push(false);
    }
    for (graph, filled) in filled.iter().enumerate() {
        if !filled {
            draft.state(graph, random.pick(&[SIMPLE, SIMPLE, FINAL]));
        }
    }
    while draft.states < size.states {
        draft.state(random.below(draft.graphs), random.pick(&[SIMPLE, SIMPLE, FINAL]));
    }
}

/// Macrostates with a final state in every graph; those with no state of their graph behind them are kept from ending.
fn ending(draft: &mut Draft) -> Vec<usize> {
    let owners = draft.owners();
    let mut able = Vec::new();
    for state in 1..draft.states {
        let states = draft.all_states();
        let own: Vec<usize> = (0..owners.len()).filter(|g| owners[*g] == state).collect();
        let ends = |g: &usize| states.iter().any(|s| s.graph == *g && s.kind == FINAL);
        if states[state].kind != MACRO || !own.iter().all(ends) {
            continue;
        }
        if states[state + 1..].iter().any(|s| s.graph == states[state].graph) {
            able.push(state);
            continue;
        }
        for s in draft.all_states_mut() {
            if s.graph == own[0] && s.kind == FINAL {
                s.kind = SIMPLE;
            }
        }
    }
    able
}

/// Transitions: strong ones, then weak ones, then the normal ones that there must be.
/// Chain transitions lead to later states of the file, so they make no ring.
fn transitions(random: &mut Random, draft: &mut Draft, size: Size) {
    let able = ending(draft);
    let states: Vec<(usize, u8)> = draft.all_states().iter().map(|s| (s.graph, s.kind)).collect();
    let sources: Vec<usize> = (1..states.len()).filter(|s| states[*s].1 != FINAL).collect();
    let mates = |source: usize| -> Vec<usize> {
        (1..states.len()).filter(|s| states[*s].0 == states[source].0).collect()
    };
    let free = if sources.is_empty() { 0 } else { size.transitions.saturating_sub(able.len()) };
    for n in 0..free {
        let source = random.pick(&sources);
        let target = random.pick(&mates(source));
        let kind = if n < free / 2 { STRONG } else { WEAK };
        draft.transition(source, target, kind, target > source && random.percent(40));
    }
    for source in able {
        let later: Vec<usize> = mates(source).into_iter().filter(|s| *s > source).collect();
        draft.transition(source, random.pick(&later), NORMAL, false);
    }
}

/// Triggers and effects at random, and suspensions.
fn dress(random: &mut Random, draft: &mut Draft, size: Size) {
    let signals = draft.signals.clone();
    for t in &mut draft.transitions {
        if t.kind != NORMAL && random.percent(80) {
            let length = 1 + random.below(5);
            t.trigger = trigger(random, signals.len(), length);
        }
        if random.percent(15) {
            t.effects = effects(random, &signals, 3);
        }
    }
    let mut candidates = Vec::new();
    for (n, state) in draft.all_states_mut().into_iter().enumerate() {
        if state.kind == SIMPLE && random.percent(10) {
            state.effects = effects(random, &signals, 4);
        }
        if n > 0 && state.kind != FINAL {
            candidates.push(n);
        }
    }
    while draft.suspensions.len() < size.suspensions && !candidates.is_empty() {
        let state = candidates.swap_remove(random.below(candidates.len()));
        let trigger = trigger(random, signals.len(), 3);
        draft.suspensions.push((state, trigger));
    }
}

/// A random valid chart.
pub fn random(random: &mut Random, size: Size) -> Draft {
    let mut draft = Draft::new(size.signals);
    structure(random, &mut draft, size);
    transitions(random, &mut draft, size);
    dress(random, &mut draft, size);
    draft
}

pub const LIMITS: Size = Size { signals: 128, states: 256, graphs: 128, transitions: 512, suspensions: 30 };

/// A random chart at all limits.
pub fn limits(seed: u64) -> Draft {
    random(&mut Random::new(seed), LIMITS)
}

/// A chart at the limits whose last transition is on a ring by itself.
pub fn ring_at_end(seed: u64) -> Draft {
    let mut draft = random(&mut Random::new(seed), Size { transitions: 511, ..LIMITS });
    let weaker = |s: &usize| draft.transitions.iter().any(|t| t.source == *s && t.kind != STRONG);
    let kinds: Vec<u8> = draft.all_states().iter().map(|s| s.kind).collect();
    let source = (1..kinds.len()).filter(|s| kinds[*s] == SIMPLE).find(|s| !weaker(s));
    let source = source.expect("some simple state has no weak transition");
    draft.transition(source, source, STRONG, true);
    draft
}

/// A chart at the limits with sixteen nests of seven macrostates that may end on entry, each by the one inside it:
/// the chain transitions are found from the inside out, a level in a turn.
pub fn nests(seed: u64) -> Draft {
    let mut random = Random::new(seed);
    let mut draft = Draft::new(128);
    draft.state(65_535, MACRO);
    let outer = draft.graph(0);
    let mut heads = Vec::new();
    let mut normals = Vec::new();
    let mut pairs = Vec::new();
    for nest in 0..16 {
        let mut graph = outer;
        for depth in 2..=8 {
            let state = draft.state(graph, MACRO);
            if depth == 2 {
                heads.push(state);
            } else {
                // The last nest has no final state in its first graph, so its head is never left.
                let kind = if nest == 15 && depth == 3 { SIMPLE } else { FINAL };
                let end = draft.state(graph, kind);
                normals.push((state, end));
                pairs.push((state, end));
            }
            graph = draft.graph(state);
        }
        let start = draft.state(graph, SIMPLE);
        let end = draft.state(graph, FINAL);
        draft.transition(start, end, STRONG, true);
        pairs.push((start, end));
    }
    while draft.graphs < 128 {
        let graph = draft.graph(0);
        draft.state(graph, SIMPLE);
    }
    for (n, source) in heads.iter().enumerate() {
        for target in &heads[n + 1..] {
            draft.transition(*source, *target, STRONG, true);
        }
    }
    while draft.transitions.len() + normals.len() + heads.len() - 1 < 512 {
        let (source, target) = random.pick(&pairs);
        draft.transition(source, target, STRONG, false);
    }
    for (source, target) in normals {
        draft.transition(source, target, NORMAL, false);
    }
    for ends in heads.windows(2) {
        draft.transition(ends[0], ends[1], NORMAL, false);
    }
    dress(&mut random, &mut draft, LIMITS);
    draft
}

/// A chart at the limits in which one graph has 128 states, and all transitions are immediate ones in it.
pub fn dense(seed: u64) -> Draft {
    let mut random = Random::new(seed);
    let mut draft = Draft::new(128);
    draft.state(65_535, MACRO);
    let outer = draft.graph(0);
    for _ in 0..128 {
        draft.state(outer, SIMPLE);
    }
    while draft.graphs < 128 {
        let graph = draft.graph(0);
        draft.state(graph, SIMPLE);
    }
    for source in 1..128 {
        draft.transition(source, source + 1, STRONG, true);
    }
    while draft.transitions.len() < 512 {
        let source = 1 + random.below(127);
        let target = source + 1 + random.below(128 - source);
        draft.transition(source, target, STRONG, true);
    }
    dress(&mut random, &mut draft, LIMITS);
    draft
}

/// A chart with a macrostate at each depth up to this, and one trigger that stacks so many values.
pub fn tower(depth: usize, values: usize) -> Draft {
    let mut draft = Draft::new(2);
    let mut owner = draft.state(65_535, MACRO);
    for _ in 1..depth {
        let graph = draft.graph(owner);
        owner = draft.state(graph, MACRO);
    }
    let graph = draft.graph(owner);
    let source = draft.state(graph, SIMPLE);
    let target = draft.state(graph, SIMPLE);
    draft.transition(source, target, STRONG, false);
    let postfix = [vec![1; values], vec![128; values - 1]].concat();
    draft.transitions[0].trigger = postfix;
    draft
}
