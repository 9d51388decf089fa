//! The loader of chart files and its checks in plain Rust, to measure against.

const LONGEST: usize = 16_384;
const MOST_SIGNALS: usize = 128;
const MOST_INPUTS: usize = 64;
const MOST_STATES: usize = 256;
const MOST_GRAPHS: usize = 128;
const MOST_TRANSITIONS: usize = 512;
const DEEPEST: usize = 8;
const MOST_VALUES: usize = 8;
const NO_GRAPH: u16 = 65_535;

/// Why a file is refused: number, layer and the byte place of the faulty field.
#[derive(Clone, Copy, Debug, PartialEq, Eq)]
pub struct Refusal {
    pub number: u8,
    pub layer: u8,
    pub place: usize,
}

#[derive(Clone, Copy, PartialEq, Eq)]
pub enum Tag {
    Signal,
    State,
    Graph,
    Transition,
    Suspension,
    Trigger,
    Effects,
}

#[derive(Clone, Copy, PartialEq, Eq)]
pub enum SignalKind {
    Input,
    Output,
    Internal,
}

#[derive(Clone, Copy, PartialEq, Eq)]
pub enum StateKind {
    Simple,
    Final,
    Macro,
}

#[derive(Clone, Copy, PartialEq, Eq, PartialOrd, Ord)]
pub enum TransitionKind {
    Strong,
    Weak,
    Normal,
}

impl Tag {
    fn from_code(code: u8) -> Option<Tag> {
        Some(match code {
            1 => Tag::Signal,
            2 => Tag::State,
            3 => Tag::Graph,
            4 => Tag::Transition,
            5 => Tag::Suspension,
            6 => Tag::Trigger,
            7 => Tag::Effects,
            _ => return None,
        })
    }
}

impl SignalKind {
    fn from_code(code: u8) -> Option<SignalKind> {
        Some(match code {
            0 => SignalKind::Input,
            1 => SignalKind::Output,
            2 => SignalKind::Internal,
            _ => return None,
        })
    }
}

impl StateKind {
    fn from_code(code: u8) -> Option<StateKind> {
        Some(match code {
            0 => StateKind::Simple,
            1 => StateKind::Final,
            2 => StateKind::Macro,
            _ => return None,
        })
    }
}

impl TransitionKind {
    fn from_code(code: u8) -> Option<TransitionKind> {
        Some(match code {
            0 => TransitionKind::Strong,
            1 => TransitionKind::Weak,
            2 => TransitionKind::Normal,
            _ => return None,
        })
    }
}

/// Bytes of the file.
#[derive(Clone, Copy)]
pub struct Span {
    pub start: u16,
    pub length: u16,
}

#[derive(Clone, Copy)]
pub struct Signal {
    pub kind: SignalKind,
    pub name: Span,
}

#[derive(Clone, Copy)]
pub struct State {
    pub kind: StateKind,
    pub graph: u16,
    pub name: Span,
    pub effects: Option<Span>,
}

#[derive(Clone, Copy)]
pub struct Graph {
    pub owner: u16,
}

#[derive(Clone, Copy)]
pub struct Transition {
    pub source: u16,
    pub target: u16,
    pub kind: TransitionKind,
    pub immediate: bool,
    pub trigger: Option<Span>,
    pub effects: Option<Span>,
}

#[derive(Clone, Copy)]
pub struct Suspension {
    pub state: u16,
    pub trigger: Option<Span>,
}

/// A field, by its number in the table of its kind.
#[derive(Clone, Copy)]
pub enum Field {
    Signal,
    State(u16),
    Graph(u16),
    Transition(u16),
    Suspension(u16),
    Trigger(Span),
    Effects(Span),
}

#[derive(Clone, Copy)]
pub struct Placed {
    pub place: u16,
    pub field: Field,
}

/// How far the file has come, by what may follow.
#[derive(Clone, Copy, PartialEq, Eq)]
enum Stage {
    Signals,
    SimpleState,
    Structure,
    Transition,
    TransitionTrigger,
    Suspension,
    Behaviour,
}

impl Stage {
    fn admits(self, tag: Tag) -> bool {
        match tag {
            Tag::Signal => self == Stage::Signals,
            Tag::State | Tag::Graph => {
                matches!(self, Stage::Signals | Stage::SimpleState | Stage::Structure)
            }
            Tag::Transition | Tag::Suspension => true,
            Tag::Trigger => matches!(self, Stage::Transition | Stage::Suspension),
            Tag::Effects => matches!(self, Stage::SimpleState | Stage::Transition | Stage::TransitionTrigger),
        }
    }
}

fn is_name(name: &[u8]) -> bool {
    !name[0].is_ascii_digit() && name.iter().all(|b| b.is_ascii_alphanumeric() || *b == b'_')
}

/// A chart, with room for every file; empty unless one is loaded.
pub struct Chart {
    pub bytes: Vec<u8>,
    pub fields: Vec<Placed>,
    pub signals: Vec<Signal>,
    pub states: Vec<State>,
    pub graphs: Vec<Graph>,
    pub transitions: Vec<Transition>,
    pub suspensions: Vec<Suspension>,
    inputs: usize,
}

impl Chart {
    pub fn new() -> Chart {
        Chart {
            bytes: Vec::with_capacity(LONGEST),
            fields: Vec::with_capacity(LONGEST / 3),
            signals: Vec::with_capacity(MOST_SIGNALS),
            states: Vec::with_capacity(MOST_STATES),
            graphs: Vec::with_capacity(MOST_GRAPHS),
            transitions: Vec::with_capacity(MOST_TRANSITIONS),
            suspensions: Vec::with_capacity(LONGEST / 5),
            inputs: 0,
        }
    }

    #[inline(never)]
    pub fn load(&mut self, bytes: &[u8]) -> Result<(), Refusal> {
        self.clear();
        let outcome = self.read(bytes).and_then(|()| self.check());
        if outcome.is_err() {
            self.clear();
        }
        outcome
    }

    fn clear(&mut self) {
        self.bytes.clear();
        self.fields.clear();
        self.signals.clear();
        self.states.clear();
        self.graphs.clear();
        self.transitions.clear();
        self.suspensions.clear();
        self.inputs = 0;
    }

    // The first layer, and the tables.

    fn read(&mut self, bytes: &[u8]) -> Result<(), Refusal> {
        let refuse = |number, place| Refusal { number, layer: 1, place };
        if bytes.is_empty() || bytes.len() > LONGEST {
            return Err(refuse(11, 0));
        }
        let mut stage = Stage::Signals;
        let mut place = 0;
        while place < bytes.len() {
            let [code, high, low, rest @ ..] = &bytes[place..] else {
                return Err(refuse(12, place));
            };
            let length = usize::from(u16::from_be_bytes([*high, *low]));
            let Some(contents) = rest.get(..length) else {
                return Err(refuse(12, place));
            };
            let tag = match Tag::from_code(*code) {
                Some(tag) if stage.admits(tag) => tag,
                _ => return Err(refuse(13, place)),
            };
            stage = match self.add(stage, place, tag, contents) {
                Ok(stage) => stage,
                Err(number) => return Err(refuse(number, place)),
            };
            place += 3 + length;
        }
        self.bytes.extend_from_slice(bytes);
        Ok(())
    }

    /// The field in its table, and the stage behind it; or the number of its fault.
    fn add(&mut self, stage: Stage, place: usize, tag: Tag, contents: &[u8]) -> Result<Stage, u8> {
        let span = |skipped: usize| Span {
            start: (place + 3 + skipped) as u16,
            length: (contents.len() - skipped) as u16,
        };
        let (field, stage) = match tag {
            Tag::Signal => {
                let (code, name) = contents.split_first().ok_or(14)?;
                if name.is_empty() || name.len() > 16 {
                    return Err(14);
                }
                let kind = SignalKind::from_code(*code).ok_or(14)?;
                if !is_name(name) {
                    return Err(14);
                }
                if self.signals.len() == MOST_SIGNALS {
                    return Err(15);
                }
                if kind == SignalKind::Input {
                    if self.inputs == MOST_INPUTS {
                        return Err(15);
                    }
                    self.inputs += 1;
                }
                self.signals.push(Signal { kind, name: span(1) });
                (Field::Signal, Stage::Signals)
            }
            Tag::State => {
                let [high, low, code, name @ ..] = contents else {
                    return Err(14);
                };
                if name.is_empty() || name.len() > 16 {
                    return Err(14);
                }
                let kind = StateKind::from_code(*code).ok_or(14)?;
                if !is_name(name) {
                    return Err(14);
                }
                if self.states.len() == MOST_STATES {
                    return Err(15);
                }
                let graph = u16::from_be_bytes([*high, *low]);
                self.states.push(State { kind, graph, name: span(3), effects: None });
                let stage = match kind {
                    StateKind::Simple => Stage::SimpleState,
                    StateKind::Final | StateKind::Macro => Stage::Structure,
                };
                (Field::State(self.states.len() as u16 - 1), stage)
            }
            Tag::Graph => {
                let &[high, low] = contents else {
                    return Err(14);
                };
                if self.graphs.len() == MOST_GRAPHS {
                    return Err(15);
                }
                self.graphs.push(Graph { owner: u16::from_be_bytes([high, low]) });
                (Field::Graph(self.graphs.len() as u16 - 1), Stage::Structure)
            }
            Tag::Transition => {
                let &[sh, sl, th, tl, code, flag] = contents else {
                    return Err(14);
                };
                let kind = TransitionKind::from_code(code).ok_or(14)?;
                let immediate = match flag {
                    0 => false,
                    1 => true,
                    _ => return Err(14),
                };
                if self.transitions.len() == MOST_TRANSITIONS {
                    return Err(15);
                }
                self.transitions.push(Transition {
                    source: u16::from_be_bytes([sh, sl]),
                    target: u16::from_be_bytes([th, tl]),
                    kind,
                    immediate,
                    trigger: None,
                    effects: None,
                });
                (Field::Transition(self.transitions.len() as u16 - 1), Stage::Transition)
            }
            Tag::Suspension => {
                let &[high, low] = contents else {
                    return Err(14);
                };
                let state = u16::from_be_bytes([high, low]);
                self.suspensions.push(Suspension { state, trigger: None });
                (Field::Suspension(self.suspensions.len() as u16 - 1), Stage::Suspension)
            }
            Tag::Trigger => {
                if contents.is_empty() || contents.len() > 32 {
                    return Err(14);
                }
                let trigger = span(0);
                let stage = if stage == Stage::Transition {
                    if let Some(transition) = self.transitions.last_mut() {
                        transition.trigger = Some(trigger);
                    }
                    Stage::TransitionTrigger
                } else {
                    if let Some(suspension) = self.suspensions.last_mut() {
                        suspension.trigger = Some(trigger);
                    }
                    Stage::Behaviour
                };
                (Field::Trigger(trigger), stage)
            }
            Tag::Effects => {
                if contents.is_empty() || contents.len() > 16 {
                    return Err(14);
                }
                let effects = span(0);
                let stage = if stage == Stage::SimpleState {
                    if let Some(state) = self.states.last_mut() {
                        state.effects = Some(effects);
                    }
                    Stage::Structure
                } else {
                    if let Some(transition) = self.transitions.last_mut() {
                        transition.effects = Some(effects);
                    }
                    Stage::Behaviour
                };
                (Field::Effects(effects), stage)
            }
        };
        self.fields.push(Placed { place: place as u16, field });
        Ok(stage)
    }

    // The second layer: each rule over the whole file before the next.

    fn check(&self) -> Result<(), Refusal> {
        self.check_references()?;
        self.check_nesting()?;
        self.first(23, |field| match field {
            Field::Transition(n) => self.breaks_ends(n.into()),
            _ => false,
        })?;
        self.first(24, |field| match field {
            Field::State(n) => n != 0 && self.can_end(n) && !self.has_normal(n),
            Field::Transition(n) => self.leaves_wrongly(n.into()),
            Field::Suspension(n) => self.suspends_wrongly(n.into()),
            _ => false,
        })?;
        self.first(25, |field| match field {
            Field::Trigger(span) => !is_expression(self.signals.len(), self.text(span)),
            _ => false,
        })?;
        let chains = Chains::of(self);
        self.first(26, |field| match field {
            Field::Transition(n) => chains.is_on_ring(n.into(), &self.transitions[usize::from(n)]),
            _ => false,
        })
    }

    /// The first field that breaks a rule.
    fn first(&self, number: u8, mut breaks: impl FnMut(Field) -> bool) -> Result<(), Refusal> {
        match self.fields.iter().find(|placed| breaks(placed.field)) {
            Some(placed) => Err(Refusal { number, layer: 2, place: placed.place.into() }),
            None => Ok(()),
        }
    }

    fn text(&self, span: Span) -> &[u8] {
        let start = usize::from(span.start);
        &self.bytes[start..start + usize::from(span.length)]
    }

    fn check_references(&self) -> Result<(), Refusal> {
        let names_state = |state: u16| usize::from(state) < self.states.len();
        let mut states = 0;
        let mut graphs = 0;
        self.first(21, |field| match field {
            Field::State(n) => {
                states = n + 1;
                let graph = self.states[usize::from(n)].graph;
                if n == 0 { graph != NO_GRAPH } else { graph >= graphs }
            }
            Field::Graph(n) => {
                graphs = n + 1;
                self.graphs[usize::from(n)].owner >= states
            }
            Field::Transition(n) => {
                let transition = &self.transitions[usize::from(n)];
                !names_state(transition.source) || !names_state(transition.target)
            }
            Field::Suspension(n) => !names_state(self.suspensions[usize::from(n)].state),
            Field::Effects(span) => self.text(span).iter().any(|signal| {
                self.signals.get(usize::from(*signal)).is_none_or(|signal| signal.kind == SignalKind::Input)
            }),
            Field::Signal | Field::Trigger(_) => false,
        })
    }

    fn check_nesting(&self) -> Result<(), Refusal> {
        if self.states.is_empty() {
            return Err(Refusal { number: 22, layer: 2, place: 0 });
        }
        self.first(22, |field| match field {
            Field::State(n) => match self.states[usize::from(n)].kind {
                StateKind::Macro => {
                    !self.graphs.iter().any(|graph| graph.owner == n) || self.depth(n.into()) > DEEPEST
                }
                StateKind::Simple | StateKind::Final => n == 0,
            },
            Field::Graph(n) => {
                let owner = self.graphs[usize::from(n)].owner;
                self.states[usize::from(owner)].kind != StateKind::Macro
                    || !self.states[1..].iter().any(|state| state.graph == n)
            }
            _ => false,
        })
    }

    /// How deep a state stands, where owners stand in front of what they own.
    fn depth(&self, mut state: usize) -> usize {
        let mut depth = 1;
        while state != 0 {
            let graph = usize::from(self.states[state].graph);
            state = usize::from(self.graphs[graph].owner);
            depth += 1;
        }
        depth
    }

    fn breaks_ends(&self, n: usize) -> bool {
        let Transition { source, target, kind, .. } = self.transitions[n];
        if source == 0 || target == 0 {
            return true;
        }
        let from = &self.states[usize::from(source)];
        let to = &self.states[usize::from(target)];
        let first = match kind {
            TransitionKind::Strong => TransitionKind::Weak,
            TransitionKind::Weak | TransitionKind::Normal => TransitionKind::Normal,
        };
        from.graph != to.graph
            || from.kind == StateKind::Final
            || self.transitions[..n].iter().any(|t| t.source == source && t.kind >= first)
    }

    fn has_normal(&self, state: u16) -> bool {
        self.transitions.iter().any(|t| t.source == state && t.kind == TransitionKind::Normal)
    }

    fn has_final(&self, graph: usize) -> bool {
        self.states[1..]
            .iter()
            .any(|state| usize::from(state.graph) == graph && state.kind == StateKind::Final)
    }

    /// Whether the state is a macrostate with a final state in every graph.
    fn can_end(&self, state: u16) -> bool {
        self.states[usize::from(state)].kind == StateKind::Macro
            && self.graphs.iter().enumerate().all(|(n, graph)| graph.owner != state || self.has_final(n))
    }

    fn leaves_wrongly(&self, n: usize) -> bool {
        let transition = &self.transitions[n];
        transition.kind == TransitionKind::Normal
            && (transition.immediate || transition.trigger.is_some() || !self.can_end(transition.source))
    }

    fn suspends_wrongly(&self, n: usize) -> bool {
        let Suspension { state, trigger } = self.suspensions[n];
        state == 0
            || self.states[usize::from(state)].kind == StateKind::Final
            || self.suspensions[..n].iter().any(|other| other.state == state)
            || trigger.is_none()
    }
}

/// Whether the postfix comes to one value, with at most eight stacked.
fn is_expression(signals: usize, postfix: &[u8]) -> bool {
    let mut values = 0;
    for byte in postfix {
        match byte {
            0..=127 if usize::from(*byte) >= signals => return false,
            0..=127 | 131 => {
                if values == MOST_VALUES {
                    return false;
                }
                values += 1;
            }
            128 | 129 => {
                if values < 2 {
                    return false;
                }
                values -= 1;
            }
            130 => {
                if values < 1 {
                    return false;
                }
            }
            _ => return false,
        }
    }
    values == 1
}

/// A set of numbers below 256.
#[derive(Clone, Copy, Default)]
struct Row([u64; 4]);

impl Row {
    fn has(&self, number: usize) -> bool {
        self.0[number / 64] >> (number % 64) & 1 == 1
    }

    fn insert(&mut self, number: usize) {
        self.0[number / 64] |= 1 << (number % 64);
    }

    fn join(&mut self, other: &Row) {
        for (word, more) in self.0.iter_mut().zip(other.0) {
            *word |= more;
        }
    }
}

/// The chain transitions of a chart, and which states they lead to which.
struct Chains {
    marked: [bool; MOST_TRANSITIONS],
    reach: [Row; MOST_STATES],
}

impl Chains {
    fn of(chart: &Chart) -> Chains {
        let mut chains = Chains { marked: [false; MOST_TRANSITIONS], reach: [Row::default(); MOST_STATES] };
        for (mark, transition) in chains.marked.iter_mut().zip(&chart.transitions) {
            *mark = transition.immediate;
        }
        chains.close(chart);
        for _turn in 0..DEEPEST {
            if !chains.mark(chart) {
                break;
            }
            chains.close(chart);
        }
        chains
    }

    /// What the marked transitions lead to.
    fn close(&mut self, chart: &Chart) {
        let rows = &mut self.reach[..chart.states.len()];
        rows.fill(Row::default());
        for (mark, transition) in self.marked.iter().zip(&chart.transitions) {
            if *mark {
                rows[usize::from(transition.source)].insert(transition.target.into());
            }
        }
        for middle in 0..rows.len() {
            let beyond = rows[middle];
            for row in rows.iter_mut() {
                if row.has(middle) {
                    row.join(&beyond);
                }
            }
        }
    }

    /// Marks the chain transitions by what those marked so far lead to, and tells whether a mark changed.
    fn mark(&mut self, chart: &Chart) -> bool {
        let mut ends = [false; MOST_GRAPHS];
        for (n, end) in ends.iter_mut().enumerate().take(chart.graphs.len()) {
            *end = self.graph_may_end(chart, n);
        }
        let mut changed = false;
        for (mark, transition) in self.marked.iter_mut().zip(&chart.transitions) {
            let marked = transition.immediate
                || transition.kind == TransitionKind::Normal && may_end(chart, &ends, transition.source);
            changed |= *mark != marked;
            *mark = marked;
        }
        changed
    }

    /// Whether in the graph a final state is the initial one or is reached from it.
    fn graph_may_end(&self, chart: &Chart, graph: usize) -> bool {
        let is_in = |state: &State| usize::from(state.graph) == graph;
        let Some(initial) = chart.states[1..].iter().position(is_in) else {
            return false;
        };
        let initial = initial + 1;
        chart.states.iter().enumerate().skip(1).any(|(n, state)| {
            is_in(state) && state.kind == StateKind::Final && (n == initial || self.reach[initial].has(n))
        })
    }

    fn is_on_ring(&self, n: usize, transition: &Transition) -> bool {
        let Transition { source, target, .. } = *transition;
        self.marked[n] && (source == target || self.reach[usize::from(target)].has(source.into()))
    }
}

/// Whether the macrostate may end on entry, by which graphs may end.
fn may_end(chart: &Chart, ends: &[bool; MOST_GRAPHS], state: u16) -> bool {
    chart.states[usize::from(state)].kind == StateKind::Macro
        && chart.graphs.iter().zip(ends).all(|(graph, end)| graph.owner != state || *end)
}
