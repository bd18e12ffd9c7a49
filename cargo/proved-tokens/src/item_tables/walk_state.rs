// Made from crates/item_tables/src/walk_state.rt by dev/erase: change that file, not this one.
//! The states of the walk over a type, over bounds or over an expression, and its steps.

use crate::item_tables::class::{Keyword, SignClass};
use crate::item_tables::expression::{spot_ends, spot_step};
use crate::item_tables::types::{Turn, TypeState, may_end, type_step};

/// What is read, and what may follow its outermost angle brackets.
#[derive(Clone, Copy)]
pub enum Continuation {
    /// A type or bounds, outside of angle brackets.
    Outside,
    /// Arguments within angle brackets, up to their `>`.
    Inside,
    /// The type after `impl`, which `for` and another type may follow.
    Target,
    /// The generic arguments of an expression.
    Angle,
    /// The generic arguments of the type of a cast.
    CastAngle,
    /// The generic arguments of a type within the bars of a closure.
    ClosureAngle,
}

/// A state of an expression, outside of its angle brackets.
#[derive(Clone, Copy)]
pub enum Spot {
    /// Where an operand must come.
    Expression,
    /// Where an operand may come, or the end.
    ExpressionOpen,
    /// After an operand.
    ExpressionWhole,
    /// After a `Joint` `<` that is an operator.
    ExpressionLess,
    /// After an operand and `.`.
    ExpressionDot,
    /// After the first `.` of a `..` that begins a range.
    ExpressionRange,
    /// After the `#` of an attribute.
    ExpressionHash,
    /// Within the bars of a closure.
    Closure,
    /// Where the type of a cast must come.
    Cast,
    /// After the type of a cast.
    CastWhole,
}

/// What may come next.
#[derive(Clone, Copy)]
pub enum State {
    /// A sign of a type or of bounds.
    Range(TypeState),
    /// A sign of an expression.
    At(Spot),
}

/// A state of the walk.
#[derive(Clone, Copy)]
pub struct WalkState {
    /// What is read, and what may follow its outermost angle brackets.
    pub rule: Continuation,
    /// What may come next.
    pub state: State,
    /// The number of angle brackets that are open.
    pub depth: usize,
}

/// A move to another state, from a state of an expression.
#[derive(Clone, Copy)]
pub struct Shift {
    /// What may follow the outermost angle brackets then.
    pub rule: Continuation,
    /// What may come then.
    pub state: State,
    /// How the sign changes the number of open angle brackets.
    pub turn: Turn,
}

impl WalkState {
    /// The state that a sign of this class leads to, or `None` if the sign cannot come next.
    ///
    /// # Contract
    ///
    /// - `requires`: <code>self.depth + 1 &lt; 2 ^ 64</code>
    /// - `ensures value`: <code>result ≡ [step] self class</code>
    /// - `ensures depth`: <code>[IfSome] result (λ next. next.depth ≤ self.depth + 1)</code>
    ///
    /// [step]: crate::contracts#item_tables.Walk.step
    /// [IfSome]: crate::contracts#std.IfSome
    pub fn step(self, class: SignClass) -> Option<WalkState>
    {
        match self.state {
            State::Range(state) => {
                if let Some(next) = range_step(self.rule, self.depth, state, class) {
                    return Some(next);
                }
                if self.depth == 0 && may_end(state) {
                    for_step(self.rule, class)
                } else {
                    None
                }
            }
            State::At(spot) => shift_state(self.depth, spot_step(spot, class)),
        }
    }

    /// Whether what is read may end in this state.
    ///
    /// # Contract
    ///
    /// - `ensures`: <code>result ≡ [ends] self</code>
    ///
    /// [ends]: crate::contracts#item_tables.Walk.ends
    pub fn may_end(self) -> bool
    {
        match self.state {
            State::Range(state) => self.depth == 0 && range_ends(self.rule, state),
            State::At(spot) => spot_ends(spot),
        }
    }
}

/// Whether a type may end in this state. Arguments may also end where one may begin.
fn range_ends(rule: Continuation, state: TypeState) -> bool
{
    match (rule, state) {
        (Continuation::Inside, TypeState::Argument) => true,
        _ => may_end(state),
    }
}

/// Whether no angle bracket is open. The arguments within brackets are read as if one were.
fn is_outside(rule: Continuation, depth: usize) -> bool
{
    match rule {
        Continuation::Inside => false,
        _ => depth == 0,
    }
}

/// Whether the sign closes the brackets around the arguments, which are not part of what is read.
fn ends_inside(rule: Continuation, depth: usize, turn: Turn) -> bool
{
    match (rule, turn) {
        (Continuation::Inside, Turn::Close) => depth == 0,
        _ => false,
    }
}

/// The step within a type or bounds.
fn range_step(
    rule: Continuation,
    depth: usize,
    state: TypeState,
    class: SignClass,
) -> Option<WalkState>
{
    let taken = type_step(state, class, is_outside(rule, depth))?;
    if ends_inside(rule, depth, taken.turn) {
        return None;
    }
    let inner = depth_after(taken.turn, depth);
    Some(WalkState {
        rule,
        state: range_state(rule, taken.state, taken.turn, inner),
        depth: inner,
    })
}

/// The number of open angle brackets after a sign.
///
/// # Contract
///
/// - `requires`: <code>depth + 1 &lt; 2 ^ 64</code>
/// - `ensures value`: <code>result ≡ [depth_after] turn depth</code>
/// - `ensures most`: <code>result ≤ depth + 1</code>
///
/// [depth_after]: crate::contracts#item_tables.Walk.depth_after
pub fn depth_after(turn: Turn, depth: usize) -> usize
{
    match turn {
        Turn::Stay => depth,
        Turn::Open => depth + 1,
        Turn::Close => depth.saturating_sub(1),
    }
}

/// The step after the type of an `impl`: `for`, and the type for which it is.
fn for_step(rule: Continuation, class: SignClass) -> Option<WalkState>
{
    match (rule, class) {
        (Continuation::Target, SignClass::Keyword(Keyword::For)) => Some(WalkState {
            rule: Continuation::Outside,
            state: State::Range(TypeState::Wanted),
            depth: 0,
        }),
        _ => None,
    }
}

fn shift_state(depth: usize, shift: Option<Shift>) -> Option<WalkState>
{
    let Shift { rule, state, turn } = shift?;
    Some(WalkState {
        rule,
        state,
        depth: depth_after(turn, depth),
    })
}

/// The state after the angle brackets of an expression.
fn after_angle(rule: Continuation, state: TypeState) -> State
{
    match rule {
        Continuation::Angle => State::At(Spot::ExpressionWhole),
        Continuation::CastAngle => State::At(Spot::CastWhole),
        Continuation::ClosureAngle => State::At(Spot::Closure),
        _ => State::Range(state),
    }
}

/// The state after a step within a type. The step may close the angle brackets of an expression.
fn range_state(rule: Continuation, state: TypeState, turn: Turn, depth: usize) -> State
{
    match turn {
        Turn::Close => {
            if depth == 0 {
                after_angle(rule, state)
            } else {
                State::Range(state)
            }
        }
        Turn::Stay | Turn::Open => State::Range(state),
    }
}

pub(crate) fn to_spot(spot: Spot) -> Option<Shift>
{
    Some(Shift {
        rule: Continuation::Outside,
        state: State::At(spot),
        turn: Turn::Stay,
    })
}

/// The move into angle brackets.
pub(crate) fn open_angle(rule: Continuation) -> Option<Shift>
{
    Some(Shift {
        rule,
        state: State::Range(TypeState::Argument),
        turn: Turn::Open,
    })
}
