//! A draw, as a play is lent it.

/// A change to be tried: the number that picks the move, and the two numbers that choose in it.
///
/// | `draw` | Move |
/// |---|---|
/// | 0 to 34 | the unit `first` goes to person `second` of its domain |
/// | 35 to 59 | the units `first` and `second` are swapped |
/// | 60 to 74 | the run of unit `first` goes to person `second` of those others who can cover it |
/// | 75 to 89 | the runs of the units `first` and `second` are swapped |
/// | 90 to 99 | the run of unit `first` starts one unit earlier (`second` 1) or later (0) |
///
/// ```
/// use boltraven::Draw;
///
/// let swap = Draw { draw: 35, first: 0, second: 1 };
/// assert_ne!(swap, Draw { second: 2, ..swap });
/// ```
#[derive(Debug, Clone, Copy, PartialEq, Eq, Hash)]
#[repr(C)]
pub struct Draw {
    /// Which move, below 100.
    pub draw: u16,
    /// A unit.
    pub first: u16,
    /// A unit, a place in a list of people, or 0 or 1.
    pub second: u16,
}
