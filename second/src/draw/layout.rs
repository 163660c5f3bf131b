//! Where everything stands. A line of the night is a column and a post is a row; below the rows
//! come the strip of how many hold, the refused lines, the line numbers and the commands.

use super::course::Course;

/// The left edge of the first column; what stands beside the rows ends a little before it.
pub const LEFT: usize = 96;
pub const LABELS_END: usize = LEFT - 12;
pub const MARGIN: usize = 24;
const NARROWEST_PAGE: usize = 760;

const ROWS_TOP: usize = 108;
pub const ROW: usize = 28;
const STRIP_GAP: usize = 34;
const HIGHEST_STRIP: usize = 64;
const REFUSED_GAP: usize = 12;
pub const REFUSED: usize = 10;
const NUMBERS: usize = 24;
const UPRIGHT: usize = 46;
const LEVEL: usize = 10;

/// Columns share this width, within the bounds of one column.
const PLOT: usize = 880;
const COLUMN: (usize, usize) = (4, 64);
/// A column from this width on has room for its command set upright, and from this one on for it
/// set as other text.
const COLUMN_OF_UPRIGHT: usize = 11;
const COLUMN_OF_LEVEL: usize = 48;
/// Line numbers stand at least this far apart.
const BETWEEN_NUMBERS: usize = 28;
/// The height of one post in the strip.
const UNIT: (usize, usize) = (4, 20);

pub struct Layout {
    posts: usize,
    lines: usize,
    pub column: usize,
    /// The height of one post in the strip, and how many posts it has room for.
    pub unit: usize,
    most: usize,
}

/// Commands are set as other text, or upright, or left out where columns are too narrow.
#[derive(Clone, Copy, PartialEq, Eq)]
pub enum Commands {
    Level,
    Upright,
    Omitted,
}

impl Layout {
    pub fn of(course: &Course) -> Layout {
        let most = course.places().max(course.most_holding());
        Layout {
            posts: usize::from(course.posts()),
            lines: course.lines(),
            column: (PLOT / course.lines().max(1)).clamp(COLUMN.0, COLUMN.1),
            unit: (HIGHEST_STRIP / most).clamp(UNIT.0, UNIT.1),
            most,
        }
    }

    /// The left edge of a line's column.
    pub fn x(&self, line: usize) -> usize {
        LEFT + (line - 1) * self.column
    }

    pub fn middle(&self, line: usize) -> usize {
        self.x(line) + self.column / 2
    }

    /// The width of the columns from one line to another.
    pub fn across(&self, first: usize, last: usize) -> usize {
        (last + 1 - first) * self.column
    }

    pub fn plot_width(&self) -> usize {
        self.lines.max(1) * self.column
    }

    pub fn width(&self) -> usize {
        NARROWEST_PAGE.max(LEFT + self.plot_width() + MARGIN)
    }

    /// The top of a post's row, or of what follows the last row.
    pub fn row(&self, post: usize) -> usize {
        ROWS_TOP + post * ROW
    }

    pub fn rows_end(&self) -> usize {
        self.row(self.posts)
    }

    pub fn strip_top(&self) -> usize {
        self.rows_end() + STRIP_GAP
    }

    /// The height in the strip at which so many hold.
    pub fn strip(&self, holding: usize) -> usize {
        self.strip_top() + (self.most - holding) * self.unit
    }

    pub fn refused(&self) -> usize {
        self.strip(0) + REFUSED_GAP
    }

    /// What the line numbers stand on.
    pub fn numbers(&self) -> usize {
        self.refused() + REFUSED + NUMBERS
    }

    /// How the commands are set.
    pub fn commands(&self) -> Commands {
        match self.column {
            _ if self.lines == 0 => Commands::Omitted,
            COLUMN_OF_LEVEL.. => Commands::Level,
            COLUMN_OF_UPRIGHT.. => Commands::Upright,
            _ => Commands::Omitted,
        }
    }

    pub fn commands_top(&self) -> usize {
        self.numbers() + 10
    }

    pub fn height(&self) -> usize {
        let end = match self.commands() {
            Commands::Level => self.commands_top() + LEVEL,
            Commands::Upright => self.commands_top() + UPRIGHT,
            Commands::Omitted => self.numbers(),
        };
        end + MARGIN
    }

    /// The lines whose numbers are written.
    pub fn numbered(&self) -> impl Iterator<Item = usize> {
        let steps = [1, 2, 5, 10, 20, 50];
        let is_wide = |step: &usize| step * self.column >= BETWEEN_NUMBERS;
        let step = steps.into_iter().find(is_wide).unwrap_or(100);
        (step..=self.lines).step_by(step)
    }
}
