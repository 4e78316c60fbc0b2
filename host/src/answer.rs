// What a call answered, in document 01's numbers: 0 and the accepted answer's figures, or the refusal's number and figures; zeros after them.
use std::fmt;

#[derive(Clone, Copy, Debug, PartialEq, Eq)]
pub struct Answer {
    pub number: u64,
    pub figures: [u64; 4],
}

impl Answer {
    pub fn accepted(figures: [u64; 4]) -> Self {
        Self { number: 0, figures }
    }

    pub const fn refused(number: u64, figures: [u64; 4]) -> Self {
        Self { number, figures }
    }

    pub fn is_accepted(&self) -> bool {
        self.number == 0
    }
}

impl fmt::Display for Answer {
    fn fmt(&self, f: &mut fmt::Formatter) -> fmt::Result {
        let [a, b, c, d] = self.figures;
        write!(f, "{} {{{a}, {b}, {c}, {d}}}", self.number)
    }
}
