//! The domains that are compared, by number and by name.

use crate::domain::Domain;
use crate::pair::Pair;
use crate::span::Span;

pub type Spans2 = Pair<Span, Span>;
pub type Spans4 = Pair<Spans2, Spans2>;
pub type Spans8 = Pair<Spans4, Spans4>;
pub type Spans9 = Pair<Spans8, Span>;

/// The names, each at its number.
pub const NAMES: [&str; 11] = [
    "spans",
    "strides",
    "nonzero(spans)",
    "nonzero(strides)",
    "pair(spans,strides)",
    "pair(strides,spans)",
    "pair(nonzero(spans),strides)",
    "nonzero(pair(spans,strides))",
    "pair(spans,nonzero(strides))",
    "spans8",
    "spans9",
];

/// Does `$body` with `$name` for the domain of a number, or `$other` if there is none.
#[macro_export]
macro_rules! in_domain {
    ($number:expr, $name:ident => $body:expr, else $other:expr) => {{
        use $crate::catalog::{Spans8, Spans9};
        use $crate::nonzero::Nonzero;
        use $crate::pair::Pair;
        use $crate::span::Span;
        use $crate::stride::Stride;
        match $number {
            0 => {
                type $name = Span;
                $body
            }
            1 => {
                type $name = Stride;
                $body
            }
            2 => {
                type $name = Nonzero<Span>;
                $body
            }
            3 => {
                type $name = Nonzero<Stride>;
                $body
            }
            4 => {
                type $name = Pair<Span, Stride>;
                $body
            }
            5 => {
                type $name = Pair<Stride, Span>;
                $body
            }
            6 => {
                type $name = Pair<Nonzero<Span>, Stride>;
                $body
            }
            7 => {
                type $name = Nonzero<Pair<Span, Stride>>;
                $body
            }
            8 => {
                type $name = Pair<Span, Nonzero<Stride>>;
                $body
            }
            9 => {
                type $name = Spans8;
                $body
            }
            10 => {
                type $name = Spans9;
                $body
            }
            _ => $other,
        }
    }};
}

/// The bytes of a cell of a domain; none if there is no such domain.
pub fn width(domain: u32) -> Option<usize> {
    in_domain!(domain, D => Some(D::WIDTH), else None)
}

#[cfg(test)]
mod tests {
    use super::*;

    #[test]
    fn widths() {
        let widths: Vec<usize> = (0..11).filter_map(width).collect();
        assert_eq!(widths, [8, 6, 9, 7, 14, 14, 15, 15, 15, 64, 0]);
        assert_eq!(width(11), None);
    }
}
