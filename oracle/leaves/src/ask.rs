//! What a leaf is asked, as the filter of served.c takes it and as text.

use oracle::text::{Page, hex};

/// A plan as C hands it over: two kinds and six numbers a band, where it is whole.
#[derive(Clone)]
pub struct Parts {
    pub kinds: Vec<u64>,
    pub numbers: Vec<f64>,
}

/// The type of a filter as C hands it over.
#[derive(Clone, Copy)]
pub struct Kind {
    pub symmetry: u64,
    pub odd: u64,
}

#[derive(Clone)]
pub enum Ask {
    Weights(Vec<f64>),
    Delta([Vec<f64>; 3]),
    Abscissas(f64, [Vec<f64>; 2]),
    Response(f64, [Vec<f64>; 3]),
    Responses([Vec<f64>; 4]),
    Nodes(u64),
    Coefficients(Vec<f64>),
    Taps(Vec<f64>, u64, u64),
    Desired(Parts, f64),
    Weight(Parts, f64),
    CheckResponse(Parts, Kind),
    AdjustBands(Parts, Kind),
    AdjustDesired(Parts, Kind, f64),
    AdjustWeights(Parts, Kind, f64),
    /// Begin and end of each band, and functions.
    First(Vec<f64>, u64),
    /// Points, and begin and end of each band.
    Subdivide([Vec<f64>; 2]),
    Colleague(Derivative),
    /// A matrix, row by row.
    Roots(Vec<f64>),
    /// Errors, and how many to keep.
    Prune(Vec<f64>, u64),
    /// Candidates, two words each, and how many to sort.
    Sort(Vec<u64>, u64),
}

/// A derivative's coefficients, and the cosines that make pm-remez come by them, where it can.
#[derive(Clone)]
pub struct Derivative {
    pub coefficients: Vec<f64>,
    pub cosines: Vec<f64>,
}

/// The lengths of a call's outputs.
#[derive(Clone, Copy)]
pub struct Room {
    pub counts: usize,
    pub out: usize,
}

/// The leaves in the order of served.c.
pub const LEAVES: [&str; 20] = [
    "weights",
    "delta",
    "abscissas",
    "response",
    "responses",
    "nodes",
    "coefficients",
    "taps",
    "desired",
    "weight",
    "check_response",
    "adjust_bands",
    "adjust_desired",
    "adjust_weights",
    "first",
    "subdivide",
    "colleague",
    "roots",
    "prune",
    "sort",
];

fn bits(list: &[f64]) -> Vec<u64> {
    list.iter().map(|x| x.to_bits()).collect()
}

impl Ask {
    pub fn leaf(&self) -> usize {
        match self {
            Ask::Weights(..) => 0,
            Ask::Delta(..) => 1,
            Ask::Abscissas(..) => 2,
            Ask::Response(..) => 3,
            Ask::Responses(..) => 4,
            Ask::Nodes(..) => 5,
            Ask::Coefficients(..) => 6,
            Ask::Taps(..) => 7,
            Ask::Desired(..) => 8,
            Ask::Weight(..) => 9,
            Ask::CheckResponse(..) => 10,
            Ask::AdjustBands(..) => 11,
            Ask::AdjustDesired(..) => 12,
            Ask::AdjustWeights(..) => 13,
            Ask::First(..) => 14,
            Ask::Subdivide(..) => 15,
            Ask::Colleague(..) => 16,
            Ask::Roots(..) => 17,
            Ask::Prune(..) => 18,
            Ask::Sort(..) => 19,
        }
    }

    /// Whole numbers, numbers among them by their bits.
    fn wholes(&self) -> Vec<u64> {
        match self {
            Ask::Abscissas(x, _) | Ask::Response(x, _) => vec![x.to_bits()],
            Ask::Nodes(n) | Ask::First(_, n) | Ask::Prune(_, n) | Ask::Sort(_, n) => vec![*n],
            Ask::Taps(_, taps, symmetry) => vec![*taps, *symmetry],
            Ask::Desired(_, f) | Ask::Weight(_, f) => vec![f.to_bits()],
            Ask::CheckResponse(_, kind) | Ask::AdjustBands(_, kind) => {
                vec![kind.symmetry, kind.odd]
            }
            Ask::AdjustDesired(_, kind, f) | Ask::AdjustWeights(_, kind, f) => {
                vec![kind.symmetry, kind.odd, f.to_bits()]
            }
            Ask::Weights(_)
            | Ask::Delta(_)
            | Ask::Responses(_)
            | Ask::Coefficients(_)
            | Ask::Subdivide(_)
            | Ask::Colleague(_)
            | Ask::Roots(_) => vec![],
        }
    }

    fn lists(&self) -> Vec<Vec<u64>> {
        let all = |lists: &[Vec<f64>]| lists.iter().map(|list| bits(list)).collect();
        match self {
            Ask::Weights(list)
            | Ask::Coefficients(list)
            | Ask::Taps(list, ..)
            | Ask::First(list, _)
            | Ask::Roots(list)
            | Ask::Prune(list, _) => vec![bits(list)],
            Ask::Colleague(derivative) => vec![bits(&derivative.coefficients)],
            Ask::Sort(words, _) => vec![words.clone()],
            Ask::Subdivide(lists) => all(lists),
            Ask::Delta(lists) | Ask::Response(_, lists) => all(lists),
            Ask::Abscissas(_, lists) => all(lists),
            Ask::Responses(lists) => all(lists),
            Ask::Nodes(_) => vec![],
            Ask::Desired(parts, _)
            | Ask::Weight(parts, _)
            | Ask::CheckResponse(parts, _)
            | Ask::AdjustBands(parts, _)
            | Ask::AdjustDesired(parts, ..)
            | Ask::AdjustWeights(parts, ..) => vec![parts.kinds.clone(), bits(&parts.numbers)],
        }
    }

    /// The block that asks it, with outputs of these lengths.
    pub fn block(&self, room: Room, words: &mut Vec<u64>) {
        let (wholes, lists) = (self.wholes(), self.lists());
        words.extend([
            self.leaf() as u64,
            room.counts as u64,
            room.out as u64,
            wholes.len() as u64,
            lists.len() as u64,
        ]);
        words.extend(wholes);
        for list in lists {
            words.push(list.len() as u64);
            words.extend(list);
        }
    }

    /// How many words it takes.
    pub fn size(&self) -> usize {
        let lists = self.lists();
        self.wholes().len() + lists.iter().map(|list| 1 + list.len()).sum::<usize>()
    }

    /// The lines of the text format (oracle/README.md); a plan as its two lists, since it may be damaged.
    pub fn text(&self, room: Room) -> String {
        let mut page = Page::default();
        page.line(format_args!("leaf {}", LEAVES[self.leaf()]));
        page.line(format_args!("room {} {}", room.counts, room.out));
        let named = |page: &mut Page, names: &[&str], lists: &[Vec<f64>]| {
            for (name, list) in names.iter().zip(lists) {
                page.numbers(name, list);
            }
        };
        match self {
            Ask::Weights(x) => page.numbers("points", x),
            Ask::Delta(lists) => named(&mut page, &["weights", "desired", "band_weights"], lists),
            Ask::Abscissas(delta, lists) => {
                page.number("delta", *delta);
                named(&mut page, &["desired", "band_weights"], lists);
            }
            Ask::Response(at, lists) => {
                page.number("at", *at);
                named(&mut page, &["points", "weights", "abscissas"], lists);
            }
            Ask::Responses(lists) => {
                named(&mut page, &["at", "points", "weights", "abscissas"], lists)
            }
            Ask::Nodes(degree) => page.line(format_args!("degree {degree}")),
            Ask::Coefficients(values) => page.numbers("values", values),
            Ask::Taps(list, taps, symmetry) => {
                page.line(format_args!("filter {taps} {symmetry}"));
                page.numbers("coefficients", list);
            }
            Ask::Desired(parts, f) | Ask::Weight(parts, f) => {
                parts.text(&mut page);
                page.number("at", *f);
            }
            Ask::CheckResponse(parts, kind) | Ask::AdjustBands(parts, kind) => {
                page.line(format_args!("type {} {}", kind.symmetry, kind.odd));
                parts.text(&mut page);
            }
            Ask::AdjustDesired(parts, kind, f) | Ask::AdjustWeights(parts, kind, f) => {
                page.line(format_args!("type {} {}", kind.symmetry, kind.odd));
                parts.text(&mut page);
                page.line(format_args!("at {}", hex(*f)));
            }
            Ask::First(bands, functions) => {
                page.line(format_args!("functions {functions}"));
                page.numbers("bands", bands);
            }
            Ask::Subdivide(lists) => named(&mut page, &["points", "bands"], lists),
            Ask::Colleague(derivative) => page.numbers("coefficients", &derivative.coefficients),
            Ask::Roots(matrix) => page.numbers("matrix", matrix),
            Ask::Prune(errors, keep) => {
                page.numbers("errors", errors);
                page.line(format_args!("keep {keep}"));
            }
            Ask::Sort(words, count) => {
                let list: Vec<String> = words.iter().map(|word| format!("{word:016x}")).collect();
                page.line(format_args!("candidates {} {}", list.len(), list.join(" ")));
                page.line(format_args!("sort {count}"));
            }
        }
        page.0
    }
}

impl Parts {
    fn text(&self, page: &mut Page) {
        let kinds: Vec<String> = self.kinds.iter().map(u64::to_string).collect();
        page.line(format_args!("kinds {} {}", kinds.len(), kinds.join(" ")));
        page.numbers("numbers", &self.numbers);
    }
}
