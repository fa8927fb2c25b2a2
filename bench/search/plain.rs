// The search of crates/core_search without cuts, and its dual simplex, in plain Rust, for bench/search.sh: the same models, verdicts, pivots,
// pseudo-costs and tree, on whole numbers alone, and no events. Numbers of 64 bits over one denominator; a division is taken as exact, and only sizes
// are tested.
use std::cmp::Ordering;
use std::collections::HashMap;
use std::env;
use std::error::Error;
use std::fs;
use std::time::Instant;

const LIMIT: i128 = 1 << 62;

#[derive(Clone, Copy)]
struct Span {
    lo: i64,
    hi: i64,
}

#[derive(Clone, Copy, PartialEq)]
enum Sense {
    AtLeast,
    AtMost,
    Equal,
}

struct Row {
    sense: Sense,
    rhs: i64,
    terms: Vec<(usize, i64)>,
}

struct Problem {
    rows: Vec<Row>,
    costs: Vec<i64>,
    root: Vec<Span>,
}

// ---- the model

/// Reads what bench/search/models.py writes: whole numbers, and columns of 0 and 1.
fn read(text: &str) -> Option<Problem> {
    let mut problem = Problem { rows: Vec::new(), costs: Vec::new(), root: Vec::new() };
    let (mut rows, mut columns) = (HashMap::new(), HashMap::new());
    let mut section = "";
    for line in text.lines() {
        let words: Vec<&str> = line.split_whitespace().collect();
        if !line.starts_with(' ') {
            section = words[0];
            continue;
        }
        match (section, words.as_slice()) {
            ("ROWS", [sense, name]) => {
                let sense = match *sense {
                    "G" => Sense::AtLeast,
                    "L" => Sense::AtMost,
                    "E" => Sense::Equal,
                    _ => continue,
                };
                rows.insert(name.to_string(), problem.rows.len());
                problem.rows.push(Row { sense, rhs: 0, terms: Vec::new() });
            }
            ("COLUMNS", [column, row, number]) if *row != "'MARKER'" => {
                let next = columns.len();
                let column = *columns.entry(column.to_string()).or_insert(next);
                if column == problem.costs.len() {
                    problem.costs.push(0);
                    problem.root.push(Span { lo: 0, hi: 1 });
                }
                let number = number.parse().ok()?;
                match rows.get(*row) {
                    Some(&row) => problem.rows[row].terms.push((column, number)),
                    None => problem.costs[column] = number,
                }
            }
            ("RHS", [_, row, number]) => problem.rows[rows[*row]].rhs = number.parse().ok()?,
            _ => {}
        }
    }
    Some(problem)
}

// ---- fractions

fn gcd(mut x: u128, mut y: u128) -> u128 {
    while y != 0 {
        if x < 1 << 64 && y < 1 << 64 {
            let (mut a, mut b) = (x as u64, y as u64);
            while b != 0 {
                (a, b) = (b, a % b);
            }
            return a.into();
        }
        (x, y) = (y, x % y);
    }
    x
}

#[derive(Clone, Copy)]
struct Frac {
    num: i128,
    den: i64,
}

fn reduced(num: i128, den: i64) -> Frac {
    let g = if den == 1 { 1 } else { gcd(num.unsigned_abs(), den as u128) as i128 };
    Frac { num: num / g, den: (i128::from(den) / g) as i64 }
}

// ---- the tableau

#[derive(Clone, Copy)]
struct Bounds {
    lower: Option<i64>,
    upper: Option<i64>,
}

/// A division by one number, which is exact: by the inverse of its odd part.
#[derive(Clone, Copy)]
struct Divisor {
    shift: u32,
    inverse: i64,
}

impl Divisor {
    fn new(number: i64) -> Divisor {
        let shift = number.trailing_zeros();
        let odd = number >> shift;
        let mut inverse = odd;
        for _ in 0..5 {
            inverse = inverse.wrapping_mul(2i64.wrapping_sub(odd.wrapping_mul(inverse)));
        }
        Divisor { shift, inverse }
    }

    fn divide_wide(self, number: i128) -> i64 {
        ((number >> (self.shift & 63)) as i64).wrapping_mul(self.inverse)
    }
}

/// A row of numerators with a bound on their sizes.
struct Numbers {
    items: Vec<i64>,
    size: i64,
}

impl Numbers {
    fn new(items: Vec<i64>) -> Numbers {
        let mut numbers = Numbers { items, size: 0 };
        numbers.look();
        numbers
    }

    fn look(&mut self) {
        self.size = self.items.iter().fold(0, |size, number| size.max(number.abs()));
    }

    /// `row * e + source * q`, over the old denominator, with 0 in the column before; none where a number is too large.
    fn substitute(&mut self, column: usize, source: &Numbers, e: i64, old: i64, divisor: Divisor) -> Option<()> {
        let q = self.items[column];
        if q == 0 && e == old {
            return Some(());
        }
        self.items[column] = 0;
        let size = i128::from(self.size) * i128::from(e) + i128::from(source.size) * i128::from(q.abs());
        if size < LIMIT {
            // The factors are divided by the odd part first, modulo 2^64: two multiplications a number.
            let (e, q) = (e.wrapping_mul(divisor.inverse), q.wrapping_mul(divisor.inverse));
            for (t, s) in self.items.iter_mut().zip(&source.items) {
                *t = t.wrapping_mul(e).wrapping_add(s.wrapping_mul(q)) >> (divisor.shift & 63);
            }
            self.size = size as i64 / old;
        } else {
            for (t, s) in self.items.iter_mut().zip(&source.items) {
                *t = divisor.divide_wide(i128::from(*t) * i128::from(e) + i128::from(*s) * i128::from(q));
            }
            self.look();
        }
        (i128::from(self.size) < LIMIT).then_some(())
    }
}

/// Where a variable stands: basic, or in a column of the tableau.
#[derive(Clone, Copy, PartialEq)]
enum Place {
    Basic,
    Column(usize),
}

/// Rows and values are kept of the problem's columns alone: those of a row's variable are a combination of them.
struct Tableau<'a> {
    program: &'a Program<'a>,
    bounds: Vec<Bounds>,
    places: Vec<Place>,
    nonbasic: Vec<usize>,
    at_upper: Vec<bool>,
    bound: Vec<i64>,
    rows: Vec<Numbers>,
    costs: Numbers,
    values: Vec<i64>,
    denominator: i64,
    pivots: u64,
}

enum End {
    Done,
    NoColumn { variable: usize, row: Numbers, rises: bool },
    Stalled,
}

/// A problem with the sum of the sizes in each row.
struct Program<'a> {
    problem: &'a Problem,
    weights: Vec<i64>,
}

fn row_bounds(row: &Row) -> Bounds {
    Bounds {
        lower: (row.sense != Sense::AtMost).then_some(row.rhs),
        upper: (row.sense != Sense::AtLeast).then_some(row.rhs),
    }
}

impl Bounds {
    /// Whether a value over the denominator has to rise, or has to fall; none where it is within the bounds.
    fn violation(self, value: i128, denominator: i64) -> Option<bool> {
        let d = i128::from(denominator);
        if self.lower.is_some_and(|lower| value < i128::from(lower) * d) {
            Some(true)
        } else if self.upper.is_some_and(|upper| value > i128::from(upper) * d) {
            Some(false)
        } else {
            None
        }
    }
}

impl<'a> Tableau<'a> {
    fn start(program: &'a Program<'a>, area: &[Span]) -> Tableau<'a> {
        let problem = program.problem;
        let columns = problem.costs.len();
        let at_upper: Vec<bool> = problem.costs.iter().map(|&cost| cost < 0).collect();
        let bound: Vec<i64> = area.iter().zip(&at_upper).map(|(span, &upper)| if upper { span.hi } else { span.lo }).collect();
        Tableau {
            program,
            bounds: area
                .iter()
                .map(|span| Bounds { lower: Some(span.lo), upper: Some(span.hi) })
                .chain(problem.rows.iter().map(row_bounds))
                .collect(),
            places: (0..columns).map(Place::Column).chain(problem.rows.iter().map(|_| Place::Basic)).collect(),
            nonbasic: (0..columns).collect(),
            at_upper,
            values: bound.clone(),
            bound,
            rows: (0..columns).map(|_| Numbers { items: Vec::new(), size: 0 }).collect(),
            costs: Numbers::new(problem.costs.clone()),
            denominator: 1,
            pivots: 0,
        }
    }

    /// The numerator of a variable's value.
    fn value(&self, variable: usize) -> i128 {
        match variable.checked_sub(self.rows.len()) {
            None => self.values[variable].into(),
            Some(row) => self.program.problem.rows[row].terms.iter().map(|&(j, a)| i128::from(a) * i128::from(self.values[j])).sum(),
        }
    }

    /// The basic variable of least number that is outside its bounds, its value, and whether it is to rise.
    fn leaving(&self) -> Option<(usize, i128, bool)> {
        (0..self.places.len()).filter(|&variable| self.places[variable] == Place::Basic).find_map(|variable| {
            let value = self.value(variable);
            let rises = self.bounds[variable].violation(value, self.denominator)?;
            Some((variable, value, rises))
        })
    }

    /// The row of a basic variable; that of a column is taken out. None where a number is too large.
    fn take_row(&mut self, variable: usize) -> Option<Numbers> {
        let Some(row) = variable.checked_sub(self.rows.len()) else {
            return Some(std::mem::replace(&mut self.rows[variable], Numbers { items: Vec::new(), size: 0 }));
        };
        let most = self.rows.iter().fold(self.denominator, |most, row| most.max(row.size));
        if i128::from(self.program.weights[row]) * i128::from(most) >= LIMIT {
            return self.take_wide_row(row);
        }
        let mut items = vec![0; self.nonbasic.len()];
        for &(j, a) in &self.program.problem.rows[row].terms {
            match self.places[j] {
                Place::Column(k) => items[k] += a * self.denominator,
                Place::Basic => items.iter_mut().zip(&self.rows[j].items).for_each(|(t, s)| *t += a * s),
            }
        }
        Some(Numbers::new(items))
    }

    /// The same where the sizes alone don't show that the numbers are small.
    fn take_wide_row(&self, row: usize) -> Option<Numbers> {
        let mut items = vec![0i128; self.nonbasic.len()];
        for &(j, a) in &self.program.problem.rows[row].terms {
            let a = i128::from(a);
            match self.places[j] {
                Place::Column(k) => items[k] += a * i128::from(self.denominator),
                Place::Basic => items.iter_mut().zip(&self.rows[j].items).for_each(|(t, &s)| *t += a * i128::from(s)),
            }
        }
        let items: Option<Vec<i64>> = items.into_iter().map(|t| i64::try_from(t).ok().filter(|&t| i128::from(t).abs() < LIMIT)).collect();
        items.map(Numbers::new)
    }

    /// The column of least ratio, and on a tie of the variable of least number.
    fn entering(&self, row: &Numbers, rises: bool) -> Option<usize> {
        let mut best: Option<(usize, u64, u64)> = None;
        for (k, (&t, &d)) in row.items.iter().zip(&self.costs.items).enumerate() {
            let bounds = self.bounds[self.nonbasic[k]];
            if t == 0 || (t > 0) != (rises != self.at_upper[k]) || (bounds.lower.is_some() && bounds.lower == bounds.upper) {
                continue;
            }
            let (t, d) = (t.unsigned_abs(), d.unsigned_abs());
            let is_better = best.is_none_or(|(b, bt, bd)| {
                match (u128::from(d) * u128::from(bt)).cmp(&(u128::from(bd) * u128::from(t))) {
                    Ordering::Less => true,
                    Ordering::Equal => self.nonbasic[k] < self.nonbasic[b],
                    Ordering::Greater => false,
                }
            });
            if is_better {
                best = Some((k, t, d));
            }
        }
        best.map(|(k, _, _)| k)
    }

    /// Exchanges a basic variable, whose row and value these are, with the one of column k. None where a number is too large.
    fn pivot(&mut self, variable: usize, mut row: Numbers, value: i128, k: usize, rises: bool) -> Option<()> {
        let old = self.denominator;
        let divisor = Divisor::new(old);
        let leaving = self.bounds[variable];
        let bound = if rises { leaving.lower } else { leaving.upper }?;
        let p = row.items[k];
        row.items[k] = -old;
        let value = value - i128::from(p) * i128::from(self.bound[k]) - i128::from(old) * i128::from(bound);
        let value = if p > 0 { -value } else { value };
        if p > 0 {
            row.items.iter_mut().for_each(|t| *t = -*t);
        }
        row.size = row.size.max(old);
        let e = p.abs();
        for (other, own) in self.rows.iter_mut().zip(&mut self.values) {
            if other.items.is_empty() {
                continue;
            }
            let q = i128::from(other.items[k]);
            let new = (i128::from(*own) - q * i128::from(self.bound[k])).checked_mul(e.into())?.checked_add(q.checked_mul(value)?)?;
            *own = i64::try_from(if old == 1 { new } else { new / i128::from(old) }).ok()?;
            other.substitute(k, &row, e, old, divisor)?;
        }
        self.costs.substitute(k, &row, e, old, divisor)?;
        self.exchange(variable, k, row, value, bound, rises)?;
        self.denominator = e;
        self.pivots += 1;
        for (&variable, &bound) in self.nonbasic.iter().zip(&self.bound) {
            if variable < self.rows.len() {
                self.values[variable] = bound.checked_mul(e)?;
            }
        }
        Some(())
    }

    /// Puts the leaving variable into column k, at its bound, and the row and value of the entering one into their place.
    fn exchange(&mut self, variable: usize, k: usize, row: Numbers, value: i128, bound: i64, rises: bool) -> Option<()> {
        let entering = self.nonbasic[k];
        if entering < self.rows.len() {
            self.rows[entering] = row;
            self.values[entering] = i64::try_from(value).ok()?;
        }
        self.places[entering] = Place::Basic;
        self.places[variable] = Place::Column(k);
        self.nonbasic[k] = variable;
        self.at_upper[k] = !rises;
        self.bound[k] = bound;
        Some(())
    }

    fn run(&mut self) -> Option<End> {
        let cap = 20 * self.bounds.len() as u64 + 100;
        while self.pivots < cap {
            let Some((variable, value, rises)) = self.leaving() else { return Some(End::Done) };
            let row = self.take_row(variable)?;
            let Some(k) = self.entering(&row, rises) else { return Some(End::NoColumn { variable, row, rises }) };
            self.pivot(variable, row, value, k, rises)?;
        }
        Some(End::Stalled)
    }

    /// The multipliers of the rows by the numbers of a list over the columns.
    fn multipliers(&self, numbers: &[i64]) -> Vec<(u32, Frac)> {
        let columns = self.rows.len();
        let mut named: Vec<(u32, i64)> = self
            .nonbasic
            .iter()
            .zip(numbers)
            .filter(|&(&variable, &number)| variable >= columns && number != 0)
            .map(|(&variable, &number)| ((variable - columns) as u32, number))
            .collect();
        named.sort_unstable_by_key(|&(row, _)| row);
        named.into_iter().map(|(row, number)| (row, reduced(number.into(), self.denominator))).collect()
    }

    fn point(&self) -> Vec<Frac> {
        self.values.iter().map(|&value| reduced(value.into(), self.denominator)).collect()
    }
}

enum Answer {
    Infeasible(Vec<(u32, Frac)>),
    Optimal { point: Vec<Frac>, mult: Vec<(u32, Frac)>, value: Frac },
    Stalled,
}

/// What the dual simplex answers, and the pivots that it took; none where a number is too large.
fn solve(program: &Program, area: &[Span]) -> Option<(Answer, u64)> {
    let columns = program.problem.costs.len();
    let mut tableau = Tableau::start(program, area);
    let answer = match tableau.run()? {
        End::Done => {
            let value = program.problem.costs.iter().zip(&tableau.values).map(|(&cost, &value)| i128::from(cost) * i128::from(value)).sum();
            Answer::Optimal {
                point: tableau.point(),
                mult: tableau.multipliers(&tableau.costs.items),
                value: reduced(value, tableau.denominator),
            }
        }
        End::NoColumn { variable, row, rises } => {
            let signed: Vec<i64> = row.items.iter().map(|&t| if rises { -t } else { t }).collect();
            let mut mult = tableau.multipliers(&signed);
            if let Some(own) = variable.checked_sub(columns) {
                let place = mult.partition_point(|&(row, _)| (row as usize) < own);
                mult.insert(place, (own as u32, Frac { num: if rises { 1 } else { -1 }, den: 1 }));
            }
            Answer::Infeasible(mult)
        }
        End::Stalled => Answer::Stalled,
    };
    Some((answer, tableau.pivots))
}

// ---- the search

#[derive(Clone, Copy)]
enum Side {
    Low,
    High,
}

#[derive(Clone, Copy)]
struct Branch {
    parent: u32,
    column: u32,
    side: Side,
    bound: i64,
}

enum Ending {
    Empty { column: u32 },
    Refute { mult: Vec<(u32, Frac)> },
    Bound { mult: Vec<(u32, Frac)>, rounded: bool },
    Split { column: u32, bound: i64, left: u32, point: Vec<Frac> },
}

struct Node {
    branch: Option<Branch>,
    ending: Option<Ending>,
}

/// The split at a fractional optimum that made a node: its column, the node's side, and the optimal value.
#[derive(Clone, Copy)]
struct Origin {
    column: usize,
    side: Side,
    value: Frac,
}

struct Open {
    number: u32,
    area: Vec<Span>,
    origin: Option<Origin>,
}

/// What the splits of a column have gained on one side.
#[derive(Clone, Copy, Default)]
struct Gains {
    count: u64,
    sum: u64,
}

impl Gains {
    fn average(self) -> u64 {
        self.sum.checked_div(self.count).unwrap_or(0)
    }
}

const MOST_GAIN: u64 = 1_000_000_000;

/// `floor(1000 (value - parent))`, held within 0 and 10^9; none where a number is too large.
fn gain(value: Frac, parent: Frac) -> Option<u64> {
    let (own, other) = (value.num.checked_mul(parent.den.into())?, parent.num.checked_mul(value.den.into())?);
    let den = i128::from(value.den).checked_mul(parent.den.into())?;
    let change = own.checked_sub(other)?.checked_mul(1000)?.div_euclid(den);
    Some(change.clamp(0, MOST_GAIN.into()) as u64)
}

enum Verdict {
    Empty(u32),
    Refuted(u32, i64),
    Priced,
    Point,
    Unsettled,
}

/// The least value of a sum over the box, where the sign is 1, and minus the greatest, where it is -1.
fn least(terms: &[(usize, i64)], area: &[Span], sign: i64) -> i128 {
    terms
        .iter()
        .map(|&(column, coefficient)| {
            let coefficient = coefficient * sign;
            let end = if coefficient > 0 { area[column].lo } else { area[column].hi };
            i128::from(coefficient) * i128::from(end)
        })
        .sum()
}

struct Run<'a> {
    program: &'a Program<'a>,
    objective: Vec<(usize, i64)>,
    nodes: Vec<Node>,
    open: Vec<Open>,
    incumbent: Option<Vec<i64>>,
    cutoff: Option<i128>,
    /// Of each column the gains of its left children, then those of its right ones.
    costs: Vec<[Gains; 2]>,
    pivots: u64,
}

fn weights(problem: &Problem) -> Vec<i64> {
    problem.rows.iter().map(|row| row.terms.iter().map(|&(_, number)| number.abs()).sum()).collect()
}

impl<'a> Run<'a> {
    fn new(program: &'a Program<'a>) -> Run<'a> {
        let problem = program.problem;
        Run {
            program,
            objective: problem.costs.iter().copied().enumerate().filter(|&(_, cost)| cost != 0).collect(),
            nodes: vec![Node { branch: None, ending: None }],
            open: vec![Open { number: 0, area: problem.root.clone(), origin: None }],
            incumbent: None,
            cutoff: None,
            costs: vec![Default::default(); problem.costs.len()],
            pivots: 0,
        }
    }

    fn verdict(&self, area: &[Span]) -> Verdict {
        if let Some(column) = area.iter().position(|span| span.hi < span.lo) {
            return Verdict::Empty(column as u32);
        }
        for (index, row) in self.program.problem.rows.iter().enumerate() {
            if row.sense != Sense::AtLeast && least(&row.terms, area, 1) > row.rhs.into() {
                return Verdict::Refuted(index as u32, -1);
            }
            if row.sense != Sense::AtMost && -least(&row.terms, area, -1) < row.rhs.into() {
                return Verdict::Refuted(index as u32, 1);
            }
        }
        if self.cutoff.is_some_and(|cutoff| least(&self.objective, area, 1) >= cutoff) {
            return Verdict::Priced;
        }
        if area.iter().all(|span| span.lo == span.hi) { Verdict::Point } else { Verdict::Unsettled }
    }

    fn accept(&mut self, point: Vec<i64>) {
        self.cutoff = Some(self.objective.iter().map(|&(column, cost)| i128::from(cost) * i128::from(point[column])).sum());
        self.incumbent = Some(point);
    }

    /// Notes what the split that made a node has gained.
    fn note(&mut self, origin: Option<Origin>, answer: &Answer) {
        let Some(origin) = origin else { return };
        let gain = match answer {
            Answer::Infeasible(_) => Some(MOST_GAIN),
            Answer::Optimal { value, .. } => gain(*value, origin.value),
            Answer::Stalled => None,
        };
        if let Some(gain) = gain {
            let gains = &mut self.costs[origin.column][matches!(origin.side, Side::Low) as usize];
            gains.count += 1;
            gains.sum += gain;
        }
    }

    /// The column of greatest score among those where the point isn't whole, the least on a tie.
    fn fractional_column(&self, point: &[Frac]) -> Option<usize> {
        let mut best: Option<(usize, u128)> = None;
        for (column, _) in point.iter().enumerate().filter(|(_, number)| number.den != 1) {
            let [down, up] = self.costs[column].map(|gains| u128::from(gains.average()) + 1);
            if best.is_none_or(|(_, score)| score < down * up) {
                best = Some((column, down * up));
            }
        }
        best.map(|(column, _)| column)
    }

    fn split(&mut self, node: Open, column: usize, bound: i64, point: Vec<Frac>, value: Frac) {
        let left = self.nodes.len() as u32;
        for (side, bound) in [(Side::High, bound), (Side::Low, bound + 1)] {
            let branch = Branch { parent: node.number, column: column as u32, side, bound };
            self.nodes.push(Node { branch: Some(branch), ending: None });
        }
        self.nodes[node.number as usize].ending = Some(Ending::Split { column: column as u32, bound, left, point });
        let mut right = node.area.clone();
        right[column].lo = bound + 1;
        let mut area = node.area;
        area[column].hi = bound;
        // Side::High is the branch of a left child, which cuts the column's high end.
        let origin = |side| Some(Origin { column, side, value });
        self.open.push(Open { number: left, area, origin: origin(Side::High) });
        self.open.push(Open { number: left + 1, area: right, origin: origin(Side::Low) });
    }

    /// How a node ends by its linear program; the node comes back where the budget is spent.
    fn relax(&mut self, node: Open, budget: usize) -> Option<Option<Open>> {
        let (answer, pivots) = solve(self.program, &node.area)?;
        self.pivots += pivots;
        self.note(node.origin, &answer);
        let ending = match answer {
            Answer::Infeasible(mult) => Ending::Refute { mult },
            Answer::Optimal { point, mult, value } => {
                // The objective is whole, so that a bound is rounded up.
                let bound = value.num.div_euclid(value.den.into()) + i128::from(value.den != 1);
                let rounded = value.den != 1;
                if self.cutoff.is_some_and(|cutoff| bound >= cutoff) {
                    Ending::Bound { mult, rounded }
                } else if let Some(column) = self.fractional_column(&point) {
                    if self.nodes.len() + 2 > budget {
                        return Some(Some(node));
                    }
                    let floor = point[column].num.div_euclid(point[column].den.into()) as i64;
                    self.split(node, column, floor, point, value);
                    return Some(None);
                } else {
                    self.accept(point.iter().map(|number| number.num as i64).collect());
                    Ending::Bound { mult, rounded }
                }
            }
            Answer::Stalled => return None,
        };
        self.nodes[node.number as usize].ending = Some(ending);
        Some(None)
    }

    /// Whether the next open node was treated; none where a number is too large.
    fn step(&mut self, budget: usize) -> Option<bool> {
        let Some(node) = self.open.pop() else { return Some(false) };
        let ending = match self.verdict(&node.area) {
            Verdict::Empty(column) => Ending::Empty { column },
            Verdict::Refuted(row, sign) => Ending::Refute { mult: vec![(row, Frac { num: sign.into(), den: 1 })] },
            Verdict::Priced => Ending::Bound { mult: Vec::new(), rounded: false },
            Verdict::Point => {
                self.accept(node.area.iter().map(|span| span.lo).collect());
                Ending::Bound { mult: Vec::new(), rounded: false }
            }
            Verdict::Unsettled => {
                let left = self.relax(node, budget)?;
                let is_done = left.is_none();
                self.open.extend(left);
                return Some(is_done);
            }
        };
        self.nodes[node.number as usize].ending = Some(ending);
        Some(true)
    }
}

/// What the nodes hold, so that none of it is left out.
fn sum(nodes: &[Node]) -> i64 {
    let branch = |b: &Branch| i64::from(b.parent) + i64::from(b.column) + b.bound + matches!(b.side, Side::Low) as i64;
    let ending = |e: &Ending| match e {
        Ending::Empty { column } => i64::from(*column),
        Ending::Refute { mult } => mult.len() as i64,
        Ending::Bound { mult, rounded } => mult.len() as i64 + i64::from(*rounded),
        Ending::Split { column, bound, left, point } => i64::from(*column) + bound + i64::from(*left) + point.len() as i64,
    };
    nodes.iter().map(|n| n.branch.as_ref().map_or(0, branch) + n.ending.as_ref().map_or(0, ending)).sum()
}

/// `search MODEL BUDGET` prints the nanoseconds, the nodes, the cuts, how the search ended, the pivots, and what tells that it was done.
fn main() -> Result<(), Box<dyn Error>> {
    let words: Vec<String> = env::args().skip(1).collect();
    let [command, model, budget] = words.as_slice() else { return Err("search MODEL BUDGET".into()) };
    if command != "search" {
        return Err("search MODEL BUDGET".into());
    }
    let problem = read(&fs::read_to_string(model)?).ok_or("a model that can't be read")?;
    let budget: usize = budget.parse()?;
    let start = Instant::now();
    let program = Program { problem: &problem, weights: weights(&problem) };
    let mut run = Run::new(&program);
    while run.step(budget).ok_or("a number is too large")? {}
    let time = start.elapsed().as_nanos();
    let ending = if run.open.is_empty() { "finished" } else { "spent" };
    println!("{time} {} 0 {ending} {} {} {:?}", run.nodes.len(), run.pivots, sum(&run.nodes), run.cutoff);
    Ok(())
}
