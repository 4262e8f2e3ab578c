//! Files that look like what F* exports: module-qualified names, types with constructors, functions with their tokens,
//! typing facts, equations and lemmas, and one goal.

use std::collections::{HashMap, HashSet};

use crate::random::Random;
use crate::terms::TermId;
use crate::text::Text;

const MODULES: [&str; 12] = [
    "Head.Geometry",
    "Head.Geometry.Lemmas",
    "Head.Dots",
    "Head.Dots.Wear",
    "Head.Strobe",
    "Head.Strobe.Table",
    "Head.Strobe.Table.Lemmas",
    "Head.Strobe.Timing",
    "Head.Driver.Latch",
    "Head.Driver.ShiftRegister",
    "Head.Thermal.Model",
    "Head.Thermal.Budget",
];

const NOUNS: [&str; 20] = [
    "dot", "row", "line", "pulse", "strobe", "period", "width", "offset", "latch", "energy", "budget", "margin",
    "wear", "phase", "table", "index", "limit", "group", "clock", "history",
];

const VERBS: [&str; 12] =
    ["get", "set", "next", "sum", "max", "within", "shift", "merge", "scale", "check", "clear", "step"];

/// How often a declaration may be too long before the file counts as full.
const TRIES: usize = 20;

/// A file of at most so many bytes, and not many less; at least 2,000 are needed. The same seed gives the same file.
pub fn export(seed: u64, bytes: usize) -> Vec<u8> {
    let mut exporter = Exporter::new(seed);
    exporter.prelude();
    let mut file = exporter.clone().goal();
    let (mut module, mut failed) = (0, 0);
    while failed < TRIES {
        let mut next = exporter.clone();
        next.module = MODULES[module % MODULES.len()];
        next.declaration();
        module += usize::from(next.random.chance(12));
        let longer = next.clone().goal();
        if longer.len() <= bytes {
            (exporter, file) = (next, longer);
        } else {
            exporter.random = next.random;
            failed += 1;
        }
    }
    file
}

/// A function and how many arguments it takes.
#[derive(Clone)]
struct Function {
    name: String,
    arity: usize,
}

#[derive(Clone)]
struct Exporter {
    random: Random,
    text: Text,
    /// The term of each line that is there already: equal terms are shared.
    shared: HashMap<String, TermId>,
    /// The names of all records.
    taken: HashSet<String>,
    module: &'static str,
    types: Vec<String>,
    functions: Vec<Function>,
}

impl Exporter {
    fn new(seed: u64) -> Self {
        Exporter {
            random: Random::new(seed),
            text: Text::ask(0, 4),
            shared: HashMap::new(),
            taken: HashSet::new(),
            module: MODULES[0],
            types: Vec::new(),
            functions: Vec::new(),
        }
    }

    fn share(&mut self, key: String, make: impl FnOnce(&mut Text) -> TermId) -> TermId {
        if let Some(&term) = self.shared.get(&key) {
            return term;
        }
        let term = make(&mut self.text);
        self.shared.insert(key, term);
        term
    }

    /// A bound variable or a literal.
    fn leaf(&mut self) -> TermId {
        self.share("leaf".to_owned(), Text::leaf)
    }

    fn call(&mut self, name: &str, parts: &[TermId]) -> TermId {
        self.share(format!("call {name} {parts:?}"), |text| text.call(name, parts))
    }

    fn op(&mut self, word: &str, parts: &[TermId]) -> TermId {
        self.share(format!("op {word} {parts:?}"), |text| text.op(word, parts))
    }

    fn all(&mut self, body: TermId, groups: &[Vec<TermId>]) -> TermId {
        self.share(format!("all {body} {groups:?}"), |text| text.all(body, groups))
    }

    /// A call of a constant.
    fn constant(&mut self, name: &str) -> TermId {
        self.call(name, &[])
    }

    fn has_type(&mut self, term: TermId, ty: &str) -> TermId {
        let ty = self.constant(ty);
        self.call("HasType", &[term, ty])
    }

    fn valid(&mut self, term: TermId) -> TermId {
        self.call("Valid", &[term])
    }

    fn fun(&mut self, name: &str) {
        if self.taken.insert(name.to_owned()) {
            self.text.fun(name);
        }
    }

    fn assume(&mut self, name: String, flag: u32, term: TermId) {
        if self.taken.insert(name.clone()) {
            self.text.assume(name, flag, term);
        }
    }

    /// The number that stands for a term in a name of F*'s making.
    fn hash(&mut self) -> String {
        format!("{:016x}{:016x}", self.random.bits(), self.random.bits())
    }

    /// A name of the module that is not taken.
    fn name(&mut self, first: &[&str]) -> String {
        loop {
            let (first, second) = (self.random.pick(first), self.random.pick(&NOUNS));
            let name = match self.random.below(3) {
                0 => format!("{}.{first}_{second}", self.module),
                1 => format!("{}.{first}_{second}_{}", self.module, self.random.pick(&NOUNS)),
                _ => format!("{}.{first}_{second}{}", self.module, self.random.below(10)),
            };
            if !self.taken.contains(&name) {
                return name;
            }
        }
    }

    /// A type that is there, mostly a late one.
    fn ty(&mut self) -> String {
        let back = if self.random.chance(70) { self.types.len().min(5) } else { self.types.len() };
        self.types[self.types.len() - 1 - self.random.below(back)].clone()
    }

    /// A function that is there, mostly a late one.
    fn function(&mut self) -> Function {
        let back = if self.random.chance(70) { self.functions.len().min(8) } else { self.functions.len() };
        self.functions[self.functions.len() - 1 - self.random.below(back)].clone()
    }

    /// An expression over bound variables.
    fn expression(&mut self, depth: usize) -> TermId {
        if depth == 0 || self.random.chance(25) {
            return self.leaf();
        }
        self.application(depth)
    }

    /// A function of expressions.
    fn application(&mut self, depth: usize) -> TermId {
        let Function { name, arity } = self.function();
        let parts: Vec<TermId> = (0..arity).map(|_| self.expression(depth - 1)).collect();
        self.call(&name, &parts)
    }

    /// A proposition over expressions.
    fn proposition(&mut self) -> TermId {
        let (left, right) = (self.application(2), self.expression(1));
        match self.random.below(4) {
            0 => self.op("eq", &[left, right]),
            1 => self.op("other", &[left, right]),
            2 => {
                let ty = self.ty();
                self.has_type(left, &ty)
            }
            _ => {
                let equal = self.call("Prims.op_Equality", &[left, right]);
                self.valid(equal)
            }
        }
    }

    /// What every file starts with.
    fn prelude(&mut self) {
        for name in ["Prims.bool", "Prims.int"] {
            self.fun(name);
            self.types.push(name.to_owned());
            let constant = self.constant(name);
            let kinding = self.has_type(constant, "Tm_type");
            self.assume(format!("kinding_{name}@tok"), 0, kinding);
        }
        for (name, arity) in [("Prims.op_Addition", 2), ("Prims.op_LessThanOrEqual", 2)] {
            self.fun(name);
            self.functions.push(Function { name: name.to_owned(), arity });
            let x = self.leaf();
            let applied = self.call(name, &[x, x]);
            let unboxed = self.call("BoxInt_proj_0", &[x]);
            let sum = self.op("other", &[unboxed, unboxed]);
            let boxed = self.call("BoxInt", &[sum]);
            let equal = self.op("eq", &[applied, boxed]);
            let fact = self.all(equal, &[vec![applied]]);
            self.assume(format!("equation_{name}"), 0, fact);
        }
        let x = self.leaf();
        let is_int = self.call("is-BoxInt", &[x]);
        let typed = self.has_type(x, "Prims.int");
        let implied = self.op("other", &[typed, is_int]);
        let fact = self.all(implied, &[vec![typed]]);
        self.assume("inversion_Prims.int".to_owned(), 0, fact);
    }

    fn declaration(&mut self) {
        match self.random.below(20) {
            0..=2 => self.data_type(),
            3..=13 => self.let_function(),
            14..=15 => self.refinement(),
            16..=18 => self.lemma(),
            _ => self.local(),
        }
    }

    /// An inductive type with its constructors.
    fn data_type(&mut self) {
        let name = self.name(&NOUNS);
        let token = format!("{name}@tok");
        self.fun(&name);
        self.fun(&token);
        let x = self.leaf();
        let ty = self.constant(&name);
        let kinding = self.has_type(ty, "Tm_type");
        self.assume(format!("kinding_{name}@tok"), 0, kinding);
        let token = self.constant(&token);
        let fresh = self.call("Term_constr_id", &[token]);
        let fresh = self.op("eq", &[x, fresh]);
        self.assume(format!("fresh_token_{name}@tok"), 0, fresh);

        let typed = self.call("HasType", &[x, ty]);
        let pretype = self.call("PreType", &[x]);
        let same = self.op("eq", &[ty, pretype]);
        let body = self.op("other", &[typed, same]);
        let fact = self.all(body, &[vec![typed]]);
        let hash = self.hash();
        self.assume(format!("pretyping_{hash}"), 1, fact);

        for index in 0..self.random.within(1..=2) {
            self.constructor(&name, ty, index);
        }
        self.types.push(name);
    }

    fn constructor(&mut self, of: &str, ty: TermId, index: usize) {
        let (head, last) = of.rsplit_once('.').unwrap_or(("", of));
        let name = format!("{head}.Mk{last}{index}");
        self.fun(&name);
        let x = self.leaf();
        let made = self.call(&name, &[x, x]);
        let typed = self.call("HasTypeFuel", &[x, made, ty]);
        let part = self.ty();
        let part = self.has_type(x, &part);
        let body = self.op("other", &[part, typed]);
        let intro = self.all(body, &[vec![typed]]);
        self.assume(format!("data_typing_intro_{name}@tok"), 0, intro);

        let field = self.random.pick(&NOUNS);
        let projector = format!("{name}_{field}");
        self.fun(&projector);
        let projected = self.call(&projector, &[made]);
        let equal = self.op("eq", &[projected, x]);
        let inverse = self.all(equal, &[vec![made]]);
        self.assume(format!("projection_inverse_{projector}"), 0, inverse);
        self.functions.push(Function { name: projector, arity: 1 });

        let id = self.call("Term_constr_id", &[made]);
        let distinct = self.op("eq", &[x, id]);
        let distinct = self.all(distinct, &[vec![made]]);
        self.assume(format!("constructor_distinct_{name}"), 0, distinct);

        let tester = format!("is-{name}");
        if self.taken.insert(tester.clone()) {
            let id = self.call("Term_constr_id", &[x]);
            let test = self.op("eq", &[id, x]);
            let test = self.op("and", &[test, projected]);
            self.text.def(&tester, test);
        }
        self.functions.push(Function { name: tester, arity: 1 });
        self.functions.push(Function { name, arity: 2 });
    }

    /// A function with its token, its typing and, mostly, its equation.
    fn let_function(&mut self) {
        let name = self.name(&VERBS);
        let arity = self.random.within(0..=3);
        let (result, token) = (self.ty(), format!("{name}@tok"));
        self.fun(&name);
        let x = self.leaf();
        let applied = self.call(&name, &vec![x; arity]);
        let typed = self.has_type(applied, &result);

        if arity == 0 {
            self.assume(format!("typing_{name}"), 0, typed);
            let body = self.expression(2);
            let equal = self.op("eq", &[applied, body]);
            self.assume(format!("equation_{name}"), 0, equal);
            self.functions.push(Function { name, arity });
            return;
        }

        self.fun(&token);
        let argument = self.ty();
        let guard = self.has_type(x, &argument);
        let body = self.op("other", &[guard, typed]);
        let typing = self.all(body, &[vec![applied]]);
        self.assume(format!("typing_{name}"), 0, typing);
        if self.random.chance(40) {
            self.arrow(&name, &token, guard, typed);
        }
        if self.random.chance(60) {
            let token = self.constant(&token);
            let curried = (0..arity).fold(token, |term, _| self.call("ApplyTT", &[term, x]));
            let equal = self.op("eq", &[curried, applied]);
            let correspondence = self.all(equal, &[vec![curried]]);
            self.assume(format!("token_correspondence_{name}"), 0, correspondence);
        }
        if self.random.chance(20) {
            let marker = self.share("free __uu__PartialApp".to_owned(), |text| text.free("__uu__PartialApp"));
            let token = self.constant(&token);
            let partial = self.call("ApplyTT", &[marker, token]);
            let partial = self.valid(partial);
            self.assume(format!("partial_app_{name}"), 0, partial);
        }
        if self.random.chance(70) {
            let body = self.expression(3);
            let equal = self.op("eq", &[applied, body]);
            let equation = self.all(equal, &[vec![applied]]);
            self.assume(format!("equation_{name}"), 0, equation);
        }
        self.functions.push(Function { name, arity });
    }

    /// The type of a function's token.
    fn arrow(&mut self, name: &str, token: &str, guard: TermId, typed: TermId) {
        let arrow = format!("Tm_arrow_{}", self.hash());
        self.fun(&arrow);
        let x = self.leaf();
        let constant = self.constant(&arrow);
        let kinding = self.has_type(constant, "Tm_type");
        self.assume(format!("kinding_{arrow}"), 0, kinding);

        let of_arrow = self.call("HasTypeZ", &[x, constant]);
        let total = self.call("IsTotFun", &[x]);
        let body = self.op("other", &[guard, typed]);
        let inner = self.all(body, &[]);
        let both = self.op("and", &[inner, total]);
        let same = self.op("iff", &[of_arrow, both]);
        let interpretation = self.all(same, &[vec![of_arrow]]);
        self.assume(format!("{arrow}_interpretation"), 0, interpretation);

        let token = self.constant(token);
        let typed = self.call("HasType", &[token, constant]);
        self.assume(format!("function_token_typing_{name}"), 0, typed);
    }

    /// A refinement type with its interpretation and its decidable equality.
    fn refinement(&mut self) {
        let name = format!("Tm_refine_{}", self.hash());
        self.fun(&name);
        let (x, ty) = (self.leaf(), self.constant(&name));
        let kinding = self.has_type(ty, "Tm_type");
        self.assume(format!("refinement_kinding_{name}"), 0, kinding);

        let base = self.ty();
        let base = self.constant(&base);
        let refined = self.call("HasTypeFuel", &[x, x, ty]);
        let plain = self.call("HasTypeFuel", &[x, x, base]);
        let holds = self.proposition();
        let both = self.op("and", &[plain, holds]);
        let same = self.op("iff", &[refined, both]);
        let interpretation = self.all(same, &[vec![refined]]);
        self.assume(format!("refinement_interpretation_{name}"), 0, interpretation);

        let decidable = |exporter: &mut Self, ty: TermId| {
            let term = exporter.call("Prims.hasEq", &[x, ty]);
            exporter.valid(term)
        };
        let (left, right) = (decidable(self, ty), decidable(self, base));
        let same = self.op("iff", &[left, right]);
        self.assume(format!("haseq{name}"), 0, same);
        self.types.push(name);
    }

    /// A lemma with its patterns.
    fn lemma(&mut self) {
        let Function { name, arity } = self.function();
        let parts: Vec<TermId> = (0..arity).map(|_| self.expression(1)).collect();
        let mut group = vec![self.call(&name, &parts)];
        if self.random.chance(30) {
            group.push(self.expression(2));
        }
        let mut groups = vec![group];
        if self.random.chance(15) {
            groups.push(vec![self.expression(2)]);
        }
        let (premise, conclusion) = (self.proposition(), self.proposition());
        let body = self.op("other", &[premise, conclusion]);
        let fact = self.all(body, &groups);
        let lemma = self.name(&["lemma"]);
        self.fun(&lemma);
        self.assume(format!("lemma_{lemma}"), 0, fact);
    }

    /// What the goal's own context says.
    fn local(&mut self) {
        let holds = self.proposition();
        let hash = self.hash();
        match self.random.below(4) {
            0 => {
                let x = self.leaf();
                let squash = self.call("Prims.squash", &[x, holds]);
                let typed = self.call("HasType", &[x, squash]);
                self.assume(format!("typing_squash_{hash}"), 0, typed);
            }
            1 => {
                let name = format!("l_quant_interp_{hash}");
                let quantified = self.constant(&name);
                let quantified = self.valid(quantified);
                let body = self.all(holds, &[]);
                let same = self.op("iff", &[quantified, body]);
                self.assume(name, 0, same);
            }
            2 => self.assume(format!("assumption_{hash}"), 0, holds),
            _ => {
                let labelled = self.share(format!("label {holds}"), |text| text.label(holds));
                self.assume(format!("unit_typing_{hash}"), 0, labelled);
            }
        }
    }

    /// The whole file, with its goal: a labelled proposition under its premises.
    fn goal(mut self) -> Vec<u8> {
        let (premise, conclusion) = (self.proposition(), self.proposition());
        let labelled = self.share(format!("label {conclusion}"), |text| text.label(conclusion));
        let body = self.op("other", &[premise, labelled]);
        let goal = self.all(body, &[]);
        self.text.root(0, "@query", goal);
        self.text.finish()
    }
}

#[cfg(test)]
mod tests {
    use super::*;
    use crate::{filter_file, reader};

    #[test]
    fn exports_are_accepted_and_fill_their_size() {
        for bytes in [2_000, 4_000, 10_000, 16_000, 40_000, 65_535] {
            for seed in 0..5 {
                let file = export(seed, bytes);
                assert!(file.len() <= bytes && file.len() + 200 > bytes, "{} of {bytes}", file.len());
                let background = reader::read(&file).expect("an accepted file");
                assert!(!filter_file(&file).lines().is_empty());
                if bytes == 65_535 {
                    assert!((200..=400).contains(&background.facts.len()), "{} facts", background.facts.len());
                    assert!((500..=900).contains(&background.names.len()), "{} names", background.names.len());
                }
            }
        }
    }

    #[test]
    fn a_seed_gives_the_same_file() {
        assert_eq!(export(3, 9_000), export(3, 9_000));
        assert_ne!(export(3, 9_000), export(4, 9_000));
    }
}
