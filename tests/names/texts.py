"""Texts that give a name of the kit's library another meaning, and texts that don't, by the kind of file."""

WRONG = {
    "specs/A.antt": [
        "pub f : (count length : ℕ) → ℕ",
        "pub f : ℕ →\n    (take : ℕ) → ℕ",
        "pub f : (a : ℕ) × (length : ℕ) × (a ≡ length)",
        "f (Pair a length) = a",
        "f suc = 0",
        "f a = g (λ b length. b)",
        "f a = g (λ (b take : ℕ). b)",
        "f a =\n    let length = a in a",
        "f a = let length : ℕ = a in a",
        "f a = b where\n  g length = length",
        "module _ {A : Type 0} (length : ℕ) where",
        "pub record R (length : ℕ) : Type 0 where\n  pub a : ℕ",
        "pub record R : Type 0 where\n  pub a : (length : ℕ) → ℕ",
        "pub record R : Type 0 where\n  pub a : ℕ\npub length : ℕ",
        "pub record List : Type 0 where",
        "pub data D : Type 0 where\n  a : (length : ℕ) → D",
        "pub data D : Type 0 where\n  a length : D",
        "abbrev pub take : ℕ\ntake = 1",
        "pub ◌<◌ : ℕ → ℕ → Bool",
        "module _ (a : ℕ) where\n  -- no record where\n  unfoldable pub drop : ℕ",
        "use Rattle.machine.specs.A.{a, b as length}",
        "use Rattle.machine.specs.Machine.{take}",
        "use Rattle.machine.specs.A as min",
        "use Rattle.std.specs.Prelude.{drop as take}",
    ],
    "src/a.rt": [
        "fn f(length: usize) -> u8 {",
        "pub fn f<'a>(\n    a: &'a [u8],\n    mut length: usize,\n) {",
        "fn f(a: u8) ensures { (λ length. length ≡ a) result } {",
        "fn f(a: u8)\n    ensures low { a ≡ a }\n    ensures high { (λ length. length ≡ a) result }\n{",
        "fn f(a: u8) ensures* { λ length. ⌜ length ≡ a ⌝ } {",
        "fn f(a: u8) requires { (take : ℕ) → take ≡ a } {",
        "fn f(a: u8) ensures { let take = result in take ≡ a } {",
        "ghost use Rattle.a.specs.A.{a as length};",
    ],
}

RIGHT = {
    "specs/A.antt": [
        "use Rattle.std.specs.Prelude.{ℕ, suc}\npub f : (count : ℕ) → List (length a)\nf (suc count) = take count (drop (length a) b)",
        "pub record R : Type 0 where\n  pub length : ℕ\n  -- how many\n  pub take : ℕ → ℕ",
        "f a =\n    record {\n      length = a;\n      take = a.take;\n    }",
        "f a = g (λ (b : List ℕ). length b) (g b).length -- λ length. a",
        "f a = let b = length a in b",
        "pub data D : Type 0 where\n  a : List ℕ → length b ≡ 0 → D",
        "use Rattle.std.specs.Prelude.{length, take}",
    ],
    "src/a.rt": [
        "pub struct S {\n    pub length: usize,\n}",
        "fn f(a: &[u8], n: wire::length::N)\n    ensures whole { result ≡ length a.now }\n{\n    let length = 0;",
        "// fn f(length: usize)\nuse wire::length::SECTOR;\nghost use Rattle.std.specs.Prelude.{length};",
    ],
}
