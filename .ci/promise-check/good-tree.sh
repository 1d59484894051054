# The tree that the test of the promise check begins with.

# The good tree has each way to be tried: an edit of the function (count), of a private function behind another
# (shift), of a definition behind another (Square::new), of a table (knight); and each kind of promise: an equation, one that
# hands its equation on (shift), a record of them for what is lent (fill). What the check is to pass over stands in comments, in
# quoted text and in bodies.
good_tree() {
    put good/crates.txt <<'END'
# a bitboard
bits:
unpromised: bits # no public function
END
    put good/crates/unpromised/src/main.rt <<'END'
fn main() {}
END
    put good/crates/notlisted/src/lib.rt <<'END'
pub fn passed_over() {}
END
    put good/crates/bits/src/lib.rt <<'END'
// pub fn in_a_comment(b: u64) -> u32 { 0 }
#![tactic(auto)]
ghost use Rattle.std.specs.Prelude.{◌≡◌};
ghost use Rattle.other.specs.Board.{Foreign};
ghost use Rattle.bits.specs.Board.{Counts, Shifts as Board·Shifts, Made, Fills};
pub mod steps;
mod inner_private;

// A square.
#[derive(Clone, Copy)]
pub struct Square(pub u8);

/* pub fn in_a_block(b: u64) -> u32
{ */
pub fn count(b: u64) -> u32
    // requires { b < 7 }
    ensures { Counts b result }
{
    let requires = b"{ \" // pub fn quoted() {";
    let brace = b'{';
    u64::count_ones(b)
}

#[unsafe(no_mangle)]
pub extern "C" fn shift<'a>(b: &'a u64, s: [u8; 2]) -> u64
where
    'a: 'a,
    ensures {
        Board·Shifts b.now s result -- }
    }
{
    moved(b, s)
}

fn moved(b: u64, s: [u8; 2]) -> u64 {
    if s == 0 { b } else { up(b, s) }
}

fn up(b: u64, s: [u8; 2]) -> u64 {
    b << s
}

pub fn fill(out: &'a mut [(u8, u8); 2], mut with: u8,) -> &u64
    ensures { Fills out.old with result.now out.new }
{
    out[0] = with;
    b
}

impl<'a> Square {
    pub const COUNT: usize = 64;

    pub fn new(s: u8) -> Square
        ensures { Made s result }
    {
        Square(s)
    }

    fn hidden(self) -> u8 {
        self.0
    }
}
END
    put good/crates/bits/src/steps.rt <<'END'
ghost use Rattle.bits.specs.Board.{Steps};

const KNIGHT: [u64; 2] = [
    0x20400,
    0x50800,
];

pub fn knight(s: u8) -> u64
    ensures { Steps s result }
{
    KNIGHT[s]
}

pub(crate) fn within(s: u8) -> u64 {
    knight(s)
}
END
    put good/crates/bits/src/inner_private.rt <<'END'
pub fn not_public(b: u64) -> u64
    requires { b < 7 }
{
    b
}
END
    put good/crates/bits/specs/Board.antt <<'END'
-- The bitboard.
use Rattle.std.specs.Prelude.{◌≡◌, ℕ, ◌+◌}

-- square k stands in b
unfoldable pub has : ℕ → ℕ → Bool
has b k = is_set (b / 2 ^ k)

abbrev pub Counts : ℕ → ℕ → Type 0
Counts b r = r ≡ how_many 64 (has b)

pub record Moved (b s : ℕ) (r : ℕ) : Type 0 where
  pub is : r ≡ b

abbrev pub Shifts : ℕ → ℕ → ℕ → Type 0
Shifts b s r = (Moved b s r) × (b ≡ b)

pub record Fills (old : List ℕ) (with : (ℕ)) (r : ℕ)
    (new : List ℕ) : Type 0 where
  pub answer : r ≡ length old -- the result
  pub lent : new ≡ replicate {A = ℕ} (length old) with
  pub within : r ≤ length new

module _ (n : ℕ)
    (m : ℕ) where
  abbrev limit : ℕ
  limit = 64

  abbrev pub made_of : ℕ → ℕ
  made_of s = cond (ltb s limit) s n

abbrev pub Made : ℕ → ℕ → Type 0
Made s r = r ≡ made_of 0 0 s

abbrev pub Steps : ℕ → ℕ → Type 0
Steps s r = r ≡ 0
END
    put good/crates/bits/specs/Other.antt <<'END'
-- What has the same names as the bitboard's.
use Rattle.bits.specs.Board.{Steps as Moves}

abbrev pub limit : ℕ
limit = 7

abbrev pub Made : ℕ → ℕ → Type 0
Made s r = r ≡ limit
END
    put good/crates/bits/proofs/Determined.antt <<'END'
-- Each promise allows one result.
use mathlib.Core.Path.{◌≡◌, sym, ◌∙◌}
use Rattle.bits.specs.Board.{Counts, Shifts as Moves, Made, Steps, Fills}

{- pub count_once : Made b r → Made b s → r ≡ s -}
pub count_once : (b r s : ℕ) → Counts b r → Counts b s → r ≡ s
count_once b r s p q = p ∙ sym q

pub shift_once : (b s r t : ℕ)
    → Moves b s r -- the one
    → Moves b s t
    → r ≡ t
shift_once b s r t p q = p.is ∙ sym (q.is)

pub made_once : (s : ℕ) (r t : ℕ)
    → Made s r → Made s t → r ≡ t
made_once s r t p q = p ∙ sym q

pub fill_once : (old : List (ℕ)) (with r s : ℕ) (new new' : List ℕ)
    → Fills old with r new → Fills old with s new' → (new ≡ new') × (r ≡ s)
fill_once old with r s new new' p q = (one (p.lent) (q.lent), one (p.answer) (q.answer))

pub steps_once : (s r t : ℕ) → Steps s r → Steps s t → r ≡ t
steps_once s r t p q = p ∙ sym q
END
    put good/crates/bits/must-fail/count_wrong.edit <<'END'
# the full bitboard: 0 for 64
file: src/lib.rt
old: count_ones
new: count_zeros
END
    put good/crates/bits/must-fail/shift_wrong.edit <<'END'
# the bitboard 1 by 1: 0 for 2
file: src/lib.rt
old:     b << s
new:     b >> s
END
    put good/crates/bits/must-fail/made_wrong.edit <<'END'
# square 63 is refused
file: specs/Board.antt
old: limit = 64
new: limit = 63
END
    put good/crates/bits/must-fail/steps_wrong.edit <<'END'
# the knight on b1
file: src/steps.rt
old: 0x50800
new: 0x50801
END
    put good/crates/bits/must-fail/fill_wrong.edit <<'END'
# any buffer: its second number is left
file: src/lib.rt
old: out[0] = with
new: out[1] = with
END
    put good/docs/PROMISES.md <<'END'
# Promises

`bits::prose` is a word.

### bits

Tried by count_wrong, shift_wrong, made_wrong, steps_wrong and others.

| what | is no table of functions |
|---|---|
| `bits::prose` | `Counts` |

| function | answers | promise (definition) | refusals, in order | determined by | must-fail edits |
|---|---|---|---|---|---|
| `bits::count` | how many | `Counts` (`how_many`) | none | `count_once` | count_wrong |
| `bits::shift` | up | `Shifts` | none | `shift_once` | shift_wrong |
| `bits::fill` | filled | `Fills` | none | `fill_once` | `fill_wrong`, fill_again |
| `bits::Square::new` | a square | `Made` (`made_of`) | SQUARE | `made_once` | made_wrong; and those of steps |
| `bits::steps::knight` | steps | `Steps` | none | `steps_once` | steps_wrong |
END
    put good/crates/bits/must-fail/fill_again.edit <<'END'
# an empty buffer: 1 for 0
file: specs/Board.antt
old: r ≡ length old
new: r ≡ suc (length old)
END
}
