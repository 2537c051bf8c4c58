"""Changed definitions, each of which the evaluation must catch, and text that it must refuse to read."""
from . import cases, specs
from .reader import NotUnderstood

# what is changed, in which file, from what (which stands there once), to what, and the section that is to see it
CHANGED = [
    ("a coefficient of both models", "mie_parameters/specs/Tables", "decimal false 81096 5", "decimal false 81097 5", "mie_ends"),
    ("a digit of the exponential's constant", "exponential/specs/Exp", "* 13306513097844322491", "* 13306513097844322490", "elementary"),
    ("the rounding of a packed number", "fixed_point/specs/Pack", "/ 1024 + 1) / 2", "/ 1024) / 2", "elementary"),
    ("an end that does not belong", "limits/specs/Limits", "in_limits low high x = le low x", "in_limits low high x = lt low x", "mie"),
    ("the operands of a difference", "saftvrqmie_potential/specs/Potential", "recip rr ⊗ sr ⊖ recip ra ⊗ sa", "recip ra ⊗ sa ⊖ recip rr ⊗ sr", "quantum_ends"),
    ("the order of a sum", "mie_parameters/specs/Sums", "a2 ⊗ pow t_inv 2 ⊕ a3 ⊗ pow t_inv 3", "(a2 ⊗ pow t_inv 2 ⊕ a3 ⊗ pow t_inv 3)", "mie_ends"),
    ("a precedence", "saftvrmie_dispersion/specs/Chain", "infixl 60 ◌⊖◌", "infixl 70 ◌⊖◌", "mie_ends"),
    ("6 for 7", "saftvrmie_energies/specs/Energies", "demand 7 (finite v)", "demand 6 (finite v)", "mie_ends"),
    ("7 for 8", "saftvrqmie_energies_ends/specs/Operation", "demand 8 (all_sound b)", "demand 7 (all_sound b)", "quantum_ends"),
    ("a shorter series", "series/specs/Exact", "exp_sum t = sum_f 30 (exp_term t)", "exp_sum t = sum_f 20 (exp_term t)", "promises"),
    ("a test before another", "saftvrqmie_parameters/specs/Parameters", "    demand 3 (all_one l.count (at l.m)) >>= λ _.\n    order_walk l.count l.fh >>= λ _.\n", "    order_walk l.count l.fh >>= λ _.\n    demand 3 (all_one l.count (at l.m)) >>= λ _.\n", "table"),
    ("an order that cannot be ticked", "order_counts/specs/Counts", "map (λ l. 3 ∷ l)", "map (λ l. 4 ∷ l)", "orders"),
    ("a pair of orders that meets 4", "saftvrqmie_parameters/specs/Parameters", "demand 4 (leb (max a b) 2)", "demand 4 (leb a 2)", "orders"),
    ("the place that is served next", "round_robin/specs/Desk", "next s = seek places (occupied s) (above (D.last s))", "next s = seek places (occupied s) 0", "desk"),
    ("a place that is not freed", "desk_place/specs/Place", "freed b = set b count_at 0", "freed b = b", "desk"),
    ("a digit of a node", "saftvrqmie_searches/specs/Diameter", "below 995657163025808080735527280689003", "below 995657163025818080735527280689003", "quadrature"),
    ("a step of the wrong sign", "number/specs/Neighbour", "from_bits binary64 (step_down (to_bits binary64 (fin s m e)))", "from_bits binary64 (step_up (to_bits binary64 (fin s m e)))", "intervals"),
    ("a divisor that touches zero", "interval/specs/Interval", "(x.sound && y.sound && one_sign y)", "(x.sound && y.sound)", "intervals"),
    ("work that is not counted for 8", "saftvrqmie_dispersion/specs/Alpha", "held (after dmt (alpha_of", "held ((alpha_of", "quantum_ends"),
    ("a count of evaluations", "saftvrqmie_searches/specs/Searches", "count = 19 - n", "count = 18 - n", "quantum_ends"),
    ("an end of pi that is the point", "enclosure/specs/Constants", "above pi = next_up (nearest pi)", "above pi = nearest pi", "constants"),
    ("a decimal's end on the wrong side", "enclosure/specs/Constants", "cond (less (written s digits places) (val_f x)) (next_down x) x", "cond (less (val_f x) (written s digits places)) (next_down x) x", "constants"),
    ("a series for pi with another factor", "pi_as_pi/specs/Machin", "pi_low n = sub_f (mul_f (arctan_low 5 n) (nat_f 16))", "pi_low n = sub_f (mul_f (arctan_low 5 n) (nat_f 15))", "constants"),
    ("an exact quotient", "enclosure/specs/Exact", "some (div_f p q)", "some (mul_f p q)", "exact"),
    ("the sign of a zero", "power_corners/specs/Corners", "zero_at lambda = fin (lt three lambda)", "zero_at lambda = fin (lt lambda three)", "corners"),
    ("a coefficient of the derivative", "chain_derivatives/specs/Polynomial", "derivative (c ∷ p) = counted 1 p", "derivative (c ∷ p) = counted 2 p", "derivatives"),
    ("the square in a quotient's derivative", "chain_derivatives/specs/Quotient", "denominator = product fractions d d;", "denominator = d;", "derivatives"),
    ("the ratio that is held fixed", "chain_derivatives/specs/Chain", "let z = mul_q (constant_of (some ratio)) variable in", "let z = mul_q variable variable in", "derivatives"),
    ("a supplied slope that is not finite", "saftvrqmie_slopes/specs/Operation", "demand 7 (supplied_finite", "demand 2 (supplied_finite", "pressure"),
    ("a real power's slope without its exponent", "slopes/specs/Rules", "floats.mul (floats.mul e w) x.eps", "floats.mul w x.eps", "pressure"),
    ("a layer's temperature before its volume", "saftvrqmie_tank/specs/Tank", "(mul (mul e (lit v)) (lit t))", "(mul (mul e (lit t)) (lit v))", "tanks"),
    ("a layer count outside", "tank_lists/specs/Lists", "demand 14 (layers_within", "demand 1 (layers_within", "tanks"),
    ("a stored +0 that is taken", "card/specs/Fields", "demand 15 (not (eqb r.value 0))", "demand 15 (not (eqb r.value 1))", "cards"),
    ("a spared number that is stored", "card_writer/specs/Writing", "(cond (eqb v 0) (false ∷ []) (true", "(cond (eqb v 1) (false ∷ []) (true", "cards"),
    ("what lies behind a card", "card_writer/specs/Writing", "bytes ++ drop (length bytes) l.card", "bytes ++ drop 0 l.card", "cards"),
    ("6 that is given by the writer", "card_of_lists/specs/Cards", "passed (refused n) = cond (eqb n 6)", "passed (refused n) = cond (eqb n 5)", "cards"),
    ("a refusal's number", "number/specs/Answer", "code MixedOrders = 5", "code MixedOrders = 6", "cards"),
    ("an entry's place", "sizes/specs/Sizes", "cell i j = side * i + j", "cell i j = side * j + i", "mie"),
]
# what the language has and specs/ has not: none of it may be passed over
REFUSED = [
    ("an axiom", "axiom pub trusted : Bool\n"),
    ("a `do` block", "abbrev pub less : Bool\nless = do true\n"),
    ("a name of nowhere", "abbrev pub less : Bool\nless = unheard\n"),
    ("a definition with no clause", "abbrev pub less : Bool\n"),
    ("a module of nowhere", "use Rattle.std.specs.Unheard.{x}\n"),
    ("an operator with no fixity", "abbrev pub less : Bool\nless = true ⊞ true\n"),
]
HOME = "crates/number/specs/Ans.antt"


def caught(folder, declared, texts, section):
    tried = cases.Cases(specs.load(texts, declared), folder, texts, False)
    return next((differs for _, differs in getattr(tried, section)() if differs), None)


def run(folder):
    texts, declared = specs.texts_of(folder), specs.declared_in(folder)
    passed = failed = 0
    for name, module, old, new, section in CHANGED:
        path = f"crates/{module}.antt"
        if texts[path].count(old) != 1:
            found = None
            print(f"{name}: {path} has {texts[path].count(old)} times: {old}")
        else:
            found = caught(folder, declared, {**texts, path: texts[path].replace(old, new)}, section)
            print(f"{name}: {'caught: ' + found[:110] if found else 'NOT CAUGHT'}", flush=True)
        passed, failed = passed + bool(found), failed + (not found)
    for name, text in REFUSED:
        said = None
        try:
            specs.load({**texts, HOME: text + texts[HOME] if text.startswith("use") else texts[HOME] + text}, declared)
        except NotUnderstood as e:
            said = str(e)
        print(f"{name}: {'refused: ' + said[:110] if said else 'NOT REFUSED'}")
        passed, failed = passed + bool(said), failed + (not said)
    return passed, failed
