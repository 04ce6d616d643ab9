"""What `list` of syn_answers and syn_canon knows of each kind of item: its rule, its word, where its name is, what a guess goes by, and
in which order the kinds are tried."""
import re

from .parts import with_parts
from .program import constant
from .source import Fault

# What `Item` holds that has no kind of its own.
VERBATIM = "Verbatim"
KEPT = "kept_item"
# The syntax of a variant whose tree is not its rule's tree.
SYNTAX = {"Macro": "(among_items t)"}
# Keywords of items that are always verbatim.
VERBATIM_WORDS = ["macro"]
# The functions that try the kinds: each its share, in the order of the table.
TRIES = [
    ("try_common", "Tries the most common kinds."),
    ("try_others", "Tries the kinds that are neither common nor rare."),
    ("try_rare", "Tries the rarest kinds."),
]
SHARE = 5


def item_kinds(source, rows):
    """The variants of `Item` that have a row, in its order, each with that row."""
    by_type = {row.type: row for row in rows}
    kinds = [(variant, by_type.get(payload)) for variant, payload in source.types["Item"].variants if variant != VERBATIM]
    for variant, row in kinds:
        if row is None or "tried" not in row.more:
            raise Fault(f"Item::{variant} has no row with `tried` in tools/kinds.txt")
    return kinds


def shares(kinds):
    """The variants that each function tries, in order."""
    order = [variant for variant, row in sorted(kinds, key=lambda kind: int(kind[1].more["tried"]))]
    return [order[:SHARE], order[SHARE:2 * SHARE], order[2 * SHARE:]]


def listed_variants(kinds):
    names = "".join(f"    {variant},\n" for variant, _ in kinds)
    return f"""/// The kinds of items, named as their trees are.
#[derive(Clone, Copy, Debug, PartialEq, Eq)]
pub enum ItemKind {{
{names}    /// An item without a kind of its own, which is stored verbatim.
    {VERBATIM},
}}
"""


def rule_by(kinds):
    arms = "".join(f"        ItemKind::{variant} => Some(Rule::{constant(row.listed)}),\n" for variant, row in kinds)
    return f"""/// The rule that reads items of this kind.
#[tactic(auto, unfolding(syn_recognize::specs::Names::rule_of))]
fn rule_by(kind: ItemKind) -> Option<Rule>
    ensures {{ MatchOption result (kind ≡ K.{VERBATIM}) (λ rule. names.rule_of rule ≡ rule_of kind) }}
{{
    match kind {{
{arms}        ItemKind::{VERBATIM} => None,
    }}
}}
"""


def spec_list(variants):
    return "".join(f"K.{variant} ∷ " for variant in variants) + "[]"


def tries(name, words, variants):
    steps = "".join(f"    if try_kind(ItemKind::{variant}, input)? {{\n        return Ok(Some(ItemKind::{variant}));\n    }}\n" for variant in variants)
    return f"""/// {words}
fn {name}(input: &mut ParseBuffer<'_>) -> Parsed<Option<ItemKind>>
    ensures tried {{ KindsTried IsSyntax ({spec_list(variants)}) input.old result input.new }}
    ensures shallow {{ Never IsTooDeep result }}
{{
{steps}    Ok(None)
}}
"""


def name_of(place):
    """The expression that finds the name."""
    if place is None:
        return "Ok(None)"
    if place == "!":
        return "name(&following(&trees, Marker::Bang))"
    word, _, optional = place.partition(",")
    if optional not in ("", "mut"):
        raise Fault(f"name={place} in tools/kinds.txt: only `mut` may be between a keyword and a name")
    return f'name(&after_mut(&following(&trees, Marker::Word("{word}"))))' if optional else f'name_after(&trees, "{word}")'


def name_ahead(kinds):
    arms = "".join(f"        ItemKind::{variant} => {name_of(row.more.get('name'))},\n" for variant, row in kinds)
    return f"""/// The name of the item of this kind that begins here.
pub(crate) fn name_ahead(
    kind: ItemKind,
    input: &ParseBuffer<'_>,
) -> Result<Option<Ident>, AllocError>
    ensures {{ IfOk result (λ name. name_of name ≡ grammar.name_ahead (rule_of kind) input.now) }}
{{
    let trees = input.cursor();
    match kind {{
{arms}        ItemKind::{VERBATIM} => Ok(None),
    }}
}}
"""


def known_by_word(kinds):
    by_word = {row.more["guess"]: variant for variant, row in kinds if "guess" in row.more} | dict.fromkeys(VERBATIM_WORDS, VERBATIM)
    plain = "".join(f'        "{word}" => Some(ItemKind::{by_word[word]}),\n' for word in sorted(by_word) if not word.endswith("?"))
    before_name = "".join(f'        "{word[:-1]}" => known_before_name(ItemKind::{by_word[word]}, following),\n' for word in sorted(by_word) if word.endswith("?"))
    return f"""/// The kind that a word suggests.
fn known_by_word(word: &str, following: &Cursor<'_>) -> Option<ItemKind> {{
    match word {{
{plain}{before_name}        _ => None,
    }}
}}
"""


def spec_rules(kinds):
    rows = "".join(f"rule_of K.{variant} = rules.{row.listed}\n" for variant, row in kinds)
    return f"""-- the rule that reads items of this kind
abbrev pub rule_of : ItemKind → Rule
{rows}rule_of K.{VERBATIM} = rules.{KEPT}
"""


def are_kinds(kinds):
    rows = "".join(f"is_kind K.{variant} = refl\n" for variant, _ in [*kinds, (VERBATIM, None)])
    return f"""-- each kind is one of those of an item
pub is_kind : (kind : ItemKind) → IsKind rules.item (rule_of kind)
{rows}"""


def union_of(table, rule):
    """The rules of the union that this rule is, in order."""
    found = re.search(rf"^table {rule} =\n    one_of \((.*?) ∷ \[\]\)$", table, re.M)
    if not found:
        raise Fault(f"the table has no union `{rule}`")
    return found[1].split(" ∷ ")


def kept(kinds, table):
    """The proof that what none of the kinds reads is verbatim: each rule of the union is refused by the function that tries it."""
    by_rule = {row.listed: variant for variant, row in kinds}
    places = {variant: f"{letter}{'.1' * at}.0" for letter, share in zip("abc", shares(kinds)) for at, variant in enumerate(share)}
    *rules, last = union_of(table, "item")
    if last != KEPT or set(rules) != set(by_rule):
        raise Fault(f"the kinds of items in tools/kinds.txt aren't those of the union `item`: {', '.join(sorted(set(rules) ^ set(by_rule)))}")
    steps = "".join(f"(no rules.{rule} {places[by_rule[rule]]}, " for rule in rules)
    common, others, rare = map(spec_list, shares(kinds))
    return f"""-- an item that none of the kinds reads is read as a verbatim item
pub kept : (ts : Stream) (s : Syntax) (r : Stream) → parse_rule rules.item ts ≡ Some (s, r) → NoneOf ({common}) ts →
    NoneOf ({others}) ts → NoneOf ({rare}) ts → (t : Syntax) × (parse_rule rules.{KEPT} ts ≡ Some (t, r))
kept ts s r e a b c =
    let (k, t, i, q) = item_of_kind ts s r e in
    let f = ((item_agrees k ts t r).0 (e ∙ ap (λ z. Some (z, r)) q)).1 in
    one_of_all (Kept ts r) (kinds_of (table rules.item)) all k i t f
  where
    no : (k : Rule) → parse_rule k ts ≡ None → Kept ts r k
    no k e t f = absurd (cc (sym e ∙ f))

    all : All (Kept ts r) (kinds_of (table rules.item))
    all = {steps}(λ t f. (Node t, f), tt){")" * len(rules)}
"""


def word_imports(table):
    """The import of the kinds' rules, which are constructors there."""
    return f"use Rattle.syn_grammar.specs.Rules.{{{', '.join(['Rule', *(rule for rule in union_of(table, 'item') if rule != KEPT)])}}}\n"


def spec_words(kinds):
    rows = "".join(f'kind_word {row.listed} = codes "{row.listed_word}"\n' for _, row in kinds)
    return f"""-- how a kind of items is written, by the rule that reads it; `verbatim` for an item that is stored verbatim
abbrev pub kind_word : Rule → List ℕ
{rows}kind_word _ = codes "verbatim"
"""


def item_imports(kinds):
    """The import of the rules of all variants."""
    return f"use Rattle.syn_grammar.specs.Rules.{{{', '.join(sorted([KEPT, *(row.listed for _, row in kinds)]))}}}\n"


def item_syntax(kinds):
    """The syntax of an item, by its variant."""
    rows = "".join(f"syntax_of_Item (Item-m.{variant} t) = Node (Case {row.listed} {SYNTAX.get(variant, 't')})\n" for variant, row in kinds)
    return f"""abbrev pub syntax_of_Item : Item-m.the_data → Syntax
{rows}syntax_of_Item (Item-m.{VERBATIM} tokens) = Node (Case {KEPT} (Captured Nothing tokens))
"""


def word_of(kinds):
    arms = "".join(f'        ItemKind::{variant} => "{row.listed_word}",\n' for variant, row in kinds)
    return f"""/// How a kind of items is written.
fn word_of(kind: ItemKind) -> &'static str
    ensures {{ result.now ≡ kind_word (rule_of kind) }}
{{
    match kind {{
{arms}        ItemKind::{VERBATIM} => "verbatim",
    }}
}}
"""


def listing(source, rows, table, crates):
    """The parts of syn_item, syn_answers and syn_canon that go by the kinds of items."""
    kinds, table = item_kinds(source, rows), table.read_text()
    parts = {
        "syn_item/specs/Items.antt": [item_imports(kinds), item_syntax(kinds)],
        "syn_answers/src/list.rt": [
            listed_variants(kinds),
            rule_by(kinds),
            "\n".join(tries(name, words, share) for (name, words), share in zip(TRIES, shares(kinds))),
        ],
        "syn_answers/src/names.rt": [name_ahead(kinds)],
        "syn_answers/src/guess.rt": [known_by_word(kinds)],
        "syn_answers/specs/Listing.antt": [spec_rules(kinds)],
        "syn_answers/proofs/Listing.antt": [are_kinds(kinds), kept(kinds, table)],
        "syn_canon/specs/Lines.antt": [word_imports(table), spec_words(kinds)],
        "syn_canon/src/listing.rt": [word_of(kinds)],
    }
    return {crates / path: with_parts(crates / path, texts) for path, texts in parts.items()}
