"""The text around a walk: what is said of the function's parameters, the lemma that the end is what the contract says, and the whole file."""
import re

from sources import arg, kebab, promise
from walking import files
from walking.held import Held
from walking.texts import at, indented, listed, nest, product

MACHINE = "{M′ : Type 1} (𝓤 : URA M′) (H : Heap 𝓤) (A : Atoms 𝓤) (W : Given 𝓤 H A) (at-mem : Memory → SProp 𝓤) (run : Routine → Fun 𝓤)"

# ---- what is said of the parameters


def is_mut(w, x):
    return x in w.slices and w.slices[x].mut


def slot(w, x):
    return "(plain (λ _. %s))" % (w.slices[x].type.row if x in w.slices else w.plain[x].row)


def shared(w, x):
    return "(shrSliceOf (%d ∷ []) tt %s)" % (w.slices[x].order, slot(w, x)) if x in w.slices else slot(w, x)


def stays(w):
    """What becomes of each parameter."""
    return nest(["gave-slice (%d ∷ []) tt %s" % (w.slices[x].order, slot(w, x)) if is_mut(w, x) else "stay-dropped %s yes" % shared(w, x) for x in w.order])


def goes(w):
    """The proof of that."""
    n = len(w.slices)
    return nest(["goes-gave-slice 𝓤 H A W %d %d tt %s" % (n, w.slices[x].order, slot(w, x)) if is_mut(w, x) else "goes-dropped 𝓤 H A W %d %s yes (λ κs x f. refl)" % (n, shared(w, x)) for x in w.order])


def machine(w):
    """Each parameter as the machine has it."""
    return ["%s-val" % x if x in w.slices else "%s .val %s" % (w.plain[x].known, x) for x in w.order]


def flat(w):
    return "(%s ∷ [])" % " ∷ ".join(machine(w))


def lifetimes(w):
    return nest([x + "-κ" for x in w.slices])


def shares(w):
    return nest([x + "-q" for x in w.slices])


def bound(w):
    return "((%s, %s, tt, args, machine), tt)" % (lifetimes(w), shares(w))


def tokens(w):
    """The tokens of the lifetimes, as one item."""
    text = "‵ ftrue"
    for x in reversed(list(w.slices)):
        text = "(‵ (flft %s-κ %s-q) ⊛ %s)" % (x, x, text)
    return text


def rows(w):
    """The parameters' meanings in memory."""
    row = lambda x: "%s (named %d) %s-κ %s" % ("MutSlice" if is_mut(w, x) else "ShrSlice", w.slices[x].order, x, w.slices[x].type.row) if x in w.slices else w.plain[x].row
    return "(%s ∷ [])" % " ∷ ".join(map(row, w.order))


def binders(w):
    """The names that the walk has for its arguments."""
    text = "".join(" (%s-κ : Lft) (%s-q : Share)" % (x, x) for x in w.slices)
    for x in w.order:
        if x in w.slices:
            text += " (%s-b %s-o : ℕ) (%s-γ : GName) (%s-now : List %s)" % (x, x, x, x, w.slices[x].type.means)
        else:
            text += " (%s : %s) (%s-fine : Fine %s %s)" % (x, w.plain[x].means, x, w.plain[x].known, x)
    return text


def handed(w):
    """What each of those names stands for."""
    words = [word for i in range(len(w.slices)) for word in ("(κs %s)" % at(i), "(qs %s)" % at(i))]
    for j, x in enumerate(w.order):
        a = "a " + at(j)
        words += ["(%s .ptr .0)" % a, "(%s .ptr .1)" % a, "(%s .name)" % a, "(%s .now)" % a] if x in w.slices else ["(%s)" % a, "(are %s)" % at(j)]
    return " ".join(words)


def known(w):
    """The callees' contracts, as facts about the tables."""
    return " ".join("(known-%s : Triple 𝓤 (𝓣 .C #%s) (%s))" % (kebab(c), w.symbol(c), w.contract(c)) for c in w.callees)


def rooms(w):
    return " ".join("(room-%s : Room %s (length %s-now))" % (x, w.slices[x].type.row, x) for x in w.slices)


def spells(w):
    return nest(["slice-vals" if x in w.slices else "vals %s" % w.plain[x].known for x in w.order])


def tells(w):
    one = lambda x: "%s-slice-tells (named %d) (κs %s) %s" % ("mut" if is_mut(w, x) else "shr", w.slices[x].order, at(w.slices[x].order), w.slices[x].type.row)
    return nest([one(x) if x in w.slices else "%s .tells" % w.plain[x].known for x in w.order])


def arguments(w):
    """The definitions of the arguments and of what is to hold at the end."""
    text = "".join(AT.format(x=x, m=s.type.means) for x, s in w.slices.items())
    return text + ARGUMENTS.format(types=product(["RefT (List %s)" % w.slices[x].type.means if x in w.slices else w.plain[x].means for x in w.order]), machines=product(["List Val"] * len(w.order)),
                                   args=nest(["(%s-at %s-now)" % (x, x) if x in w.slices else x for x in w.order]), machine=nest([m + " ∷ []" for m in machine(w)]), bound=bound(w))


AT = """abbrev {x}-at : List {m} → RefT (List {m})
{x}-at l = record {{ ptr = ({x}-b, {x}-o); name = {x}-γ; now = l }}

abbrev {x}-val : Val
{x}-val = sliceVal ({x}-b, {x}-o) (length {x}-now)

"""
ARGUMENTS = """abbrev args : {types}
args = {args}

abbrev machine : {machines}
machine = {machine}

abbrev Post : Val → SProp 𝓤
Post = walkOf 𝓤 H A fn.ended stayed (fn.clauses 𝓤 H A at-mem run) .post {bound}
"""

# ---- the end


def gathers(w, muts):
    """The steps that put together what is kept at the end: the tokens, and the last list of each `&mut` slice."""
    held = Held(["T"] + ["token-" + x for x in w.slices] + ["last-" + x for x in muts])
    body = "nothing ! $ "
    for x in reversed(list(w.slices)):
        body += held.move("token-" + x, "T") + "join ! $ "
        held.first(2, "T")
    body += "frame ! $ "
    held.first(1)
    body += "nothing ! $ "
    held.first(0, "H")
    for x in reversed(w.order):
        if x in muts:
            body += held.move("last-" + x, "H") + "fjoin ! $ "
            held.first(2, "H")
        else:
            body += "nothing ! $ fjoin ! $ "
    return body


def exits(w, value, type, ends, said, unfold, name="exits", tests=()):
    """The lemma that what is kept at the end is what the contract says, under the tests on the way there."""
    muts = [x for x in w.order if x in ends]
    items = ["‵ (flft %s-κ %s-q)" % (x, x) for x in w.slices] + ["‵ (finally %s %s-γ %s)" % (w.slices[x].type.row, x, ends[x][0]) for x in muts]
    return EXITS.format(name=name, K=type.known, v=arg(value), ctx=listed(items), bound=bound(w), said=said, unf="unfolding %s\n" % unfold if unfold else "",
                        body=gathers(w, muts) + "has ! %s %s ok $ move ! (1 ∷ 0 ∷ []) $ done !" % (type.known, arg(value)),
                        tests="".join("(%s : %s) → " % t for t in tests), passed="".join(" " + t for t, _ in tests),
                        lens="".join("length %s ≡ length %s-now → " % (ends[x][0], x) for x in muts), ls=" ".join("len-" + x for x in muts),
                        ends=nest([ends[x][0] if x in ends else "tt" for x in w.order]), fits=nest(["len-" + x if x in ends else "tt" for x in w.order]))


EXITS = """{name} : {tests}Fine {K} {v} → {lens}ent 𝓤 (⋆ 𝓤 H A {ctx}) (Post ({K} .val {v}))
{unf}{name}{passed} ok {ls} =
    qed W {ctx} ∵ suffices ! _ (ends-at 𝓤 H A fn.ended stayed (fn.clauses 𝓤 H A at-mem run) W {bound} ({K} .val {v}) {v} {ends} {fits}) $ says ! {said} $
    {body}
"""

# ---- the file


def contracts(w):
    """The contracts that the proof cites."""
    return "\n".join("""abbrev {C} : {{M′ : Type 1}} (𝓤 : URA M′) (H : Heap 𝓤) (A : Atoms 𝓤) (at-mem : Memory → SProp 𝓤) (run : Routine → Fun 𝓤) → Contract 𝓤
{C} 𝓤 H A at-mem run = tripleOf 𝓤 H A {c}.signature ({c}.spec 𝓤 H A at-mem run)
""".format(C=promise(c), c=kebab(c)) for c in w.callees)


def cited(w):
    """The proofs that the callees meet them."""
    lines = ["    (cited 𝓤 H (%s 𝓤 H (𝓖 .A) (𝓜 .mem) (𝓡 .run)) 𝓜 𝓡 code.env #%s %s-def.routine code.calls-%s (%s-thm.met 𝓤 H 𝓜 𝓖 𝓡))" % (
        promise(c), w.symbol(c), kebab(c), w.symbol(c), kebab(c)) for c in w.callees]
    return "\n" + "\n".join(lines) if lines else ""


def walked(w, lemmas, steps):
    """The module of the walk, over the tables: its lemmas, and the steps that they begin with."""
    return WALKED.format(known=known(w), rooms=rooms(w), κs=lifetimes(w), qs=shares(w), flat=flat(w), tokens=tokens(w), rows=rows(w), lemmas=indented(lemmas, 2), steps=indented("\n".join(steps), 6))


def save(w, inside, steps, lemmas="", before=""):
    """The file: the lemmas `before` the module of the arguments, those `inside` it, and those of the walk, over the tables."""
    fn = ".".join(w.name.split("::")[1:])
    own = w.names.proofs(w.crate, fn)
    w.names.alias(own + ".Key", "{name as #%s}" % w.symbol(w.name))
    for tail, short in (("", "fn"), (".Statement", "stated"), (".Code", "code"), (".Code.Mir", "M")):
        w.names.alias(own + tail, short)
    body = FILE.format(stays=stays(w), contracts=contracts(w), before=before, machine=MACHINE, binders=binders(w), texts=indented(arguments(w), 2), inside=indented(inside, 2),
                       walk=indented(walked(w, lemmas, steps), 2), known=known(w), spells=spells(w), tells=tells(w), handed=handed(w), knowns=" ".join("known-" + kebab(c) for c in w.callees),
                       are=" ".join("(are %s .0 .1)" % at(j) for j, x in enumerate(w.order) if x in w.slices), n=len(w.slices), goes=goes(w), k=kebab(w.name), sym=w.symbol(w.name), cited=cited(w))
    text = "-- `%s` meets its contract: a walk through its steps %s. %s\n-- Assumes nothing.\n%s\n\n%s" % (w.name, files.MARK, w.what, w.names.text(body), body)
    files.add(files.walk_path(w.name), re.sub(r"[ \t]+\n", "\n", text))


FILE = """abbrev stayed : Stays (fn.ended .signature .params) (fn.ended .kept)
stayed = {stays}

-- the contracts that the proof cites
{contracts}
{before}module _ {machine}{binders} where
{texts}
{inside}
{walk}
module _ {machine} (𝓣 : Tables 𝓤 H) {known} where
  walks : Walks 𝓤 H A fn.ended stayed (WpFn 𝓤 H (𝓣 .C) (𝓣 .Λ) code.function) (fn.clauses 𝓤 H A at-mem run)
  walks = walked 𝓤 H A fn.ended stayed (fn.clauses 𝓤 H A at-mem run) (WpFn 𝓤 H (𝓣 .C) (𝓣 .Λ) code.function)
      (λ κs. {spells}) (λ κs. {tells})
      (λ κs qs bounds a g are. via 𝓤 _ (fst∗ 𝓤 _ (emp 𝓤)) (walk 𝓤 H A W at-mem run {handed} 𝓣 {knowns} {are}))

  goes : AllGo 𝓤 H A W {n} (fn.signature .params) (fn.ended .kept) stayed
  goes = {goes}

  meets : Meets 𝓤 H A fn.signature (WpFn 𝓤 H (𝓣 .C) (𝓣 .Λ) code.function) (fn.spec 𝓤 H A at-mem run)
  meets = walk-meets 𝓤 H A fn.ended stayed W goes (fn.clauses 𝓤 H A at-mem run) (WpFn 𝓤 H (𝓣 .C) (𝓣 .Λ) code.function) (WpFn-mono 𝓤 H (W .laws) 𝓣 code.function) walks

pub {k}-spec : {{M′ : Type 1}} → stated.statement M′
unfolding code.routine tablesOf
{k}-spec 𝓤 H 𝓜 𝓖 𝓡 =
    entered 𝓤 H (tripleOf 𝓤 H (𝓖 .A) fn.signature (fn.spec 𝓤 H (𝓖 .A) (𝓜 .mem) (𝓡 .run)))
    (tables 𝓤 H 𝓜 𝓡 code.env .C) (tables 𝓤 H 𝓜 𝓡 code.env .Λ) #{sym} code.function (code.unfolded 𝓤 H 𝓜 𝓡)
    (meets 𝓤 H (𝓖 .A) (givenOf 𝓤 H 𝓜 𝓖) (𝓜 .mem) (𝓡 .run) (tablesOf 𝓤 H 𝓜 (tables 𝓤 H 𝓜 𝓡 code.env)){cited})
"""
WALKED = """module _ (𝓣 : Tables 𝓤 H) {known} {rooms} where
  abbrev fm : FmC 𝓤 H (W .laws) (𝓣 .C)
  fm = fmOf 𝓤 H (W .laws) 𝓣

{lemmas}  walk : ent 𝓤 (onEntry 𝓤 H A fn.signature {κs} {qs} args machine) (WpFn 𝓤 H (𝓣 .C) (𝓣 .Λ) code.function {flat} Post)
  walk =
      qed W ({tokens} ∷ ‵ (owns {rows} args machine) ∷ []) ∵ enter ! (𝓣 .C) (𝓣 .Λ) code.function {flat} _ $
{steps}
"""
