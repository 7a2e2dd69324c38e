"""The language, once: kinds of nodes, judgments, rules, calls and refusals.

A newcomer's first stop, and the only place where a kind, a judgment, a rule or a refusal is listed by hand. What repeats it elsewhere
(constants of the program, tables, a clause for each kind) is written from here by tools/written.py, and the gate sees that it is.
What a rule says is defined in crates/walk/specs/Rules.antt, which the patterns here are proved equal to (crates/schemas); what the walk does at a kind, in crates/walk/specs/Walk.
"""
from collections import namedtuple

# A part of a node, or an argument of a judgment: its name, its sort (number, term, interval or context), whether a quote shows it,
# and the binder that it stands under ('variable', 'dimension' or none).
Part = namedtuple('Part', 'name sort shown under')

# byte: in a run, and word 0 of its cell. name: as the listing prints it, and the quote's constructor. node: the definition's
# constructor. word: its name in the program and in lemmas. tag: its name in rules and in the reader. taken: where the walk takes a term
# of this kind apart to see whether it is one, the name of what gives its parts.
Kind = namedtuple('Kind', 'byte name node parts word tag taken')
Judgment = namedtuple('Judgment', 'number name parts meaning')
# A rule by its number and name: the judgment that it concludes, and its lines, each the premises and the conclusion as patterns in the
# listing's notation (crates/schemas, Parse): a capital letter is a hole, of a number where it is D or one of I to N; N+ is the number after N.
Rule = namedtuple('Rule', 'number name judgment lines')
# counted: whether a count and that many types come after the terms.
Call = namedtuple('Call', 'code name terms enters counted', defaults=[False])
Refusal = namedtuple('Refusal', 'number name because')
RunRefusal = namedtuple('RunRefusal', 'number name because place')


def parts(text):
    """Parts from a line such as "A: term under a dimension, not shown; b: term under a dimension"."""
    out = []
    for part in filter(None, text.split('; ')):
        name, rest = part.split(': ')
        words = rest.replace(',', '').split()
        out.append(Part(name, words[0], 'not' not in words, next((w for w in words if w in ('variable', 'dimension')), '')))
    return out


def ruled(rows):
    """Rules from rows of number, name, premises and conclusion; one with several lists of premises has several rows."""
    out = []
    for number, name, premises, conclusion in rows:
        if out and out[-1].number == number:
            out[-1].lines.append((premises, conclusion))
        else:
            out.append(Rule(number, name, conclusion[1:].split(' ')[0], [(premises, conclusion)]))
    return out


def kind(byte, name, node, text='', word=None, tag=None, taken=None):
    return Kind(byte, name, node, parts(text), word or name, tag or name, taken)


# ---- Kinds. Parts stand in the order of the bytes, and in words 1 to 3 of a cell.

TERMS = [
    kind(1, 'u', 'Universe', 'n: number', word='universe', taken='level'),
    kind(2, 'v', 'Var', 'n: number', word='var'),
    kind(3, 'nat', 'Nat'),
    kind(4, 'zero', 'Zero'),
    kind(5, 'pi', 'Pi', 'A: term; B: term under a variable', taken='pi_parts'),
    kind(6, 'lam', 'Lam', 'A: term, not shown; b: term under a variable', taken='lam_parts'),
    kind(7, 'app', 'App', 'f: term; a: term'),
    kind(8, 'path', 'Path', 'A: term under a dimension; b: term; c: term', taken='path_parts'),
    kind(9, 'plam', 'PathLam', 'A: term under a dimension, not shown; b: term under a dimension', taken='plam_parts'),
    kind(10, 'papp', 'PathApp', 'p: term; r: interval'),
    kind(11, 'sigma', 'Sigma', 'A: term; B: term under a variable', taken='sigma_parts'),
    kind(12, 'pair', 'Pair', 'A: term, not shown; a: term; b: term', taken='pair_parts'),
    kind(13, 'fst', 'Fst', 'p: term'),
    kind(14, 'snd', 'Snd', 'p: term'),
]

INTERVALS = [
    kind(16, 'i0', 'I0', tag='0'),
    kind(17, 'i1', 'I1', tag='1'),
    kind(18, 'dim', 'Dim', 'n: number'),
    kind(19, 'neg', 'Neg', 'r: interval'),
    kind(20, 'meet', 'Meet', 'r: interval; s: interval'),
    kind(21, 'join', 'Join', 'r: interval; s: interval'),
]

# In cells and in the listing alone; a run has the number of a context's types, and then these.
CONTEXTS = [
    kind(32, 'nil', 'Nil'),
    kind(33, 'cons', 'Cons', 'A: term; g: context'),
]

# The kind of a remembered inference's cell.
INFERENCE = 40

# ---- Judgments, in the order of their numbers. d is a dimension count, g and h are contexts, k is a cutoff or the place of what is put in.

JUDGMENTS = [Judgment(number, name, parts(text), meaning) for number, (name, text, meaning) in enumerate([
    ('ctx', 'd: number; g: context', 'g is a context'),
    ('dshiftctx', 'g: context; k: number; h: context', 'h is g with its dimensions up by one; k is 0'),
    ('lookup', 'g: context; n: number; A: term', 'variable n of g has the type A, over the whole of g'),
    ('lt', 'm: number; n: number', 'm < n'),
    ('le', 'm: number; n: number', 'm ≤ n'),
    ('max', 'm: number; n: number; k: number', 'k is the larger of m and n'),
    ('interval', 'd: number; r: interval', 'the dimensions of r are below d'),
    ('ishift', "r: interval; k: number; r': interval", "r' is r with its dimensions from k on up by one"),
    ('isubst', "r: interval; k: number; s: interval; r': interval", "r' is r with s for dimension k"),
    ('shift', "t: term; k: number; t': term", "t' is t with its variables from k on up by one"),
    ('subst', "t: term; k: number; s: term; t': term", "t' is t with s for variable k"),
    ('dshift', "t: term; k: number; t': term", "t' is t with its dimensions from k on up by one"),
    ('dsubst', "t: term; k: number; r: interval; t': term", "t' is t with r for dimension k"),
    ('has', 'd: number; g: context; t: term; A: term', 't has the type A'),
    ('eq', 'd: number; g: context; a: term; b: term; A: term', 'a and b are equal at the type A'),
    ('iend', 'r: interval; e: interval', 'r works out to the end e'),
])]

# ---- Rules, in the order of their numbers: name, premises, conclusion. New rules come after the old ones.

RULES = ruled([
    (0, 'ctx.nil', '', '(ctx D nil)'),
    (1, 'ctx.cons', '(ctx D G) (has D G A (u L))', '(ctx D (cons A G))'),
    (2, 'dshiftctx.nil', '', '(dshiftctx nil 0 nil)'),
    (3, 'dshiftctx.cons', '(dshiftctx G 0 H) (dshift A 0 P)', '(dshiftctx (cons A G) 0 (cons P H))'),
    (4, 'lookup.z', '(shift A 0 B)', '(lookup (cons A G) 0 B)'),
    (5, 'lookup.s', '(lookup G N A) (shift A 0 B)', '(lookup (cons C G) N+ B)'),
    (6, 'lt.z', '', '(lt 0 N+)'),
    (7, 'lt.s', '(lt M N)', '(lt M+ N+)'),
    (8, 'le.z', '', '(le 0 N)'),
    (9, 'le.s', '(le M N)', '(le M+ N+)'),
    (10, 'max.z', '', '(max 0 N N)'),
    (11, 'max.sz', '', '(max M+ 0 M+)'),
    (12, 'max.ss', '(max M N K)', '(max M+ N+ K+)'),
    (13, 'interval.0', '', '(interval D i0)'),
    (14, 'interval.1', '', '(interval D i1)'),
    (15, 'interval.dim', '(lt N D)', '(interval D (dim N))'),
    (16, 'interval.neg', '(interval D R)', '(interval D (neg R))'),
    (17, 'interval.meet', '(interval D R) (interval D W)', '(interval D (meet R W))'),
    (18, 'interval.join', '(interval D R) (interval D W)', '(interval D (join R W))'),
    (19, 'ishift.0', '', '(ishift i0 K i0)'),
    (20, 'ishift.1', '', '(ishift i1 K i1)'),
    (21, 'ishift.dim.lt', '(lt N K)', '(ishift (dim N) K (dim N))'),
    (22, 'ishift.dim.ge', '(le K N)', '(ishift (dim N) K (dim N+))'),
    (23, 'ishift.neg', '(ishift R K U)', '(ishift (neg R) K (neg U))'),
    (24, 'ishift.meet', '(ishift R K U) (ishift W K Z)', '(ishift (meet R W) K (meet U Z))'),
    (25, 'ishift.join', '(ishift R K U) (ishift W K Z)', '(ishift (join R W) K (join U Z))'),
    (26, 'isubst.0', '', '(isubst i0 K S i0)'),
    (27, 'isubst.1', '', '(isubst i1 K S i1)'),
    (28, 'isubst.dim.hit', '', '(isubst (dim K) K S S)'),
    (29, 'isubst.dim.lt', '(lt N K)', '(isubst (dim N) K S (dim N))'),
    (30, 'isubst.dim.gt', '(lt K N+)', '(isubst (dim N+) K S (dim N))'),
    (31, 'isubst.neg', '(isubst R K S U)', '(isubst (neg R) K S (neg U))'),
    (32, 'isubst.meet', '(isubst R K S U) (isubst W K S Z)', '(isubst (meet R W) K S (meet U Z))'),
    (33, 'isubst.join', '(isubst R K S U) (isubst W K S Z)', '(isubst (join R W) K S (join U Z))'),
    (34, 'shift.u', '', '(shift (u L) K (u L))'),
    (35, 'shift.nat', '', '(shift nat K nat)'),
    (36, 'shift.zero', '', '(shift zero K zero)'),
    (37, 'shift.v.lt', '(lt N K)', '(shift (v N) K (v N))'),
    (38, 'shift.v.ge', '(le K N)', '(shift (v N) K (v N+))'),
    (39, 'shift.pi', '(shift A K P) (shift B K+ Q)', '(shift (pi A B) K (pi P Q))'),
    (40, 'shift.lam', '(shift B K+ Q)', '(shift (lam B) K (lam Q))'),
    (41, 'shift.app', '(shift F K P) (shift A K B)', '(shift (app F A) K (app P B))'),
    (42, 'shift.path', '(shift A K P) (shift B K Q) (shift C K R)', '(shift (path A B C) K (path P Q R))'),
    (43, 'shift.plam', '(shift B K Q)', '(shift (plam B) K (plam Q))'),
    (44, 'shift.papp', '(shift P K Q)', '(shift (papp P R) K (papp Q R))'),
    (45, 'subst.u', '', '(subst (u L) K X (u L))'),
    (46, 'subst.nat', '', '(subst nat K X nat)'),
    (47, 'subst.zero', '', '(subst zero K X zero)'),
    (48, 'subst.v.hit', '', '(subst (v K) K X X)'),
    (49, 'subst.v.lt', '(lt N K)', '(subst (v N) K X (v N))'),
    (50, 'subst.v.gt', '(lt K N+)', '(subst (v N+) K X (v N))'),
    (51, 'subst.pi', '(subst A K X P) (shift X 0 Y) (subst B K+ Y Q)', '(subst (pi A B) K X (pi P Q))'),
    (52, 'subst.lam', '(shift X 0 Y) (subst B K+ Y Q)', '(subst (lam B) K X (lam Q))'),
    (53, 'subst.app', '(subst F K X P) (subst A K X B)', '(subst (app F A) K X (app P B))'),
    (54, 'subst.path', '(dshift X 0 Y) (subst A K Y P) (subst B K X Q) (subst C K X R)', '(subst (path A B C) K X (path P Q R))'),
    (55, 'subst.plam', '(dshift X 0 Y) (subst B K Y Q)', '(subst (plam B) K X (plam Q))'),
    (56, 'subst.papp', '(subst P K X Q)', '(subst (papp P R) K X (papp Q R))'),
    (57, 'dshift.u', '', '(dshift (u L) K (u L))'),
    (58, 'dshift.nat', '', '(dshift nat K nat)'),
    (59, 'dshift.zero', '', '(dshift zero K zero)'),
    (60, 'dshift.v', '', '(dshift (v N) K (v N))'),
    (61, 'dshift.pi', '(dshift A K P) (dshift B K Q)', '(dshift (pi A B) K (pi P Q))'),
    (62, 'dshift.lam', '(dshift B K Q)', '(dshift (lam B) K (lam Q))'),
    (63, 'dshift.app', '(dshift F K P) (dshift A K B)', '(dshift (app F A) K (app P B))'),
    (64, 'dshift.path', '(dshift A K+ P) (dshift B K Q) (dshift C K R)', '(dshift (path A B C) K (path P Q R))'),
    (65, 'dshift.plam', '(dshift B K+ Q)', '(dshift (plam B) K (plam Q))'),
    (66, 'dshift.papp', '(dshift P K Q) (ishift R K U)', '(dshift (papp P R) K (papp Q U))'),
    (67, 'dsubst.u', '', '(dsubst (u L) K S (u L))'),
    (68, 'dsubst.nat', '', '(dsubst nat K S nat)'),
    (69, 'dsubst.zero', '', '(dsubst zero K S zero)'),
    (70, 'dsubst.v', '', '(dsubst (v N) K S (v N))'),
    (71, 'dsubst.pi', '(dsubst A K S P) (dsubst B K S Q)', '(dsubst (pi A B) K S (pi P Q))'),
    (72, 'dsubst.lam', '(dsubst B K S Q)', '(dsubst (lam B) K S (lam Q))'),
    (73, 'dsubst.app', '(dsubst F K S P) (dsubst A K S B)', '(dsubst (app F A) K S (app P B))'),
    (74, 'dsubst.path', '(ishift S 0 T) (dsubst A K+ T P) (dsubst B K S Q) (dsubst C K S R)', '(dsubst (path A B C) K S (path P Q R))'),
    (75, 'dsubst.plam', '(ishift S 0 T) (dsubst B K+ T Q)', '(dsubst (plam B) K S (plam Q))'),
    (76, 'dsubst.papp', '(dsubst P K S Q) (isubst R K S U)', '(dsubst (papp P R) K S (papp Q U))'),
    (77, 'type.u', '(ctx D G)', '(has D G (u L) (u L+))'),
    (78, 'type.nat', '(ctx D G)', '(has D G nat (u 0))'),
    (79, 'type.zero', '(ctx D G)', '(has D G zero nat)'),
    (80, 'type.v', '(ctx D G) (lookup G N A)', '(has D G (v N) A)'),
    (81, 'type.pi', '(has D G A (u I)) (has D (cons A G) B (u J)) (max I J K)', '(has D G (pi A B) (u K))'),
    (82, 'type.lam', '(has D G A (u I)) (has D (cons A G) B C) (has D (cons A G) C (u J))', '(has D G (lam B) (pi A C))'),
    (83, 'type.app', '(has D G F (pi C B)) (has D G A C) (subst B 0 A Q)', '(has D G (app F A) Q)'),
    (84, 'type.path', '(ctx D G) (dshiftctx G 0 H) (has D+ H A (u L)) (dsubst A 0 i0 P) (dsubst A 0 i1 Q) (has D G B P) (has D G C Q)', '(has D G (path A B C) (u L))'),
    (85, 'type.plam', '(ctx D G) (dshiftctx G 0 H) (has D+ H A (u L)) (has D+ H T A) (dsubst A 0 i0 P) (dsubst A 0 i1 Q) (dsubst T 0 i0 B) (dsubst T 0 i1 C) (has D G B P) (has D G C Q)', '(has D G (plam T) (path A B C))'),
    (86, 'type.papp', '(has D G P (path A E C)) (interval D R) (dsubst A 0 R B) (has D G B (u L))', '(has D G (papp P R) B)'),
    (87, 'type.conv', '(has D G T A) (eq D G A B (u L)) (has D G B (u L))', '(has D G T B)'),
    (88, 'eq.refl', '(has D G T A)', '(eq D G T T A)'),
    (89, 'eq.sym', '(eq D G A B C)', '(eq D G B A C)'),
    (90, 'eq.trans', '(eq D G A B E) (eq D G B C E)', '(eq D G A C E)'),
    (91, 'eq.beta', '(has D G E (u I)) (has D (cons E G) B F) (has D (cons E G) F (u J)) (has D G A E) (subst B 0 A Q) (subst F 0 A C)', '(eq D G (app (lam B) A) Q C)'),
    (92, 'eq.pbeta', '(has D G (plam T) (path A E C)) (interval D R) (dsubst A 0 R B) (dsubst T 0 R U) (has D G U B)', '(eq D G (papp (plam T) R) U B)'),
    (93, 'eq.p0', '(has D G P (path A B C)) (dsubst A 0 i0 E) (has D G B E)', '(eq D G (papp P i0) B E)'),
    (94, 'eq.p1', '(has D G P (path A E C)) (dsubst A 0 i1 B) (has D G C B)', '(eq D G (papp P i1) C B)'),
    (95, 'type.sigma', '(has D G A (u I)) (has D (cons A G) B (u J)) (max I J K)', '(has D G (sigma A B) (u K))'),
    (96, 'type.pair', '(has D G A (u I)) (has D (cons A G) B (u J)) (has D G P A) (subst B 0 P C) (has D G C (u J)) (has D G Q C)', '(has D G (pair P Q) (sigma A B))'),
    (97, 'type.fst', '(has D G P (sigma A B)) (has D G A (u I))', '(has D G (fst P) A)'),
    (98, 'type.snd', '(has D G P (sigma A B)) (subst B 0 (fst P) C) (has D G C (u J))', '(has D G (snd P) C)'),
    (99, 'eq.fst-beta', '(has D G (pair P Q) (sigma A B)) (has D G P A)', '(eq D G (fst (pair P Q)) P A)'),
    (100, 'eq.snd-beta', '(has D G (pair P Q) (sigma A B)) (subst B 0 (fst (pair P Q)) C) (has D G Q C)', '(eq D G (snd (pair P Q)) Q C)'),
    (101, 'shift.sigma', '(shift A K P) (shift B K+ Q)', '(shift (sigma A B) K (sigma P Q))'),
    (102, 'shift.pair', '(shift A K P) (shift B K Q)', '(shift (pair A B) K (pair P Q))'),
    (103, 'shift.fst', '(shift P K Q)', '(shift (fst P) K (fst Q))'),
    (104, 'shift.snd', '(shift P K Q)', '(shift (snd P) K (snd Q))'),
    (105, 'subst.sigma', '(subst A K X P) (shift X 0 Y) (subst B K+ Y Q)', '(subst (sigma A B) K X (sigma P Q))'),
    (106, 'subst.pair', '(subst A K X P) (subst B K X Q)', '(subst (pair A B) K X (pair P Q))'),
    (107, 'subst.fst', '(subst P K X Q)', '(subst (fst P) K X (fst Q))'),
    (108, 'subst.snd', '(subst P K X Q)', '(subst (snd P) K X (snd Q))'),
    (109, 'dshift.sigma', '(dshift A K P) (dshift B K Q)', '(dshift (sigma A B) K (sigma P Q))'),
    (110, 'dshift.pair', '(dshift A K P) (dshift B K Q)', '(dshift (pair A B) K (pair P Q))'),
    (111, 'dshift.fst', '(dshift P K Q)', '(dshift (fst P) K (fst Q))'),
    (112, 'dshift.snd', '(dshift P K Q)', '(dshift (snd P) K (snd Q))'),
    (113, 'dsubst.sigma', '(dsubst A K S P) (dsubst B K S Q)', '(dsubst (sigma A B) K S (sigma P Q))'),
    (114, 'dsubst.pair', '(dsubst A K S P) (dsubst B K S Q)', '(dsubst (pair A B) K S (pair P Q))'),
    (115, 'dsubst.fst', '(dsubst P K S Q)', '(dsubst (fst P) K S (fst Q))'),
    (116, 'dsubst.snd', '(dsubst P K S Q)', '(dsubst (snd P) K S (snd Q))'),
    (117, 'iend.0', '', '(iend i0 i0)'),
    (118, 'iend.1', '', '(iend i1 i1)'),
    (119, 'iend.neg', '(iend R i0)', '(iend (neg R) i1)'),
    (119, 'iend.neg', '(iend R i1)', '(iend (neg R) i0)'),
    (120, 'iend.meet', '(iend R i0)', '(iend (meet R W) i0)'),
    (120, 'iend.meet', '(iend W i0)', '(iend (meet R W) i0)'),
    (120, 'iend.meet', '(iend R i1) (iend W i1)', '(iend (meet R W) i1)'),
    (121, 'iend.join', '(iend R i1)', '(iend (join R W) i1)'),
    (121, 'iend.join', '(iend W i1)', '(iend (join R W) i1)'),
    (121, 'iend.join', '(iend R i0) (iend W i0)', '(iend (join R W) i0)'),
    (122, 'eq.p0-val', '(iend R i0) (has D G P (path A B C)) (interval D R) (dsubst A 0 R E) (has D G B E)', '(eq D G (papp P R) B E)'),
    (123, 'eq.p1-val', '(iend R i1) (has D G P (path A E C)) (interval D R) (dsubst A 0 R B) (has D G C B)', '(eq D G (papp P R) C B)'),
    (124, 'eq.app-cong', '(eq D G F H (pi A B)) (has D G X A) (subst B 0 X C) (has D G (app F X) C) (has D G (app H X) C)', '(eq D G (app F X) (app H X) C)'),
    (125, 'eq.papp-cong', '(eq D G P Q (path A E F)) (interval D R) (dsubst A 0 R B) (has D G (papp P R) B) (has D G (papp Q R) B)', '(eq D G (papp P R) (papp Q R) B)'),
])

# ---- Calls: the code, the terms that follow the context, the reference function that is entered. Of code 6 each type is a check.

CALLS = [
    Call(0, 'context', [], 'ctx'),
    Call(1, 'universe', ['t'], 'universe'),
    Call(2, 'infer', ['t'], 'infer'),
    Call(3, 'check', ['t', 'type'], 'check'),
    Call(4, 'normalise', ['t', 'type'], 'normalize'),
    Call(5, 'equal', ['left', 'right', 'type'], 'equal'),
    Call(6, 'many', ['t'], 'check', counted=True),
    Call(7, 'headwise', ['t', 'type'], 'head_normalize'),
]

# ---- Refusals, in the order of their numbers. Of a run as a whole, each with the place that is told:

RUN_REFUSALS = [
    RunRefusal(1, 'slices', 'the row table has under 24 words, or the cell store under 8', '0'),
    RunRefusal(2, 'bytes', 'it has over 65,536 bytes', '0'),
    RunRefusal(3, 'unread', 'it ends early', 'its length'),
    RunRefusal(3, 'unread', 'its nesting limit is outside 1 to 4,096', '0'),
    RunRefusal(3, 'unread', 'a byte is no code or kind for its spot', "the byte's offset"),
    RunRefusal(4, 'answers', 'the answer slice has under four words a call', '0'),
]

# Of a call, before it is walked:

LIMITS = [
    Refusal(5, 'scope', 'the dimension count or the context length passes 33'),
    Refusal(6, 'size', 'the depth passes 32 (the outermost node is at 0), or the nodes of the call pass 10,000'),
    Refusal(7, 'index', 'an index or a level passes 32'),
]

# And where the walk stops:

REFUSALS = [
    Refusal(8, 'unbound', 'a variable has no type in the context'),
    Refusal(9, 'no-function', 'the function of an application has no pi type after `expose`'),
    Refusal(10, 'no-path', 'the path of a papp has no path type after `expose`'),
    Refusal(11, 'no-type', 'a term wanted as a type has no universe after `expose`'),
    Refusal(12, 'levels', 'a conversion finds two universe levels'),
    Refusal(13, 'quotes', 'two normalised sides have different quotes'),
    Refusal(14, 'step-type', '`normalize` meets a reduction whose type is not quoted as the one wanted'),
    Refusal(15, 'reductions', 'there is a 33rd root reduction'),
    Refusal(16, 'conversions', 'a 33rd conversion would be nested'),
    Refusal(17, 'dimension', 'a dimension is not below the dimension count'),
    Refusal(18, 'rows', 'a new row is needed, and 50,000, or all that the table holds, are used'),
    Refusal(19, 'nesting', 'a function would be entered past the nesting limit'),
    Refusal(20, 'cells', 'a new cell is needed, and none is left, or 4,294,967,295 are used'),
    Refusal(21, 'no-sigma', 'the subject of a projection has no sigma type after `expose`'),
    Refusal(22, 'annotation', 'the annotation of a pair is not written as a sigma'),
]

# Of a call of code 6, before 5:

COUNTS = [
    Refusal(23, 'count', 'the count of its types is 0 or above 16'),
]

# ---- Ahead of the program: what a change request adds that has not landed. The tools in Rust have it behind a switch (tools/oracle/README.md);
# nothing is written from it for the program. The landing moves each line to its list above.

AHEAD_TERMS, AHEAD_RULES, AHEAD_REFUSALS = [], [], []
