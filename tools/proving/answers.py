"""What the answers of cycles need beyond what a check prints: by hand."""

# Names to unfold that a function's contract doesn't name, by the function's name.
UNFOLD = {
    'dshiftctx': 'context_row',
    'lookup': 'context_row',
    'ctx': 'known_row known_or ctx_cons',
    'expose': 'retyped',
    'infer': 'new_infer',
    'find': 'find_compound up',
    'app': 'as_pi',
    'papp': 'as_path',
    'fst': 'as_sigma',
    'snd': 'as_sigma',
    'reduce': 'fst_beta snd_beta as_sigma',
    'path': 'path_ends up',
    'plam': 'plam_ends up',
    'under': 'up',
    'build': 'up follows_number',
    'under_subst': 'up',
    'pair': 'pair_typed',
    'along': 'at_ends as_path',
    'val': 'as_path',
    'equal': 'equal_normal',
    'normalize': 'normal_by',
    'app_cong': 'pi_of',
    'papp_cong': 'path_of',
}

# Those of them that another crate defines: that value which the check computes.
OTHERS = {'up': 'Rattle.ast.specs.Words'}

# What is never unfolded: laws speak of it.
SHUT = ('callees', 'rounds', 'built', 'scoped')

# The operators of tests that aren't named after them, as if-left-eq0 and if-s1-lt32 are. Any other test is of a Bool.
TESTS = {'if-n-m': '>=', 'if-n-m-2': '>', 'if-s1-ge32': '>=', 'if-i-j': '!=', 'if-read-number': '=='}

# What makes a test's fact an equation of Bools, by the operator: where it is true, and where it is false.
# A test with its sides exchanged is one of `<` or `<=` that fails.
EQUATIONS = {'==': ('eq-eqb', 'ne_eqb'), '!=': ('ne_eqb', 'eq-eqb'), '<': ('lt-ltb', 'le-ltb'), '<=': ('le-leb', 'lt-leb'),
             '>=': ('le-ltb', 'lt-ltb'), '>': ('lt-leb', 'le-leb')}

# Laws to rewrite by before a call, by its name or that of its step.
BEFORE = {'ended': 'law.ended_end _ _ _', 'max-top': 'law.greater_is _ _', 'max-2': 'law.greater_is _ _'}

# What is said of a call's result by a law, where the goal has not the result: of a node that is made.
LAWS = {'new': 'law.node', 'of_words': 'law.node'}

# Calls before which the node made last is told of a second time: its kind's rule stands in the goal too.
RULED = {'tmake': 'law.node_rule _'}

# Calls whose contract says what the result is, where the goal has the result.
DIRECT = ('refused',)

# The laws of a loop, by its function's name: of a turn, and of the end. The loop's invariant is a bound and an equation.
LOOPS = {'turns': ('law.rounds_turn _ _ _ _ _ _ _ _ _ _', 'law.rounds_over _ _ _ _ _ _ _ _ _ _')}
