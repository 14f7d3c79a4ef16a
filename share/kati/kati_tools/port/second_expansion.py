"""`.SECONDEXPANSION`: prerequisites that are expanded again for each target, which kati gets as make has them.

A pattern rule is for kati a static one, of the targets for which make took it."""
from ..make import database
from ..makefile import statements
from ..makefile.syntax import Kind
from . import mending


def mend(port, fault):
    """E22: keeps the special target for make, and gives kati each target's prerequisites; answers whether it did."""
    if not mending.is_of_target(fault, ".SECONDEXPANSION"):
        return False
    lines = fault.file.lines
    meant = [line for line in lines[lines.index(fault.line) + 1:] if is_meant(line)]
    known = database.targets(port.run.with_database()[1]) if meant else {}
    told = port.run.values([" ".join(statements.Rule(line.joined).targets) for line in meant])
    texts = [katis_rule(port, fault.file, line, (targets or "").split(), known) for line, targets in zip(meant, told)]
    if None in texts:
        return False
    for line, text in zip(meant, texts):
        line.wrap(text)
    fault.line.wrap()
    port.tell("second expansion")
    return True


def katis_rule(port, file, line, targets, known):
    """What gives kati's text of a rule line; None where nothing is known to give."""
    if any("%" in name for name in targets):
        return katis_pattern_rule(port, file, line, targets, known)
    if not targets or any(name not in known for name in targets):
        return None
    return lambda text: for_kati(text, targets, known, head_of(text, targets))


def head_of(text, targets):
    """What stands before the recipe of a rule line for these targets: with its pattern, of which the recipe has the
    stem."""
    pattern = statements.Rule(text).pattern
    return " ".join(targets) + (f": {pattern}" if pattern else "")


def katis_pattern_rule(port, file, line, patterns, known):
    """The same for a pattern rule, which isn't to be the first rule for kati."""
    if len(patterns) > 1 or not (port.run.goals or has_rule_before(file, line)):
        return None
    own = recipe_lines(file, line)
    targets = [name for name, one in known.items()
               if one.stem is not None and name == patterns[0].replace("%", one.stem, 1) and one.recipe is not None
               and any(found is port.ported[one.recipe[0]].line_at(one.recipe[1]) for found in own
                       if one.recipe[0] in port.ported)]
    # A recipe needs a rule, if only one that nothing asks for.
    head = f"{' '.join(targets)}: {patterns[0]}" if targets else f".KATI_NO_TARGET_{line.number}"
    return lambda text: for_kati(text, targets, known, head)


def has_rule_before(file, line):
    """Whether a rule that may be the first goal stands before a line."""
    for one in file.lines[:file.lines.index(line)]:
        targets = one.says.targets if one.kind is Kind.RULE else []
        if targets and "%" not in targets[0] and not targets[0].startswith("."):
            return True
    return False


def recipe_lines(file, line):
    """The lines where the recipe of a rule line may begin."""
    found = [line]
    for one in file.lines[file.lines.index(line) + 1:]:
        if not one.is_tab and one.joined.strip() and not one.joined.lstrip().startswith("#"):
            break
        found.append(one)
    return found


def is_meant(line):
    """Whether a rule line has prerequisites that are expanded twice."""
    if line.is_tab or line.is_body or line.is_makes or line.assignment():
        return False
    rule = statements.Rule(line.joined)
    return rule.is_rule and not rule.specific and "$$" in " ".join(rule.needs)


def for_kati(text, targets, known, head):
    """kati's lines: the prerequisites of each target, then the rule line without any, which the recipe belongs to."""
    rule = statements.Rule(text)
    recipe = "" if rule.recipe is None else f" ;{rule.recipe}"
    lines = [f"{name}: {known[name].needs}".rstrip() for name in targets]
    return "\n".join([*lines, f"{head}:{recipe}"])
