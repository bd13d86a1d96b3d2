"""Finds under which path a check prints a function, and where the function's proofs stand by that."""

import re

from . import kit


class PrintedPaths:
    """The paths of a crate's functions as checks print them: as they should be by the sources, until a check has
    told."""

    def __init__(self, sources):
        self.sources, self.crate_name = sources, sources.crate.name
        # All paths that checks have printed; the one of each function, so far as it is known, and as it was last asked
        # for; and the functions that a check has under no path at all.
        self.seen, self.of, self.asked, self.unnamed = set(), {}, {}, set()

    def candidates(self, function):
        """Returns what the function's path may be as a check prints it, or the end of it: a method stands below the
        module of its type, wherever its impl stands, and behind a trait's name may stand the trait's argument. Each is
        there once, since the next is looked for by it."""
        *before, name = function.path.split("::")
        scope, _, argument = before[-1].partition(":")
        module_of_type = self.sources.module_of_type
        types = [it for it in module_of_type if scope.startswith(it)]
        home = module_of_type[max(types, key=len)] if types else "::".join(before[:-1])
        own = "::".join([*before[:-1], scope, name])
        with_argument = [f"{home}::{scope}{argument}::{name}", f"{scope}{argument}::{name}"] if argument else []
        # (each once: who asks for the name behind one that doesn't fit would else ask for the same again, for ever)
        first = f"{home}::{scope}::{name}" if types else own
        return list(dict.fromkeys([*with_argument, first, own, f"{scope}::{name}", name]))

    def printed(self, function):
        """Returns the function's path as a check prints it, so far as that is known."""
        return self.of.get(function) or self.candidates(function)[0]

    def ask_for(self, functions):
        """Returns the paths by which a check is to be asked for these functions."""
        for it in functions:
            self.asked.setdefault(it, self.printed(it))
        return [self.asked[it] for it in functions]

    def learn(self, said):
        """Learns the functions' paths from what a check printed of them."""
        self.seen.update(path for path, _ in kit.FUNCTION_ROW.findall(said))
        for it in self.sources.all_functions():
            asked = self.asked.get(it)
            found = [path for path in self.seen if path == asked or path.endswith("::" + (asked or " "))]
            if len(found) == 1:
                self.of[it] = found[0]

    def ask_for_next(self, said):
        """Asks for the next path where a check has no function of the one that was asked for, or several, and returns
        whether there is one."""
        several = kit.SEVERAL_FUNCTIONS.search(said)
        if several:
            return self.ask_for_one_of(several[1], re.findall(r"`([^`]+)`", several[2]))
        told = kit.NO_SUCH_FUNCTION.search(said)
        unfit = [it for it, path in self.asked.items() if told and told[1] in (path, path.partition("::")[2])]
        for it in unfit:
            left = self.candidates(it)
            left = left[left.index(self.asked[it]) + 1 :] if self.asked[it] in left else []
            if not left:
                self.unnamed.add(it)
                return False
            self.asked[it] = left[0]
        return bool(unfit)

    def ask_for_one_of(self, name, paths):
        """Asks for the one of these paths that each function has which was asked for by this name, and returns whether
        each has one. Behind a trait's name a path has all arguments of the trait."""
        unfit = [it for it, path in self.asked.items() if name in (path, path.partition("::")[2])]
        for it in unfit:
            *modules, scope, _ = it.path.split("::")
            begins = "::".join([*modules, scope.partition(":")[0]])
            fit = [path for path in paths if path.startswith(begins)]
            if len(fit) != 1:
                self.unnamed.add(it)
                return False
            self.asked[it] = fit[0]
        return bool(unfit)

    def proof_folders(self, function):
        """Returns where below proofs/ the proofs of a function and of its closures stand."""
        _, *places, name = self.printed(function).split("::")
        return ["/".join([*places, name]), "/".join([*places, "fn", name])]
