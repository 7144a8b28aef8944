"""Lines `store` of a spec that name no store which the analysis lets write their register: they say something of another place than was
meant."""

from __future__ import annotations

from stackcheck_tools.analysis import followed
from stackcheck_tools.analysis.outcome import Accepted
from stackcheck_tools.analysis.permitted import Permitted
from stackcheck_tools.firmware.names import SpecFault
from stackcheck_tools.spec.spec import Spec


def check(outcome: Accepted, spec: Spec) -> None:
    """Refuses the first `store` line none of whose stores may write one of its registers."""
    lines = [it for it in spec.lines if it.kind == "store"]
    if not lines:
        return
    permitted = Permitted(followed.states(outcome.firmware.elf, outcome.certificate), outcome.causes)
    for line in lines:
        for address in sorted(line.items):
            if not any(permitted.may_write(word, address) for word in line.places):
                name = outcome.firmware.device.register_name(address)
                raise SpecFault(f"no store that `{line.text}` names may write {name}: it names another store than was meant, or one that "
                                "never runs (build with -g if the compiler may have inlined it)", line.number, "SB007")
