"""What the checks of the model share: the list of them and a few words."""
from encoding import Refusal

CHECKS = []


def check(function):
    CHECKS.append(function)
    return function


def same(found, wanted):
    assert found == wanted, f"found {found}, wanted {wanted}"


def refused(call, *arguments):
    try:
        call(*arguments)
    except Refusal as fault:
        return fault.number, fault.offset
    return None
