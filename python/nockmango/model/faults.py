"""The faults: why an inscription has no value."""

FAULTS = (
    "overflow",
    "divide_by_zero",
    "empty_list",
    "no_case",
    "not_in_colour",
    "bad_coefficient",
    "bad_delay",
    "too_large",
)


class Fault(Exception):
    """An inscription has no value, with the name of the fault. `number` is that of the report."""

    @property
    def number(self) -> int:
        return FAULTS.index(str(self)) + 1
