"""A plain model of the language and of runs, which is not the program and knows nothing of it.

It reads the inscriptions of a document, unfolds its modules, and replays the runs of a report:
`states` gives the marking after each occurrence. The tests hold it against the program.
"""
from .faults import FAULTS, Fault
from .measures import measured
from .nets import Net, Transition
from .runs import State, states
from .texts import Wrong

__all__ = ["FAULTS", "Fault", "Net", "State", "Transition", "Wrong", "measured", "states"]
