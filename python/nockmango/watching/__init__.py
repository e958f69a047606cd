"""One page that shows a run: the net's picture with its tokens, occurrence by occurrence, charts
over the time, and why a transition is not enabled."""
from .page import main, page_of
from .recording import recorded

__all__ = ["main", "page_of", "recorded"]
