"""All functions that are proved by a rule: each as an expression of Rust, and as its rule. Whoever
trusts the proof has to agree with this folder."""

from rows import fixed as fixed
from rows import geometry as geometry
from rows import ids as ids
from rows import scalars as scalars
from rows import variations as variations
from rows import arrays as arrays
from rows import exports as exports  # isort: skip
from rows.row import CASES as CASES
from rows.row import FORMATS as FORMATS
from rows.row import LONG as LONG
from rows.row import Case as Case
from rows.row import Rule as Rule
from rows.scalars import written as written
