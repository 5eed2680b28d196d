"""Equalities whose later arguments join terms that the unifier has passed by already."""
from term_cases.equalities import f, g
from term_cases.table import *

heading('a join touches terms before it')
equality('f(g(V1), g(V2)) = f(V0, V0)', [(0, g(V1)), (2, V1)], f(g(V1), g(V2)), f(V0, V0))
equality('f(g(a), g(b)) = f(V0, V0)', 'none', f(g(A), g(B)), f(V0, V0))
