p(A) :- A = g(L).
q :- L = 1.
r(A) :- A = g(2).
