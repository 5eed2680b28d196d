edge(a, b).
edge(a, c).
edge(b, d).
edge(c, d).
path(X, X).
path(X, Z) :- edge(X, Y), path(Y, Z).
