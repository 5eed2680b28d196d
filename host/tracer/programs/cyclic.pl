same(X, X).
over(X, f(X)).
