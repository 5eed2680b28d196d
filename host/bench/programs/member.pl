member(X, cons(X, L)).
member(X, cons(Y, L)) :- member(X, L).
