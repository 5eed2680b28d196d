select(X, cons(X, T), T).
select(X, cons(H, T), cons(H, R)) :- select(X, T, R).
permutation(nil, nil).
permutation(L, cons(X, P)) :- select(X, L, R), permutation(R, P).
