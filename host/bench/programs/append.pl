append(nil, L, L).
append(cons(H, T), L, cons(H, R)) :- append(T, L, R).
