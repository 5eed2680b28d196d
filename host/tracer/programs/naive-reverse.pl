append(nil, L, L).
append(cons(H, T), L, cons(H, R)) :- append(T, L, R).
reverse(nil, nil).
reverse(cons(H, T), R) :- reverse(T, S), append(S, cons(H, nil), R).
