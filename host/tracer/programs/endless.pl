nat(zero).
nat(next(N)) :- nat(N).
