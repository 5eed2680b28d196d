taken(bay1).
taken(bay2).
free(bay3).
sign(full) :- taken(bay1), taken(bay2), taken(bay3).
sign(places(Bay)) :- free(Bay).
