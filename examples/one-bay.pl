taken(bay1).
light(Bay, red) :- taken(Bay).
light(Bay, green) :- free(Bay).
