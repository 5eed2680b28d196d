% Three bays with three slips. The desk reads all of it and warns of each slip.
taken(bay1).
taken(bay2).
free(bay3).
light(Bay, red) :- takken(Bay).
light(Bay, green) :- free(Bay).
fuse(bay1, left).
fuse(bay2, right).
blown(left).
dark(Bay, Fuse) :- fuse(Bay, Fuse), blown(Fuze).
taken(bay4).
