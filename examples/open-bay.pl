light(L) :- L = over(Bay).
ready :- Sensor = on.
first(L) :- L = over(bay1).
