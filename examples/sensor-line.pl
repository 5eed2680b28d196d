next(sensor3, sensor2).
next(sensor2, sensor1).
next(sensor1, box).
line(From, From).
line(From, To) :- next(From, Between), line(Between, To).
