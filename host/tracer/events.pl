% What an event does: it is printed, up to a limit, or counted. Both take a goal in its boxes, which ends at its first answer or in fail.
:- module(events, [printing/2, printed/4, counting/3, counted/1]).
:- meta_predicate printing(+, 1), counting(+, -, 1).

printing(Limit, Boxes) :-
    nb_setval(left, Limit),
    catch(( call(Boxes, 0) -> true ; true ), limit, true).

printed(Port, Above, Under, Goal) :-
    nb_getval(left, Left),
    (   Left =:= 0 -> throw(limit) ; true ),
    Fewer is Left - 1,
    nb_setval(left, Fewer),
    Depth is Above + Under,
    \+ \+ ( numbervars(Goal, 0, _),
            format("~w ~w ", [Port, Depth]),
            write_term(Goal, [numbervars(false), ignore_ops(true)]), nl ).

%  The events of so many walks.
counting(Walks, Events, Boxes) :-
    Counter = events(0),
    \+ ( between(1, Walks, _), ( call(Boxes, Counter) -> fail ) ),
    arg(1, Counter, Events).

counted(Counter) :- arg(1, Counter, Before), After is Before + 1, nb_setarg(1, Counter, After).
