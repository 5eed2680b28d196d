% The events of many walks, printed. Input: case(Number, Limit, Goal, Definitions), as with_boxes/4 takes them.
:- use_module(boxes).
:- use_module(events).

run(case(Number, Limit, Goal, Definitions)) :-
    format("case ~w~n", [Number]),
    with_boxes(printed, Definitions, Goal, printing(Limit)).

main :- read(Case), ( Case == end_of_file -> true ; run(Case), main ).
