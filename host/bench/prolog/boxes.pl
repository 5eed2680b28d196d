% Events per second of boxes that only count. Input: case(Name, Goal, Definitions); prints the name, the events of one walk and their rate.
:- use_module('../../tracer/boxes').
:- use_module('../../tracer/events').
:- use_module(rate).

run(case(Name, Goal, Definitions)) :- with_boxes(counted, Definitions, Goal, measured(Name)).

measured(Name, Boxes) :-
    counting(1, Events, Boxes),
    best_rate(walks(Boxes), Rate),
    format("~w ~w ~0f~n", [Name, Events, Rate]).

walks(Boxes, Events) :- counting(1000, Events, Boxes).

main :- read(Case), ( Case == end_of_file -> true ; run(Case), main ).
