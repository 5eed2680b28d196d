% Ports per second of SWI-Prolog's own tracer when it only counts call, exit, redo and fail, occurs check on. Input: case(Name, Goal, Clauses); prints
% the name, the ports of one walk and their rate.
:- use_module(rate).
:- set_prolog_flag(occurs_check, true).

user:prolog_trace_interception(_, _, _, continue) :-
    nb_getval(ports, Counter),
    arg(1, Counter, Before),
    After is Before + 1,
    nb_setarg(1, Counter, After).

%  The ports of so many walks, each up to its first answer or fail.
ports(Walks, Goal, Ports) :-
    nb_setval(ports, ports(0)),
    trace,
    \+ ( between(1, Walks, _), ( Goal -> fail ) ),
    notrace, nodebug,
    nb_getval(ports, ports(Ports)).

run(case(Name, Goal, Clauses)) :-
    forall(member(Clause, Clauses), assertz(Clause)),
    ports(1, Goal, Ports),
    best_rate(ports(1000, Goal), Rate),
    format("~w ~w ~0f~n", [Name, Ports, Rate]),
    forall(member(( Head :- _ ), Clauses), retractall(Head)).

main :- visible(-all), maplist([Port]>>visible(+Port), [call, exit, redo, fail]), leash(-all), cases.
cases :- read(Case), ( Case == end_of_file -> true ; run(Case), cases ).
