% The clauses as SWI-Prolog's own predicates, occurs check on: its answers in order, the list that findall makes of them, and what its own tracer shows at
% call and exit of them. Input: case(Number, Answers, Listing, Ports, Asked, Goal, Values, Clauses, Predicates). Predicates lists every Name/Arity, those
% without clauses too; the first Answers answers of Asked are printed as Values, then Listing of them from one list, all or so many, then the first Ports
% ports of a call of Goal up to its first answer. Variables are numbered from 0.
:- set_prolog_flag(occurs_check, true).
:- dynamic listed/1.

shown(Word, Term) :-
    \+ \+ ( numbervars(Term, 0, _),
            write(Word), put_char(' '), write_term(Term, [numbervars(false), ignore_ops(true)]), nl ).

one_less(Name) :- nb_getval(Name, Left), Left > 0, Fewer is Left - 1, nb_setval(Name, Fewer).

answers(0, _, _) :- !.
answers(Most, Goal, Values) :-
    nb_setval(answers, Most),
    call_with_inference_limit(( call(Goal), one_less(answers), shown(answer, Values), nb_getval(answers, 0) -> true ; true ), 2000000, End),
    (   End == inference_limit_exceeded -> writeln(endless) ; true ).

gathered(0, _, _) :- !.
gathered(Listing, Goal, Values) :-
    call_with_inference_limit(list(Listing, Goal, Values, List), 2000000, End),
    (   End == inference_limit_exceeded -> writeln(unlisted) ; forall(member(Each, List), shown(listed, Each)) ).

list(all, Goal, Values, List) :- !, findall(Values, Goal, List).
list(Most, Goal, Values, List) :- findnsols(Most, Values, Goal, List), !.

% After the last port wanted every goal is made to fail, so that an endless walk ends too.
user:prolog_trace_interception(Port, Frame, _, Action) :-
    prolog_frame_attribute(Frame, goal, Qualified),
    strip_module(Qualified, _, Goal),
    (   \+ ( functor(Goal, Name, Arity), listed(Name/Arity) ) -> Action = continue
    ;   one_less(ports) -> shown(Port, Goal), Action = continue
    ;   Action = fail
    ).

traced(0, _) :- !.
traced(Most, Goal) :- nb_setval(ports, Most), trace, ( call(Goal) -> true ; true ), !, notrace, nodebug.
traced(_, _) :- notrace, nodebug.

forget :- forall(retract(listed(Name/Arity)), ( functor(Head, Name, Arity), retractall(Head) )).

run(case(Number, Answers, Listing, Ports, Asked, Goal, Values, Clauses, Predicates)) :-
    forget,
    forall(member(Name/Arity, Predicates), ( dynamic(Name/Arity), assertz(listed(Name/Arity)) )),
    forall(member(Clause, Clauses), assertz(Clause)),
    format("case ~w~n", [Number]),
    \+ \+ answers(Answers, Asked, Values),
    \+ \+ gathered(Listing, Asked, Values),
    traced(Ports, Goal).

main :- visible(-all), visible(+call), visible(+exit), leash(-all), cases.
cases :- read(Case), ( Case == end_of_file -> true ; run(Case), cases ).
