% Boxes compiled around the goals of the canonical form. Each definition becomes one clause in whose body every goal stands in its own box:
%
%     Call, ( Inside ; Fail, fail ), ( Exit ; Redo, fail )
%
% Call, Exit, Fail and Redo are what an event does: it is printed (port, depth, and the goal with the bindings of the moment) or only counted.
% Goals are true, fail, eq(T1,T2), and(A,B), or(A,B) and atoms. A clause has one more argument than its atom: the depth of its body, or the counter.
:- module(boxes, [with_boxes/4]).
:- use_module(library(modules)).
:- use_module(events, []).

%  with_boxes(Does, Definitions, Goal, Wanted): Does is printed or counted, Definitions a list of definition(Head, Body). Calls Wanted with one more
%  argument: the goal in its boxes, which still lacks its last argument.
:- meta_predicate with_boxes(+, +, +, 1).
with_boxes(Does, Definitions, Goal, Wanted) :-
    in_temporary_module(Module, compiled(Module, Does, [definition(query, Goal)|Definitions]), call(Wanted, Module:query)).

% An atom without a definition fails.
compiled(Module, Does, Definitions) :-
    set_prolog_flag(Module:unknown, fail),
    forall(member(Definition, Definitions), ( clause_of(Definition, Does, Clause), assertz(Module:Clause) )).

clause_of(definition(Head, Goal), Does, ( Entry :- Body )) :-
    entry(Head, Last, Entry),
    boxed(Goal, Does, Last, 0, Body).

entry(Atom, Last, Entry) :-
    Atom =.. Parts,
    append(Parts, [Last], Longer),
    Entry =.. Longer.

%  boxed(Goal, Does, Last, Under, Body): a goal that stands Under levels below its clause, whose last argument is Last.
boxed(Goal, Does, Last, Under, ( Call, ( Inside ; Fail, fail ), ( Exit ; Redo, fail ) )) :-
    maplist(event(Does, Goal, Last, Under), [call, exit, fail, redo], [Call, Exit, Fail, Redo]),
    Below is Under + 1,
    inside(Goal, Does, Last, Below, Inside).

event(printed, Goal, Depth, Under, Port, events:printed(Port, Depth, Under, Goal)).
event(counted, _, Counter, _, _, events:counted(Counter)).

inside(true, _, _, _, true) :- !.
inside(fail, _, _, _, fail) :- !.
inside(eq(T1, T2), _, _, _, unify_with_occurs_check(T1, T2)) :- !.
inside(and(A, B), Does, Last, Below, ( BoxA, BoxB )) :- !, boxed(A, Does, Last, Below, BoxA), boxed(B, Does, Last, Below, BoxB).
inside(or(A, B), Does, Last, Below, ( BoxA ; BoxB )) :- !, boxed(A, Does, Last, Below, BoxA), boxed(B, Does, Last, Below, BoxB).
inside(Atom, printed, Depth, Below, ( Deeper is Depth + Below, Entry )) :- entry(Atom, Deeper, Entry).
inside(Atom, counted, Counter, _, Entry) :- entry(Atom, Counter, Entry).
