% Texts read by SWI-Prolog's own reader, with its own table of operators. Input: case(Number, Kind, Codes), Kind clauses or goal; a goal comes without its
% full stop. For each clause, or for the goal, its term is printed, functor first, with variables numbered from 0 as they occur; then, where the text is
% refused, `refused` and why: `syntax` where SWI-Prolog cannot read it, else the word for what it reads and our language does not have. What it reads is
% looked at with the places of its parts, which show brackets and operators as they are written.

written((:-), '$clause').
written((','), '$and').
written((;), '$or').
written((=), '$equal').

% ---- The language: each fails by throwing its word
no(Word) :- throw(not_ours(Word)).

is_name(Name) :- atom(Name), atom_codes(Name, [First|_]), code_type(First, lower).

is_infix(term_position(From, _, At, _, [_, _])) :- At > From.

whole_clause((Head :- Body), Place) :- is_infix(Place), !, arg(5, Place, [HeadPlace, BodyPlace]), head(Head, HeadPlace), goal(Body, BodyPlace).
whole_clause(Head, Place) :- head(Head, Place).

head(Head, _) :- \+ callable(Head), !, no(head_is_no_name).
head(_, parentheses_term_position(_, _, _)) :- !, no(brackets_around_a_head).
head(Head, _) :- ( Head == true ; Head == fail ), !, no(true_or_fail_as_a_head).
head(Head, Place) :- atom_or_compound(Head, Place).

goal(Goal, parentheses_term_position(_, _, Place)) :- !, goal(Goal, Place).
goal(Goal, _) :- \+ callable(Goal), !, no(variable_or_number_as_a_goal).
goal(Goal, Place) :- is_infix(Place), !, arg(5, Place, [Left, Right]), joined(Goal, Left, Right).
goal(Goal, Place) :- atom_or_compound(Goal, Place).

joined((One , Other), Left, Right) :- !, goal(One, Left), goal(Other, Right).
joined((One ; Other), Left, Right) :- !, goal(One, Left), goal(Other, Right).
joined(One = Other, Left, Right) :- !, term(One, Left), term(Other, Right).
joined(_, _, _) :- no(operator_within_a_goal).

term(_, parentheses_term_position(_, _, _)) :- !, no(brackets_around_a_term).
term(Term, _) :- ( var(Term) ; integer(Term) ), !.
term(_, Place) :- is_infix(Place), !, no(operator_within_a_term).
term(Term, Place) :- atom_or_compound(Term, Place).

atom_or_compound(Name, _) :- atom(Name), !, ( is_name(Name) -> true ; no(operator_as_a_name) ).
atom_or_compound(Term, Place) :-
    compound_name_arguments(Term, Name, Arguments),
    (   Arguments == [] -> no(no_arguments) ; true ),
    (   Place = term_position(From, _, From, _, Places), is_name(Name) -> true ; no(operator_as_a_name) ),
    maplist(term, Arguments, Places).

% ---- Reading and printing
shown(Term) :- \+ \+ ( numbervars(Term, 0, _), printed(Term), nl ).

printed('$VAR'(Number)) :- !, format("_~w", [Number]).
printed(Atomic) :- atomic(Atomic), !, write(Atomic).
printed(Term) :-
    compound_name_arguments(Term, Name, [First|Rest]),
    (   written(Name, Shown) -> true ; Shown = Name ),
    write(Shown), put_char('('), printed(First), forall(member(Each, Rest), ( put_char(','), printed(Each) )), put_char(')').

with_body((Head :- Body), (Head :- Body)) :- !.
with_body(Head, (Head :- true)).

next(Stream, Term, Place) :- read_term(Stream, Term, [subterm_positions(Place), syntax_errors(error)]).

read_all(clauses, Stream) :-
    next(Stream, Term, Place),
    (   Term == end_of_file -> true
    ;   whole_clause(Term, Place), with_body(Term, Clause), shown(Clause), read_all(clauses, Stream)
    ).
read_all(goal, Stream) :-
    next(Stream, Goal, Place),
    (   Goal == end_of_file -> no(nothing) ; goal(Goal, Place) ),
    next(Stream, Rest, _),
    (   Rest == end_of_file -> shown(Goal) ; no(more_than_a_goal) ).

refusal(error(syntax_error(_), _), syntax).
refusal(not_ours(Word), Word).

run(case(Number, Kind, Codes)) :-
    format("case ~w~n", [Number]),
    (   Kind == goal -> append(Codes, [0' , 0'., 0'\n], Whole) ; Whole = Codes ),
    atom_codes(Text, Whole),
    open_string(Text, Stream),
    catch(read_all(Kind, Stream), Error, ( refusal(Error, Word) -> format("refused ~w~n", [Word]) ; throw(Error) )).

main :- read(Case), ( Case == end_of_file -> true ; run(Case), main ).
