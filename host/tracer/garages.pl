% swipl garages.pl -- RULES GOAL: a line for each answer of the goal under the rules, its named variables as Name=value, parted by |.
:- initialization(main, main).

main :-
    current_prolog_flag(argv, [Rules, Asked]),
    style_check(-singleton),
    style_check(-discontiguous),
    set_prolog_flag(garage:unknown, fail),
    load_files(garage:Rules, [silent(true)]),
    atom_to_term(Asked, Goal, Bindings),
    include(is_named, Bindings, Named),
    forall(garage:Goal, (maplist(shown, Named, Texts), atomic_list_concat(Texts, '|', Line), writeln(Line))).

is_named(Name = _) :- \+ sub_atom(Name, 0, 1, _, '_').

shown(Name = Value, Text) :- var(Value), !, atom_concat(Name, '=_', Text).
shown(Name = Value, Text) :- format(atom(Text), '~w=~@', [Name, write_term(Value, [spacing(next_argument)])]).
