% Events per second of a goal that is walked again and again: the best of three times of half a second of processor time.
:- module(rate, [best_rate/2]).
:- meta_predicate best_rate(1, -).

best_rate(Walk, Best) :-
    findall(Rate, ( between(1, 3, _), rate(Walk, Rate) ), Rates),
    max_list(Rates, Best).

%  Walk is called with one more argument, the number of its events.
rate(Walk, Rate) :-
    statistics(cputime, Start),
    walked(Walk, Start, 0, Rate).

walked(Walk, Start, Before, Rate) :-
    call(Walk, Events),
    After is Before + Events,
    statistics(cputime, Now),
    Seconds is Now - Start,
    (   Seconds < 0.5
    ->  walked(Walk, Start, After, Rate)
    ;   Rate is After / Seconds
    ).
