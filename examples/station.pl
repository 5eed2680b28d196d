% The station garage: four decks, on each of them a north and a south row of five bays.
%
%              lift                 ramp
%   deck4  n4   1   2   3   4   5    s4 likewise, across the drive
%   deck3  n3   1   2   3   4   5    s3
%   deck2  n2   1   2   3   4   5    s2
%   deck1  n1   1   2   3   4   5    s1
%
% A bay is bay(Row, Place); places count from the lift.

% row(Row, Deck, Side)
row(n1, deck1, north).
row(s1, deck1, south).
row(n2, deck2, north).
row(s2, deck2, south).
row(n3, deck3, north).
row(s3, deck3, south).
row(n4, deck4, north).
row(s4, deck4, south).

% place(Place, Where): the places of every row.
place(1, lift).
place(2, drive).
place(3, drive).
place(4, drive).
place(5, drive).

% use(Row, Kind): what the bays along the drive are for.
use(n1, open).
use(s1, charging).
use(n2, open).
use(s2, season).
use(n3, charging).
use(s3, open).
use(n4, season).
use(s4, charging).

% reserved(Bay, Who)
reserved(bay(n1, 2), taxi).
reserved(bay(n1, 3), taxi).
reserved(bay(s2, 5), police).
reserved(bay(s3, 2), car_club).
reserved(bay(s3, 3), car_club).

% kind(Bay, Kind): the bay at the lift is for the disabled, the others are as their row.
kind(bay(Row, Place), disabled) :- row(Row, _, _), place(Place, lift).
kind(bay(Row, Place), Kind) :- use(Row, Kind), place(Place, drive).

% taken(Row, Place), free(Row, Place), held(Row, Place): what the sensors say. A reserved bay is
% held while nobody is there.
taken(n1, 1).
taken(n1, 2).
taken(n1, 4).
taken(s1, 2).
taken(s1, 3).
taken(s1, 4).
taken(s1, 5).
taken(n2, 1).
taken(n2, 2).
taken(n2, 3).
taken(n2, 4).
taken(n2, 5).
taken(s2, 2).
taken(s2, 3).
taken(n3, 2).
taken(n3, 3).
taken(n3, 5).
taken(s3, 1).
taken(s3, 3).
taken(s3, 5).
taken(n4, 4).
taken(s4, 2).
taken(s4, 5).
free(n1, 5).
free(s1, 1).
free(s2, 1).
free(s2, 4).
free(n3, 1).
free(n3, 4).
free(s3, 4).
free(n4, 1).
free(n4, 2).
free(n4, 3).
free(n4, 5).
free(s4, 1).
free(s4, 3).
free(s4, 4).
held(n1, 3).
held(s2, 5).
held(s3, 2).

% colour(Kind, Colour): the light of a free bay.
colour(open, green).
colour(season, yellow).
colour(charging, white).
colour(disabled, blue).

% light(Bay, Colour): the light over a bay.
light(bay(Row, Place), red) :- taken(Row, Place).
light(bay(Row, Place), purple) :- held(Row, Place).
light(bay(Row, Place), Colour) :-
    free(Row, Place), kind(bay(Row, Place), Kind), colour(Kind, Colour).

% guide(Kind, Deck, Bay): the signs at the gate and on the ramps lead to a free bay of the kind.
guide(Kind, Deck, bay(Row, Place)) :-
    use(Row, Kind), row(Row, Deck, _), free(Row, Place), place(Place, drive).
guide(disabled, Deck, bay(Row, 1)) :- row(Row, Deck, _), free(Row, 1).

% full(Row): the cross at the head of a row.
full(Row) :-
    row(Row, _, _),
    taken(Row, 1), taken(Row, 2), taken(Row, 3), taken(Row, 4), taken(Row, 5).

% box(Deck, Box), half(Side, Half): a row is plugged into half a box.
box(deck1, box1).
box(deck2, box2).
box(deck3, box3).
box(deck4, box4).
half(north, upper).
half(south, lower).

% channel(Half, Place, Channel): the ten channels of a box.
channel(upper, 1, 1).
channel(upper, 2, 2).
channel(upper, 3, 3).
channel(upper, 4, 4).
channel(upper, 5, 5).
channel(lower, 1, 6).
channel(lower, 2, 7).
channel(lower, 3, 8).
channel(lower, 4, 9).
channel(lower, 5, 10).

% wired(Bay, Box, Channel): the channel that the cable of a bay's sensor takes.
wired(bay(Row, Place), Box, Channel) :-
    row(Row, Deck, Side), box(Deck, Box), half(Side, Half), channel(Half, Place, Channel).

% cable(From, To, Size): the power cables, from the main board up to the rows.
cable(main, riser, 63).
cable(riser, box1, 63).
cable(riser, box2, 32).
cable(riser, box3, 63).
cable(riser, box4, 63).
cable(box1, n1, 16).
cable(box1, s1, 32).
cable(box2, n2, 16).
cable(box2, s2, 16).
cable(box3, n3, 32).
cable(box3, s3, 16).
cable(box4, n4, 16).
cable(box4, s4, 16).

% route(From, To, Way): the way of a cable.
route(From, To, last(To)) :- cable(From, To, _).
route(From, To, via(Next, Way)) :- cable(From, Next, _), route(Next, To, Way).

% needs(Kind, Size): the cable that a row of the kind needs.
needs(open, 16).
needs(season, 16).
needs(charging, 32).

% smaller(Size, Size), thin(Row, Size): a row whose cable is smaller than it needs.
smaller(16, 32).
smaller(16, 63).
smaller(32, 63).
thin(Row, Size) :-
    use(Row, Kind), needs(Kind, Needed), cable(_, Row, Size), smaller(Size, Needed).

% across(Row, Row), above(Row, Row), near(Row, Row): neighbours.
across(n1, s1).
across(n2, s2).
across(n3, s3).
across(n4, s4).
above(n1, n2).
above(n2, n3).
above(n3, n4).
above(s1, s2).
above(s2, s3).
above(s3, s4).
near(Row, Other) :- across(Row, Other).
near(Row, Other) :- above(Row, Other).

% phase(Phase), differ(Phase, Phase): one of three phases feeds a row, and neighbours differ.
phase(l1).
phase(l2).
phase(l3).
differ(l1, l2).
differ(l1, l3).
differ(l2, l1).
differ(l2, l3).
differ(l3, l1).
differ(l3, l2).

% phases(N1, S1, N2, S2, N3, S3, N4, S4): a phase for each row. All are chosen first and looked at
% afterwards: the charging rows s1, n3, s4 differ, n1 is fed from l1, and neighbours differ.
phases(N1, S1, N2, S2, N3, S3, N4, S4) :-
    phase(N1), phase(S1), phase(N2), phase(S2), phase(N3), phase(S3), phase(N4), phase(S4),
    differ(S1, N3), differ(S1, S4), N1 = l1, differ(N3, S4),
    differ(N1, S1), differ(N2, S2), differ(N3, S3), differ(N4, S4),
    differ(N1, N2), differ(N2, N3), differ(N3, N4),
    differ(S1, S2), differ(S2, S3), differ(S3, S4).

% early(N1, S1, N2, S2, N3, S3, N4, S4): the same sheets, each phase looked at when it is chosen.
early(N1, S1, N2, S2, N3, S3, N4, S4) :-
    N1 = l1, differ(N1, S1),
    differ(N1, N2), differ(N2, S2), differ(S1, S2),
    differ(N2, N3), differ(S1, N3), differ(N3, S3), differ(S2, S3),
    differ(S1, S4), differ(N3, S4), differ(S3, S4), differ(N3, N4), differ(N4, S4).

% fed(Row, Phase): what was built.
fed(n1, l1).
fed(s1, l2).
fed(n2, l2).
fed(s2, l1).
fed(n3, l3).
fed(s3, l2).
fed(n4, l2).
fed(s4, l1).

% clash(Phase, Row, Other): neighbours on one phase, which must not be.
clash(Phase, Row, Other) :- near(Row, Other), fed(Row, Phase), fed(Other, Phase).
